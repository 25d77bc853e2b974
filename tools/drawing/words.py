"""What the exit codes of the program say."""

REFUSED_GRAPH = 2
KINDS_OF_ANSWERS = {
    0: "done",
    1: "the words are no command's",
    REFUSED_GRAPH: "the graph file is refused",
    3: "the token file is refused, or has too few tokens",
    4: "the run is refused",
    5: "a file can't be read",
    6: "a write failed",
    7: "memory ran out",
    9: "the journal is refused",
    124: "the call was ended, since it took too long",
}
