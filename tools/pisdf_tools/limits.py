"""The limits of files and runs. A test compares them with the tables of docs/FORMATS.md."""
GRAPH_FILE_BYTES = 4_194_304
TOKEN_FILE_BYTES = 67_108_864
JOURNAL_FILE_BYTES = 67_108_864
JSON_NESTING = 127
NAME_BYTES = 64
EXPRESSION_BYTES = 1_024
OPEN_PARENTHESES = 32
PARAMETER_HIGH = 2_147_483_647
LEAST_WHOLE, GREATEST_WHOLE = -(1 << 63), (1 << 63) - 1
VERSIONS = (1, 2, 3)

NESTED_GRAPHS = 8
GRAPHS = 32
# Parts of a graph, in the order in which they are counted.
PARTS = {"params": 64, "inputs": 32, "outputs": 32, "actors": 64, "fifos": 128, "exports": 64}
DELAY = 65_536
HOLD = 262_144

RATE = 262_144
BASE_ENTRY = 1_024
FIRINGS = 2_048
LINKS = 8_192
TOKENS = 1_048_576

ITERATIONS = 65_536
WORKERS = 16
SOAK_NUMBER = 65_535
UNFOLD_TIMES = 64


def is_whole(number):
    """Whether a number is a whole number of 64 bits."""
    return LEAST_WHOLE <= number <= GREATEST_WHOLE
