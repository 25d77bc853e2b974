"""What `explain` and `check` stand on: readers that keep places, the faults of graph files, and the rules of a run."""
