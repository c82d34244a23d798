"""Random runs of the program: the cases, and how their runs are looked at."""
