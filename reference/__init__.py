"""The parts of reference/oracle.py: a second program, written from docs/ alone, that knows nothing of the first."""
