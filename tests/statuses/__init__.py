"""The tables of `tests/statuses.py`, by their subjects, and what runs a row."""
