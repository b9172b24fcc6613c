"""Runs the built program on the cases of `tests/cases` and compares exit status and every byte."""
