"""The text language of `casetext.py`, and traces."""
