"""`casetext.py run`."""
