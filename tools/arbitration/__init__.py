"""The arbiter."""
