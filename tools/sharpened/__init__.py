"""Sharper cases, and whether answers to them keep the order."""
