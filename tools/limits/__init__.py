"""Scenarios at the ends of all limits."""
