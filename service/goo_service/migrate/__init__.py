"""Bringing an old registry over: its tables are checked, planned, rehearsed, sent, and compared."""
