"""The set-up of a host, and what an operator asks of it."""
