"""The records of acts: the book, how it follows the log, and what it answers."""
