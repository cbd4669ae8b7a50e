"""People and what they send: who signs in as whom, tables of declarations."""
