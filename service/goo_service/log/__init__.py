"""The log of requests: entries, its order, who may add to it, and what applies it."""
