"""Copies of the registry: made each night, recounted, and gone back to."""
