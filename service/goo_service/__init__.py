"""What stands around the registry of guarantees of origin."""
