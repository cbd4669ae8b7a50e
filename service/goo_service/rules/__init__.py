"""The rules of docs/REGISTRY.md written down a second time, apart from the registry's program."""
