"""The exchange of notices with other registries."""
