"""What several parts of the service use."""
