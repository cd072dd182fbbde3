"""What the full check or a developer runs. The standard library alone."""
