"""What checks the mounted folder."""
