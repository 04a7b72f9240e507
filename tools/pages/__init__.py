"""What checks and writes pages."""
