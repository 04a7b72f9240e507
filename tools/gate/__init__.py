"""What builds, proves and installs."""
