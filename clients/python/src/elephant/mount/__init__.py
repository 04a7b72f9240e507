"""A folder that keeps each save of each file as a version: the command `elephant-mount`. docs/MOUNT.md describes it."""
