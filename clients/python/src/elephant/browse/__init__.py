"""A page on this machine that shows the past of a journal or of a mounted folder, and brings it back. docs/BROWSE.md describes it."""
