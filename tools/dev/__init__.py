"""For whoever changes the repository."""
