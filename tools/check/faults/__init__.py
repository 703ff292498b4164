"""The check of every fault of the system: run.py begins it, and says what it does."""
