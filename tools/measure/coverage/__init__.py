"""Which functions and branches of the program the checks reach: run.py begins it, and says what it does."""
