"""The checks of the gate, and the second program for the meaning of queries."""
