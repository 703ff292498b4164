"""The checks of the tree of files, which need neither a toolchain nor the program: run.py begins them, and says what they do."""
