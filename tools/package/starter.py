#!/usr/bin/env python3
"""Runs the `tilt-data` that tools/package/install puts beside the program: its modules are in PREFIX/lib/tilt-data."""
import os
import sys

PREFIX = os.path.dirname(os.path.dirname(os.path.realpath(__file__)))
sys.path.insert(0, os.path.join(PREFIX, "lib", "tilt-data"))
os.environ.setdefault("TILT", os.path.join(PREFIX, "bin", "tilt"))

from tilt_data.cli import main

# Workers of `scale` read this file again, and don't start the command.
if __name__ == "__main__":
    sys.exit(main())
