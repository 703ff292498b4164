"""Where things lie in the repository and on the machine."""
from __future__ import annotations

import os
import sys

TOOLS = os.path.dirname(os.path.dirname(os.path.realpath(__file__)))
TOP = os.path.dirname(TOOLS)
# The program as it is built here; this script prints its path, and builds it first if it has to.
BUILT = os.path.join(TOP, "crates", "tilt", "out", "tilt")
FIND_PROGRAM = os.path.join(TOOLS, "package", "program")
# The tables of calls of the program.
CALLS = os.path.join(TOOLS, "check", "calls")
# The second program for the meaning of queries.
EVALUATE = os.path.join(TOOLS, "check", "evaluate.py")
# The Python of the system, which has the packages of the system.
SYSTEM_PYTHON = "/usr/bin/python3" if os.path.exists("/usr/bin/python3") else sys.executable
