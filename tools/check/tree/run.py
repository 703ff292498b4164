#!/usr/bin/env python3
"""Looks at the tree of files as it stands, in less than a minute, before anything is proved or run:

- Python is laid out and named as its tools want it, has types, and its tests are found (`python_files.py`).
- The map, docs/internals/ARCHITECTURE.md, says of the files what is so, and leaves none out (`architecture.py`).
- crates.txt lists each crate with the libraries that it names, and with no others (`listed.py`).
- Each edit that a proof has to refuse applies to the code, exactly once (`edits.py`).
- No line is too long (`lines.py`).
- The pages have no words of a list, and no long sentences (`style.py`). Nor do the manual pages, `--help` and messages (`texts.py`), and
  the comments in crates/ (`comments.py`).

What is wrong is printed with its file and its line, and how long each of these takes. The Debian packages that are missing are installed,
if this user may. The last line is 'N passed, M failed', and the status is 1 if one failed."""
from __future__ import annotations

import os
import sys
import time
from typing import Callable

sys.path.insert(0, os.path.dirname(os.path.dirname(os.path.dirname(os.path.realpath(__file__)))))

from check.tree.architecture import check_map
from check.tree.comments import check_comments
from check.tree.edits import check_edits
from check.tree.lines import check_lines
from check.tree.listed import check_listed
from check.tree.python_files import check_python
from check.tree.style import check_style
from check.tree.texts import check_texts
from shared.paths import TOP
from shared.tally import Tally

CHECKS: dict[str, Callable[[str, Tally], None]] = {
    "edits": check_edits,
    "map": check_map,
    "lines": check_lines,
    "crates.txt": check_listed,
    "style": check_style,
    "texts": check_texts,
    "comments": check_comments,
    "Python": check_python,
}


def main() -> int:
    tally = Tally()
    for name, check in CHECKS.items():
        begin, failed = time.monotonic(), tally.failed
        check(TOP, tally)
        end = "good" if tally.failed == failed else f"{tally.failed - failed} failed"
        print(f"{name}: {end}, {time.monotonic() - begin:.1f} s", flush=True)
    return tally.end()


if __name__ == "__main__":
    sys.exit(main())
