"""How long lines may be. What `rt fmt` lays out on one line may be longer: a `use`, and a literal that can't be broken."""
from __future__ import annotations

import glob
import os
import re

from shared.tally import Tally

# The files of the crates, and of Python, by their patterns.
LIMITS = {
    "crates/*/src/**/*.rt": 140,
    "crates/*/specs/**/*.antt": 200,
    "crates/*/proofs/**/*.antt": 200,
    "python/tilt_data/**/*.py": 140,
    "python/tilt_data/**/*.js": 160,
    "tools/**/*.py": 140,
}
UNBROKEN = re.compile(r'(pub )?use |\s*b?"([^"\\]|\\.)*"[,;]?$')


def check_lines(top: str, tally: Tally) -> None:
    for pattern, limit in LIMITS.items():
        for path in sorted(glob.glob(os.path.join(top, pattern), recursive=True)):
            with open(path, encoding="utf-8") as file:
                lines = [(number, line.rstrip("\n")) for number, line in enumerate(file, 1)]
            wrong = [number for number, line in lines if len(line) > limit and not UNBROKEN.match(line)]
            tally.expect(not wrong, f"{os.path.relpath(path, top)}:{wrong[0] if wrong else 0}: more than {limit} characters")
