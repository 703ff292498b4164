"""The version, and what is known of the commit, the toolchain and the program. `VERSION` is the one place that defines it: the Python
package, the Debian package, releases and all that is written take it from here."""
from __future__ import annotations

import contextlib
import hashlib
import os
import pathlib
import shutil
import subprocess

from .errors import Refused, printable
from .program import TOP, program

VERSION = "0.1.0"
# What install, debian.py and wheel.py of tools/package write beside the modules, and the tool that prints it in a checkout.
RECORD = pathlib.Path(__file__).with_name("described.toml")
DESCRIBER = TOP / "tools" / "package" / "describe"


def version_lines() -> list[str]:
    """The version, the commit, the toolchain that built the program, the program's path and its SHA-256."""
    path = digest = None
    with contextlib.suppress(Refused):
        # It can be named as on the command line.
        path = shutil.which(program()) or program()
    with contextlib.suppress(OSError), open(path or "", "rb") as file:
        digest = hashlib.file_digest(file, "sha256").hexdigest()
    known = described(path)
    toolchain = known.get("toolchain") if digest is not None and digest == known.get("program") else None
    return [
        f"tilt-data {VERSION}",
        f"commit: {known.get('commit', 'unknown')}",
        f"toolchain: {toolchain or 'unknown'}",
        f"program: {'none' if path is None else printable(path)}",
        f"sha256: {digest or 'unknown'}",
    ]


def described(path: str | None) -> dict[str, str]:
    """What is known, by `commit`, `toolchain` and `program`: of the program that was installed with a package, in a checkout of any."""
    import tomllib

    if RECORD.exists():
        return tomllib.loads(RECORD.read_text(encoding="utf-8"))
    if not os.access(DESCRIBER, os.X_OK):
        return {}
    words = [str(DESCRIBER), *([] if path is None else [path])]
    return tomllib.loads(subprocess.run(words, stdin=subprocess.DEVNULL, capture_output=True, text=True, check=True).stdout)
