"""The packages of Debian that a check needs: whether they are there, and how they are installed, if this user may."""
from __future__ import annotations

import os
import shutil
import subprocess
from typing import Sequence

from shared.paths import SYSTEM_PYTHON


def has_module(module: str) -> bool:
    """Whether the Python of the system has a module."""
    return subprocess.run([SYSTEM_PYTHON, "-c", f"import {module}"], capture_output=True).returncode == 0


def has_program(program: str) -> bool:
    """Whether a program is there, which may be one for the system alone."""
    return shutil.which(program) is not None or os.path.exists(os.path.join("/usr/sbin", program))


def may_install() -> bool:
    """Whether packages can be installed here: what is then still missing is a failure of the check, and no reason to leave cases out."""
    return os.geteuid() == 0 and shutil.which("apt-get") is not None


def install(packages: Sequence[str]) -> None:
    """Installs packages. A new machine has no lists of them, so that these are brought first. What can't be installed stays missing."""
    if not packages or not may_install():
        return
    environment = {**os.environ, "DEBIAN_FRONTEND": "noninteractive"}
    for words in (["update"], ["install", "-y", "--no-install-recommends", *packages]):
        try:
            subprocess.run(["apt-get", *words], stdin=subprocess.DEVNULL, capture_output=True, env=environment, timeout=300)
        except subprocess.TimeoutExpired:
            return
