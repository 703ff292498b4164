"""Python: its layout by black, its names by pyflakes, its types by mypy, and that pytest finds its tests. The first three take what they
hold to from pyproject.toml."""
from __future__ import annotations

import concurrent.futures
import glob
import os
import re
import subprocess
from typing import Iterable

from shared.packages import has_module, install, may_install
from shared.paths import SYSTEM_PYTHON
from shared.tally import Tally

# The packages of Debian, and the module that tells that one is there.
MODULES = {"black": "black", "mypy": "mypy", "pyflakes3": "pyflakes", "python3-pytest": "pytest"}
FOLDERS = ["bench", "examples", "python", "tools"]
# What an installation leaves.
BUILT = os.path.join("python", "build", "")


def missing() -> list[str]:
    return [package for package, module in MODULES.items() if not has_module(module)]


def note_missing(tally: Tally) -> list[str]:
    """Installs what is missing. What can't be had though this user may install is a failure, and what can't be had at all is left out."""
    install(missing())
    lacking = missing()
    if lacking and may_install():
        tally.expect(False, f"it couldn't be installed: {', '.join(lacking)}")
    tally.left_out += [f"what {package} looks at: it isn't installed" for package in lacking]
    return lacking


def is_python(path: str) -> bool:
    """Whether a file is Python by its suffix or by its first line."""
    if path.endswith(".py"):
        return True
    with open(path, "rb") as file:
        first = file.readline(80)
    return "." not in os.path.basename(path) and first.startswith(b"#!") and b"python" in first


def python_files(top: str) -> list[str]:
    paths = [path for folder in FOLDERS for path in glob.glob(os.path.join(top, folder, "**", "*"), recursive=True)]
    files = sorted(os.path.relpath(path, top) for path in paths if os.path.isfile(path) and is_python(path))
    return [file for file in files if not file.startswith(BUILT)]


def printed(top: str, *words: str) -> tuple[int, list[str]]:
    """What a module of the system's Python ends with, and the lines that it prints."""
    environment = {**os.environ, "PYTHONDONTWRITEBYTECODE": "1"}
    command = [SYSTEM_PYTHON, "-m", *words]
    done = subprocess.run(
        command, cwd=top, env=environment, stdin=subprocess.DEVNULL, capture_output=True, encoding="utf-8", errors="replace"
    )
    return done.returncode, (done.stdout + done.stderr).splitlines()


def note_files(files: Iterable[str], wrong: list[str], status: int, lines: list[str], tally: Tally) -> None:
    """A failure for each line that is wrong; each file without one has passed. A status without such a line is a failure too."""
    if status and not wrong:
        wrong = ["\n".join(lines[-20:])]
    for line in wrong:
        tally.expect(False, line)
    tally.add(len(set(files) - {line.partition(":")[0] for line in wrong}))


def check_layout(top: str, tally: Tally) -> None:
    files = python_files(top)
    black = ["black", "--config", "pyproject.toml"]
    status, lines = printed(top, *black, "--check", *files)
    others = [line.removeprefix("would reformat ") for line in lines if line.startswith("would reformat ")]
    others = [os.path.relpath(os.path.join(top, file), top) for file in others]
    first = first_lines(printed(top, *black, "--quiet", "--diff", *others)[1]) if others else {}
    wrong = [f"{file}:{first.get(file, 1)}: black lays it out in another way: call `black {file}`" for file in others]
    note_files(files, wrong, status, lines, tally)


def first_lines(difference: list[str]) -> dict[str, int]:
    """Of each file in a difference the first line that it shows."""
    found: dict[str, int] = {}
    file = ""
    for line in difference:
        if line.startswith("--- "):
            file = line.removeprefix("--- ").partition("\t")[0]
        hunk = re.match(r"@@ -(\d+)", line)
        if hunk:
            found.setdefault(file, int(hunk[1]))
    return found


def check_names(top: str, tally: Tally) -> None:
    files = python_files(top)
    status, lines = printed(top, "pyflakes", *files)
    note_files(files, lines, status, lines, tally)


def check_types(top: str, tally: Tally) -> None:
    status, lines = printed(top, "mypy", "--no-error-summary", "--hide-error-context", "--no-color-output")
    wrong = [line for line in lines if re.match(r"\S+:\d+: error: ", line)]
    note_files(["mypy"], wrong, status, lines, tally)


def check_collected(top: str, tally: Tally) -> None:
    """Each file of tests can be read, so that no test is lost."""
    status, lines = printed(top, "pytest", "--collect-only", "-q", "-p", "no:cacheprovider", "python/tests")
    found = [int(match[1]) for match in map(re.compile(r"(\d+) tests? collected").match, lines) if match]
    tally.add(sum(found))
    tally.expect(status == 0 and bool(found), "\n".join(lines[-20:]))


def check_python(top: str, tally: Tally) -> None:
    lacking = note_missing(tally)
    checks = {"black": check_layout, "pyflakes3": check_names, "mypy": check_types, "python3-pytest": check_collected}
    with concurrent.futures.ThreadPoolExecutor() as pool:
        for done in [pool.submit(check, top, tally) for package, check in checks.items() if package not in lacking]:
            done.result()
