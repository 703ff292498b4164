#!/usr/bin/env python3
"""Runs the commands on the pages of the repository with the built program, and compares what they print, byte for byte:
`tools/check/examples.py [PAGE ..]`. Without pages it checks all of them, and the files of the examples.

In README.md, docs/*.md, docs/internals/*.md and examples/*/README.md, a fenced block ```console has lines `$ COMMAND`, each followed by
exactly what it prints: its standard output, then its standard error, and a last line `[status N]` where its status isn't 0. A block
```file NAME has the content of a file that is written before the commands after it; the line of text before it has to name it, since a
reader doesn't see what stands at a fence. Commands are run by `sh` in one folder for each page, which
begins with a copy of `examples`, and of what is in the folder that a first line `<!-- check: FOLDER -->` names; `tilt` and the tools are on
the path. A command whose own package is missing is skipped, and told.

No other block may show a command unless the reader sees that it isn't run. Such a block is fenced ```sh, ```python, ```sql or ```ini, and
the last line of text before it has the phrase "not run by the tests". A block fails if it is fenced so and that phrase is missing, if it
has another fence than those named here, ```text and ```rust, or if it shows a command, fenced or indented by four blanks. A command is
a line that starts with `$ ` or with the name of a program that the pages use (`COMMAND` below).

What `tilt run` and `tilt flow` print is also compared with what tools/check/evaluate.py prints with the same words, but for --plain and
--cut, which change nothing of it. That is so for each such call of a line that ends with status 0, whose commands have `;` or `&&` between
them:

- a call that is the line's last command, by itself or into `| head -n N`, where each command before it has its output put into a file;
- a call whose output is put into a file by `> FILE`.

The other calls, as those into other pipes or within loops, aren't worked out again; the line before the last one says how many they are.

Besides, the series of the examples and what is expected of their queries are made again by tools/dev/make_examples.py, and compared. The
program is built first where it has to be. The last line is 'N passed, M failed', and the status is 1 where one failed, or 2 for a page that
doesn't exist."""
from __future__ import annotations

import dataclasses
import difflib
import filecmp
import glob
import os
import re
import shlex
import shutil
import subprocess
import sys
import tempfile
from typing import Iterable, Iterator, Sequence

sys.path.insert(0, os.path.dirname(os.path.dirname(os.path.realpath(__file__))))

from shared.paths import BUILT, EVALUATE, TOOLS, TOP
from shared.program import build_program
from shared.tally import Tally

EXAMPLES = ["sensors", "trading", "clinical", "fleet"]
# These pages have commands; if one has none any more, that is a failure.
WITH_COMMANDS = ["README.md"] + [f"docs/{name}.md" for name in ("TUTORIAL", "LANGUAGE", "COMMANDS", "ERRORS", "DATA", "COOKBOOK")]
WITH_COMMANDS += [f"docs/{name}.md" for name in ("OPERATORS", "LIVE", "PARTS", "RUNNING_SESSIONS", "SCALE", "PYTHON")]
WITH_COMMANDS += [f"examples/{name}/README.md" for name in EXAMPLES]
# What a command needs besides: a module of the system's Python, or a program.
MODULES = {"tilt-data plot": "matplotlib", "python3 bakery.py": "pandas", "python3 known.py": "pandas"}
PROGRAMS = {"m4": "m4"}
# A call of `run` or `flow`, wherever it stands in a line; and what the shell changes in a word.
RUN = re.compile(r"(?<![\w./-])tilt (?:run|flow)\s")
CHANGED = re.compile(r"[$`*?~\[]")
SIGNS = "();<>|&"
# What a fence may say besides `console` and `file`: a block that isn't run, and texts without commands.
NOT_RUN = ("sh", "python", "sql", "ini")
TEXTS = ("text", "rust")
MARK = "not run by the tests"
# A line that shows a command: after settings such as `TILT=..`, a path or the name of a program. The first lines of a listing (`tilt 1`)
# and of a checkpoint (`tilt checkpoint 2`) are none.
PROGRAM_NAMES = (
    "tilt-data|tilt-live|rt|sudo|apt|apt-get|dpkg|pip|pip3|python3?|git|sh|bash|cd|cp|mv|rm|mkdir|cat|head|tail|grep|sed|awk|printf|echo|"
    "export|for|while|man|sync|mosquitto_sub|kcat|duckdb|sqlite3|dask|dask-scheduler|dask-worker"
)
COMMAND = re.compile(rf"\$ |(?:\w+=\S* +)*(?:(?:\.{{0,2}}/|~/|\.ci/|tools/)\w|(?:{PROGRAM_NAMES}) \S|tilt [a-z]+ (?!\d+$)\S)|PATH=")


@dataclasses.dataclass(frozen=True)
class Call:
    """A call of `run` or `flow` that is worked out again: its words after `tilt`, and where what it prints stands: in a file, or on the
    page, of which it may be so many lines alone."""

    words: list[str]
    file: str | None = None
    most: int | None = None


class PageTally(Tally):
    """What passed and failed, and how many calls of `run` and `flow` were worked out again, and how many weren't."""

    def __init__(self) -> None:
        super().__init__()
        self.evaluated = 0
        self.others = 0


def blocks(lines: Iterable[str]) -> Iterator[tuple[list[str], int, list[str]]]:
    """Each fenced block: the words after its fence, the number of its first line, and its lines."""
    words: list[str] | None = None
    inside: list[str] = []
    for number, line in enumerate(lines, 1):
        if words is None and line.startswith("```"):
            words, first, inside = line[3:].split(), number + 1, []
        elif words is not None and line == "```":
            yield words, first, inside
            words = None
        elif words is not None:
            inside.append(line)


def commands(first: int, lines: Iterable[str]) -> list[tuple[int, str, str]]:
    """Each command of a block: its line, itself, and what stands below it."""
    found: list[tuple[int, str, list[str]]] = []
    for number, line in enumerate(lines, first):
        if line.startswith("$ "):
            found.append((number, line[2:], []))
        elif found:
            found[-1][2].append(line + "\n")
        else:
            found.append((number, "", [line + "\n"]))
    return [(number, command, "".join(below)) for number, command, below in found]


def said(words: Sequence[str], folder: str) -> str:
    """What a command prints, as a page has it."""
    # The system's Python comes before others, since it has the packages. The tools come last: one may have the name of another program. So
    # does the top, for its script `tilt-live`.
    folders = [os.path.dirname(BUILT), "/usr/bin", os.environ.get("PATH", ""), os.path.join(TOOLS, "package"), TOP]
    path = os.pathsep.join(folders)
    environment = {**os.environ, "PATH": path, "LC_ALL": "C", "PYTHONPATH": os.path.join(TOP, "python"), "PYTHONDONTWRITEBYTECODE": "1"}
    try:
        done = subprocess.run(words, cwd=folder, env=environment, stdin=subprocess.DEVNULL, capture_output=True, timeout=300)
    except subprocess.TimeoutExpired:
        return "[it takes too long]\n"
    text = (done.stdout + done.stderr).decode("utf-8", "backslashreplace")
    if done.returncode == 0:
        return text
    return text + ("\n" if text and not text.endswith("\n") else "") + f"[status {done.returncode}]\n"


def difference(wanted: str, got: str) -> str:
    lines = difflib.unified_diff(wanted.splitlines(), got.splitlines(), "wanted", "printed", lineterm="", n=1)
    return "\n".join("    " + line for line in list(lines)[:30])


def parts_of(command: str) -> list[list[str]]:
    """The commands of a line, each as its words and the signs of the shell among them."""
    lexer = shlex.shlex(command, posix=True, punctuation_chars=SIGNS)
    lexer.whitespace_split, lexer.commenters = True, ""
    parts: list[list[str]] = [[]]
    for token in lexer:
        if token in (";", "&&"):
            parts.append([])
        else:
            parts[-1].append(token)
    return parts


def call_of(part: list[str], shown: bool) -> Call | None:
    """The call of `run` or `flow` that a part of a line is. It is `shown` where the page has its output alone."""
    if part[:1] != ["tilt"] or part[1:2] not in (["run"], ["flow"]):
        return None
    at = next((at for at, token in enumerate(part) if set(token) <= set(SIGNS)), len(part))
    words, rest = part[1:at], part[at:]
    if any(CHANGED.search(word) for word in words):
        return None
    if len(rest) == 2 and rest[0] == ">":
        return Call(words, file=rest[1])
    if shown and not rest:
        return Call(words)
    return Call(words, most=int(rest[3])) if shown and rest[:3] == ["|", "head", "-n"] and len(rest) == 4 else None


def calls_of(command: str) -> list[Call]:
    """The calls of a line that are worked out again."""
    *before, last = parts_of(command)
    shown = all(part[-2:-1] == [">"] for part in before)
    found = [*(call_of(part, False) for part in before), call_of(last, shown)]
    return [call for call in found if call is not None]


def evaluated(call: Call, folder: str) -> str:
    """What tools/check/evaluate.py prints for a call of `run` or `flow`, whose options change nothing of it."""
    name, *words = call.words
    if "--cut" in words:
        at = words.index("--cut")
        del words[at : at + 2]
    option = ["--flow"] if name == "flow" else []
    text = said([EVALUATE, *option, *(word for word in words if word != "--plain")], folder)
    return text if call.most is None else "".join(text.splitlines(keepends=True)[: call.most])


def check_calls(tally: PageTally, place: str, command: str, wanted: str, folder: str) -> None:
    """Works out again what a line prints that came to its end."""
    calls = calls_of(command)
    tally.evaluated += len(calls)
    tally.others += len(RUN.findall(command)) - len(calls)
    for call in calls:
        printed = wanted
        if call.file is not None:
            with open(os.path.join(folder, call.file), encoding="utf-8", newline="") as file:
                printed = file.read()
        plainly = evaluated(call, folder)
        tally.expect(plainly == printed, f"{place}: by tools/check/evaluate.py: {command}\n{difference(printed, plainly)}")


def missing(command: str, folder: str) -> str | None:
    """What a command needs and can't have here, or None."""
    words = command.split(" ")
    module, program = MODULES.get(" ".join(words[:2])), PROGRAMS.get(words[0])
    if module is not None and said(["python3", "-c", f"import {module}"], folder):
        return module
    return program if program is not None and shutil.which(program) is None else None


def check_command(tally: PageTally, place: str, command: str, wanted: str, folder: str) -> None:
    needed = missing(command, folder)
    if needed:
        print(f"{place}: skipped, {needed} is missing: {command}")
        return
    got = said(["sh", "-c", command], folder)
    tally.expect(got == wanted, f"{place}: {command}\n{difference(wanted, got)}")
    if RUN.search(command) and not re.search(r"^\[status \d+\]\n\Z", wanted, re.MULTILINE):
        check_calls(tally, place, command, wanted, folder)


def write_file(folder: str, name: str, lines: Iterable[str]) -> None:
    path = os.path.join(folder, name)
    os.makedirs(os.path.dirname(path), exist_ok=True)
    with open(path, "w", encoding="utf-8", newline="") as file:
        file.writelines(line + "\n" for line in lines)


def is_named(name: str, lines: Sequence[str], fence: int) -> bool:
    """Whether the last line of text before a fence names the file; the lines are counted from 1."""
    return f"`{name}`" in text_before(lines, fence)


def indented(lines: Sequence[str]) -> Iterator[tuple[int, str]]:
    """Each line outside of fences that is indented by four blanks or more, without them, and its number."""
    fenced = False
    for number, line in enumerate(lines, 1):
        if line.startswith("```"):
            fenced = not fenced
        elif not fenced and line.startswith("    "):
            yield number, line.lstrip()


def text_before(lines: Sequence[str], fence: int) -> str:
    """The last line of text before a fence; the lines are counted from 1."""
    return next((line for line in reversed(lines[: fence - 1]) if line.strip()), "")


def hidden_commands(lines: Sequence[str]) -> Iterator[tuple[int, str]]:
    """Each place where a page shows a command that is neither run nor marked: the number of the line, and what is wrong."""
    for words, first, inside in blocks(lines):
        kind = words[0] if words else ""
        if kind in NOT_RUN and MARK not in text_before(lines, first - 1).lower():
            yield first - 1, f"the line before this block doesn't say `{MARK}`"
        elif kind not in ("console", "file", *NOT_RUN, *TEXTS):
            yield first - 1, f"the fence isn't `console`, `file NAME` or one of {', '.join((*NOT_RUN, *TEXTS))}"
        elif kind in TEXTS:
            yield from ((number, f"a command that isn't run: {line}") for number, line in enumerate(inside, first) if COMMAND.match(line))
    yield from ((number, f"a command that isn't run: {line}") for number, line in indented(lines) if COMMAND.match(line))


def lay_out(folder: str, lines: Sequence[str]) -> None:
    """What lies in a page's folder before its first command."""
    shutil.copytree(os.path.join(TOP, "examples"), os.path.join(folder, "examples"))
    named = re.fullmatch(r"<!-- check: (\S+) -->", lines[0] if lines else "")
    if named:
        shutil.copytree(os.path.join(TOP, named.group(1)), folder, dirs_exist_ok=True)


def check_page(tally: PageTally, page: str) -> None:
    with open(os.path.join(TOP, page), encoding="utf-8", newline="") as file:
        lines = file.read().split("\n")
    for number, what in hidden_commands(lines):
        tally.expect(False, f"{page}:{number}: {what}")
    count = 0
    with tempfile.TemporaryDirectory() as folder:
        lay_out(folder, lines)
        for words, first, inside in blocks(lines):
            if words[:1] == ["file"]:
                tally.expect(is_named(words[1], lines, first - 1), f"{page}:{first - 1}: the line before it doesn't name `{words[1]}`")
                write_file(folder, words[1], inside)
            elif words == ["console"]:
                found = commands(first, inside)
                count += len(found)
                for number, command, wanted in found:
                    check_command(tally, f"{page}:{number}", command, wanted, folder)
    if page in WITH_COMMANDS:
        tally.expect(count > 0, f"{page}: it has no commands")


def check_made(tally: PageTally) -> None:
    """The series and what is expected are those that are made again."""
    with tempfile.TemporaryDirectory() as folder:
        made = subprocess.run([os.path.join(TOOLS, "dev", "make_examples.py"), folder], stdin=subprocess.DEVNULL)
        tally.expect(made.returncode == 0, "tools/dev/make_examples.py fails")
        for path in sorted(glob.glob(os.path.join(folder, "**", "*.csv"), recursive=True)):
            name = os.path.join("examples", os.path.relpath(path, folder))
            there = os.path.join(TOP, name)
            same = os.path.exists(there) and filecmp.cmp(path, there, shallow=False)
            tally.expect(same, f"{name}: it isn't what is made again")


def pages() -> list[str]:
    """The pages that there are, and after them those that have to be there."""
    there = []
    for form in ("README.md", "docs/*.md", "docs/internals/*.md", "examples/*/README.md"):
        there += [os.path.relpath(page, TOP) for page in sorted(glob.glob(os.path.join(TOP, form)))]
    return there + [page for page in WITH_COMMANDS if page not in there]


def main() -> int:
    chosen = [os.path.relpath(page, TOP) for page in sys.argv[1:]]
    unknown = [page for page in chosen if page not in pages()]
    if unknown:
        print(f"examples: no such page: {unknown[0]}", file=sys.stderr)
        return 2
    build_program()
    tally = PageTally()
    tally.expect(os.access(BUILT, os.X_OK), "the program isn't built")
    if not chosen:
        check_made(tally)
    for page in chosen or pages():
        if os.path.exists(os.path.join(TOP, page)):
            check_page(tally, page)
        else:
            tally.expect(False, f"{page}: it is missing")
    print(f"calls of `run` and `flow` that tools/check/evaluate.py worked out too: {tally.evaluated}; others: {tally.others}")
    return tally.end()


if __name__ == "__main__":
    sys.exit(main())
