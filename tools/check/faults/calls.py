"""The calls to the system that a command makes, as strace shows them."""
from __future__ import annotations

import dataclasses
import re

from check.faults.running import Case

OPENS = ["open", "openat", "openat2", "creat"]
READS = ["read", "pread64", "readv"]
WRITES = ["write", "pwrite64", "writev"]
SYNCS = ["fsync", "fdatasync"]
RENAMES = ["rename", "renameat", "renameat2"]
# What is begun again where it was interrupted.
AGAIN = OPENS + READS + WRITES + SYNCS + RENAMES
# The other calls that have to do with files.
KIN = """lseek stat lstat fstat newfstatat statx access faccessat faccessat2 ftruncate fallocate link linkat unlink unlinkat readlink
    readlinkat chmod fchmod fchmodat fchmodat2 chown fchown fchownat close fcntl ioctl flock getdents64 sendfile copy_file_range dup
    dup3""".split()
FAILING = AGAIN + KIN
MEMORY = ["brk", "mmap", "mremap"]
# What may stand between the loader's last call and the first that opens a file of the case.
BEGINNING = MEMORY + ["getrandom", "rt_sigaction", "rt_sigprocmask", "sigaltstack"]
LINE = re.compile(r"\d+ +([a-z]\w*)\((.*)$")
Numbered = list[tuple[str, int, str]]


@dataclasses.dataclass(frozen=True)
class Call:
    """A call to the system: its name, the how manieth of this name it is, what it has to do with, and whether its fault has to be told."""

    name: str
    count: int
    part: str
    strict: bool
    line: str


@dataclasses.dataclass(frozen=True)
class Demand:
    """A call for memory: of each name in MEMORY, the how manieth call is the next one there; and whether no file was opened yet."""

    counts: dict[str, int]
    early: bool


@dataclasses.dataclass
class Clean:
    """The run of a case without faults: its output, what it saved, its calls, and those that ask for memory."""

    out: bytes
    saved: bytes | None
    calls: list[Call]
    demands: list[Demand]


def numbered_calls(trace: str) -> Numbered:
    """Each call of a trace: its name, the how manieth of this name it is, and the rest of the line."""
    counts: dict[str, int] = {}
    numbered = []
    for match in filter(None, map(LINE.match, trace.splitlines())):
        name, rest = match.groups()
        counts[name] = counts.get(name, 0) + 1
        numbered.append((name, counts[name], rest))
    return numbered


def own_names(case: Case) -> list[str]:
    return [f'"{name}"' for name in case.read_names]


def first_own(case: Case, numbered: Numbered) -> int:
    """The place of the first call that opens a file of the case."""
    return next(i for i, (name, _, rest) in enumerate(numbered) if name in OPENS and any(word in rest for word in own_names(case)))


def demands_of(case: Case, numbered: Numbered) -> list[Demand]:
    """The calls of the program itself that ask for memory."""
    own = first = first_own(case, numbered)
    while first > 0 and numbered[first - 1][0] in BEGINNING:
        first -= 1
    counts = {name: 1 + sum(1 for other, _, _ in numbered[:first] if other == name) for name in MEMORY}
    demands = []
    for i, (name, _, _) in enumerate(numbered[first:], first):
        if name in MEMORY:
            demands.append(Demand(dict(counts), i < own))
            counts[name] += 1
    return demands


def calls_of(case: Case, folder: str, numbered: Numbered) -> list[Call]:
    """The calls of the program itself, each with its part: the name of a file that is being read, 'out', 'err', 'save', 'folder', or ''."""
    own, first = own_names(case), first_own(case, numbered)
    puts = [i for i, (name, _, rest) in enumerate(numbered) if name in WRITES and rest.startswith("1<")]
    saving_from = puts[-1] + 1 if puts and case.saves else len(numbered)
    calls = []
    read = ""
    for i, (name, count, rest) in enumerate(numbered[first:], first):
        if name in OPENS:
            read = next((word.strip('"') for word in own if word in rest), read)
        part = part_of(folder, rest, read, i >= saving_from, bool(puts) and i > puts[-1])
        strict = name in WRITES or name in READS or name in OPENS
        if part == "save":
            strict = (name in WRITES + SYNCS + RENAMES) or name in OPENS and "O_CREAT" in rest
        calls.append(Call(name, count, part, strict and part not in ("", "folder"), f"{name}({rest}"))
    return calls


def part_of(folder: str, rest: str, read: str, saving: bool, ended: bool) -> str:
    if re.match(r"1<", rest):
        return "out"
    if re.match(r"2<", rest):
        return "err"
    if saving:
        on_folder = re.match(rf"\d+<{re.escape(folder)}>", rest) or rest.endswith(f"<{folder}>")
        return "folder" if on_folder else "save"
    return "" if ended else read


def wrong_reads(calls: list[Call]) -> list[str]:
    """Of each file that is opened to be read, exactly the last read gives nothing."""
    answers: dict[str, list[bool]] = {}
    for call in calls:
        if call.name in READS and call.part not in ("", "save", "folder"):
            answers.setdefault(call.part, []).append(call.line.endswith(" = 0"))
    return [f"reads of {name}: {ends}" for name, ends in answers.items() if ends != [False] * (len(ends) - 1) + [True]]


def wrong_order(calls: list[Call]) -> list[str]:
    names = [call.name for call in calls if call.part == "save"]
    renames = [i for i, name in enumerate(names) if name in RENAMES]
    if not renames:
        return ["no rename"]
    synced = [i for i, name in enumerate(names[: renames[0]]) if name in SYNCS]
    written = [i for i, name in enumerate(names) if name in WRITES]
    return [] if synced and written and written[-1] < synced[-1] else [f"no sync between the last write and the rename: {names}"]
