"""A feed that is served into a folder by `tilt-live --folder`, and what such a folder must have after any end of the program."""
from __future__ import annotations

import dataclasses
import os
import shutil
import subprocess
import tempfile
from typing import Iterable, Sequence

from check.faults.live import QUERY, feed_of, put_file, text_in
from check.faults.names import SHARED
from check.faults.running import SECONDS
from shared.tally import Tally

QUERY_FILE = "q"
FOLDER = "kept"
# The copy of it that is served the whole feed again.
COPY = "copy"
FILES = ["lock", "output.csv", "state"]
# Before a state there is none, and then one in which nothing was begun.
NOTHING = -1


@dataclasses.dataclass(frozen=True)
class Case:
    """Options, the packets of a feed, after how many lines there is a commit, how many packets an earlier call took whose folder is there,
    and what is behind the output that it committed."""

    options: list[str]
    packets: list[str]
    every: int
    before: int = 0
    torn: str = ""

    def __str__(self) -> str:
        return " ".join([*self.options, "--every", str(self.every), f"from {self.before} of {len(self.packets)} packets"])

    def text(self, first: int, last: int | None = None) -> str:
        return "".join(self.packets[first:last])

    def commits(self) -> list[int]:
        """The number of packets of each commit that a run makes, from the one that it finds on."""
        found, lines = [self.before] if self.before else [NOTHING, NOTHING], 0
        for count, packet in enumerate(self.packets[self.before :], self.before + 1):
            lines += packet.count("\n")
            if lines >= self.every:
                found.append(count)
                lines = 0
        return [*found, len(self.packets)]


@dataclasses.dataclass(frozen=True)
class End:
    """How a run ended. The status is None if it took too long."""

    status: int | None
    out: str
    err: str
    trace: str = ""


@dataclasses.dataclass(frozen=True)
class Clean:
    """The runs of a case without faults: the arguments, the commits, the files of the folder before, the output and the reports for the
    first packets, as many as the place, all reports, the state at the end, and the trace of the run."""

    case: Case
    words: list[str]
    commits: list[int]
    before: dict[str, str]
    out: list[str]
    err: list[str]
    last_err: str
    state: str
    trace: str

    def position(self, commit: int) -> int:
        return len(self.case.text(0, max(commit, 0)))

    def output(self, commit: int) -> str:
        return "" if commit == NOTHING else self.out[commit]

    def reports(self, packets: int | None = None, begin: int | None = None) -> str:
        """What a run reports that goes on after some packets, by default those of the folder before: for the packets up to a number of
        them, or for the whole feed and its end."""
        begin = self.case.before if begin is None else max(begin, 0)
        err = self.last_err if packets is None else self.err[max(packets, begin)]
        return err.removeprefix(self.err[begin])


def memory() -> str | None:
    """A folder whose files are in memory, so that no call waits for a disk, if there is one."""
    return SHARED if os.access(SHARED, os.W_OK) else None


class Place:
    """A new folder with a query, and in it the folder of a case as it is before the run."""

    def __init__(self, clean: Clean) -> None:
        self.before = clean.before

    def __enter__(self) -> str:
        self.top = tempfile.mkdtemp(prefix="faults.", dir=memory())
        put_file(self.top, QUERY_FILE, QUERY)
        if self.before:
            os.mkdir(os.path.join(self.top, FOLDER))
        for name, text in self.before.items():
            put_file(os.path.join(self.top, FOLDER), name, text)
        return self.top

    def __exit__(self, *_: object) -> None:
        shutil.rmtree(self.top, ignore_errors=True)


def serve(top: str, words: Sequence[str], packets: Sequence[str], options: Sequence[str] = (), first: Sequence[str] = ()) -> End:
    """Runs the program on packets, under strace if there are options for it. The command begins with other words if there are some."""
    trace = os.path.join(top, "trace")
    traced = ["strace", "-f", "-qq", "-y", "-o", trace, *options, "--"] if options else []
    with feed_of(packets) as feed:
        try:
            done = subprocess.run([*traced, *first, *words], cwd=top, stdin=feed, capture_output=True, text=True, timeout=SECONDS)
        except subprocess.TimeoutExpired:
            return End(None, "", "")
    return End(done.returncode, done.stdout, done.stderr, text_in(top, "trace") or "")


def shown(end: End) -> str:
    return f"status {end.status}, output {end.out!r}, errors {end.err!r}"


def folder_words(program: str, case: Case, folder: str = FOLDER) -> list[str]:
    return [program, QUERY_FILE, *case.options, "--folder", folder, "--every", str(case.every)]


def position_words(clean: Clean) -> list[str]:
    return [*clean.words[: clean.words.index("--every")], "--position"]


def files_in(folder: str) -> dict[str, str]:
    """What the files of a folder have, if it is there."""
    names = sorted(os.listdir(folder)) if os.path.isdir(folder) else []
    return {name: text_in(folder, name) or "" for name in names}


def clean_of(program: str, case: Case, tracing: bool, tally: Tally) -> Clean | None:
    """The runs of a case without faults, or None if one is wrong."""
    with tempfile.TemporaryDirectory(prefix="faults.", dir=memory()) as top:
        put_file(top, QUERY_FILE, QUERY)
        plain = [program, QUERY_FILE, *case.options]
        texts = [case.text(0, count) for count in range(len(case.packets) + 1)]
        ends = [serve(top, plain, [text[: text.rfind("\n") + 1]]) for text in texts]
        ends.append(serve(top, plain, [texts[-1]]))
        words, folder = folder_words(program, case), os.path.join(top, FOLDER)
        if case.before:
            ends.append(serve(top, words, case.packets[: case.before]))
            with open(os.path.join(folder, "output.csv"), "a", encoding="ascii") as file:
                file.write(case.torn)
        before = files_in(folder)
        end = serve(top, words, case.packets, ["-e", "trace=all"] if tracing else [])
        files = files_in(folder)
    out, err = [each.out for each in ends], [each.err for each in ends]
    last = len(case.packets)
    clean = Clean(case, words, case.commits(), before, out[: last + 1], err[: last + 1], err[last + 1], files.get("state", ""), end.trace)
    wrong = [each for each in ends if each.status != 0]
    good = (end.status, end.out, end.err) == (0, "", clean.reports()) and sorted(files) == FILES and files["output.csv"] == clean.out[-1]
    tally.expect(good and not wrong, f"{case} without a fault: {shown(end)}, {files}, {wrong[:1]}")
    return clean if good and not wrong else None


# What a folder must have.


def wrong_after(clean: Clean, top: str, allowed: Iterable[int], killed: bool = False) -> str | None:
    """What is wrong with the folder that a run has left, or None. It must have one of the commits with these places, and a call of the
    program must go on from it. Only a kill leaves another file."""
    folder, copy = os.path.join(top, FOLDER), os.path.join(top, COPY)
    files = files_in(folder)
    beside = set(files) - set(FILES)
    if len(beside) > killed:
        return f"it leaves {beside}"
    if os.path.isdir(folder):
        shutil.copytree(folder, copy)
    counted = position_in(clean, top)
    commits = {clean.commits[place] for place in allowed}
    found = [commit for commit in sorted(commits) if clean.position(commit) == counted and is_commit(clean, commit, files)]
    if not found:
        return f"position {counted}, wanted one of the commits {commits} of {clean.commits}: {files}"
    # If nothing was begun, what comes before the first line is there again, and isn't committed.
    cut = files_in(folder).get("output.csv", "")
    if cut != clean.out[max(found[0], 0)]:
        return f"the output is cut to {cut!r}"
    return wrong_again(clean, top, COPY, 0, found[0]) or wrong_again(clean, top, FOLDER, max(found[0], 0), found[0])


def is_commit(clean: Clean, commit: int, files: dict[str, str]) -> bool:
    """Whether the files have this commit: the output up to the length in the state. What is behind it is of the output too, unless the run
    never got to cut the output that it found."""
    output, state = files.get("output.csv", ""), files.get("state", "")
    length = int(state.split("\n")[1]) if state else 0
    untouched = bool(clean.before) and output == clean.before["output.csv"]
    return output[:length] == clean.output(commit) and (untouched or clean.out[-1].startswith(output))


def position_in(clean: Clean, top: str) -> int | None:
    """The position that is printed, or None if it isn't."""
    end = serve(top, position_words(clean), [])
    return int(end.out) if (end.status, end.err) == (0, "") and end.out == f"{int(end.out or 0)}\n" else None


def wrong_again(clean: Clean, top: str, name: str, begin: int, commit: int) -> str | None:
    """What is wrong with the folder of that name after the feed from a packet on was served into it without a fault, or None."""
    words = [*folder_words(clean.words[0], clean.case, name), *(["--from", str(clean.position(begin))] if begin else [])]
    end = serve(top, words, clean.case.packets[begin:])
    files = files_in(os.path.join(top, name))
    if (end.status, end.out, end.err) != (0, "", clean.reports(begin=commit)):
        return f"called again from {begin}, {shown(end)}, wanted the reports {clean.reports(begin=commit)!r}"
    if sorted(files) != FILES or files["output.csv"] != clean.out[-1] or files["state"] != clean.state:
        return f"called again from {begin}, it leaves {files}"
    return None
