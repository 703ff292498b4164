"""Saves under names of all kinds."""
from __future__ import annotations

import dataclasses
import os
import shutil
import stat
import subprocess
import tempfile
from typing import Callable

from check.faults.calls import Clean
from check.faults.cases import FIRST, QUERY, START
from check.faults.rules import wrong_status
from check.faults.running import NOBODY, SECONDS, Case, End, Place, files_in, put_files, run
from check.faults.table import FaultTally

LONG_NAME = "s" * 255
NAMES = "saves under links, pipes, devices and other names"
SHARED = "/dev/shm"
# A user and a group that nobody else here is or is in.
OTHER, GROUP = 65533, 65532
# Whether the program may give files away, whether its user is in GROUP, the mode of a file of OTHER and GROUP, and the owner, group and
# mode after a save.
OWNERS = [
    (True, False, 0o640, (OTHER, GROUP, 0o640)),
    (False, True, 0o660, (NOBODY, GROUP, 0o660)),
    (False, False, 0o662, (NOBODY, NOBODY, 0o622)),
    (False, False, 0o606, (NOBODY, NOBODY, 0o606)),
]


def save_under(program: str, name: str, prepare: Callable[[str], None], weak: bool) -> tuple[End, str]:
    """A `start` in a new folder that is prepared, and where that folder was: it has to be removed."""
    top = tempfile.mkdtemp(prefix="faults.")
    folder = os.path.join(top, "folder")
    os.mkdir(folder)
    put_files(folder, {"q": QUERY, "x": FIRST})
    prepare(folder)
    if weak and os.geteuid() == 0:
        os.chmod(top, 0o755)
        for path, _, names in os.walk(folder):
            for each in (path, *(os.path.join(path, name) for name in names)):
                os.chown(each, NOBODY, NOBODY, follow_symlinks=False)
    return run([program, *START, name], folder, weak=weak), folder


def can_be_weak(program: str) -> bool:
    """Whether the program can be called without the rights of root, where it lies."""
    with Place(Case("", [], {})) as folder:
        os.chmod(os.path.dirname(folder), 0o755)
        try:
            return run([program], folder, weak=True).status == 2
        except OSError:
            return False


def in_sub(folder: str) -> None:
    os.mkdir(os.path.join(folder, "sub"))
    put_files(os.path.join(folder, "sub"), {"state": b"old"})
    os.symlink(os.path.join("sub", "state"), os.path.join(folder, "link"))


def dangling(folder: str) -> None:
    os.mkdir(os.path.join(folder, "sub"))
    os.symlink(os.path.join("sub", "state"), os.path.join(folder, "link"))


def endless(folder: str) -> None:
    os.symlink("link", os.path.join(folder, "link"))


def private(folder: str) -> None:
    put_files(folder, {"state": b"old"})
    os.chmod(os.path.join(folder, "state"), 0o600)


def guarded(folder: str) -> None:
    put_files(folder, {"state": b"old"})
    os.chmod(os.path.join(folder, "state"), 0o444)


def in_guarded_sub(folder: str) -> None:
    in_sub(folder)
    os.chmod(os.path.join(folder, "sub"), 0o555)


def nothing(folder: str) -> None:
    pass


def in_sub_then(folder: str) -> dict[str, bytes]:
    """What the folder below holds."""
    return {name: there for name, (_, there) in files_in(os.path.join(folder, "sub")).items()}


def saved_there(name: str, mode: int) -> Callable[[str, End, bytes], bool]:
    """Nothing is new in the folder but the name, which has the bytes and the mode."""
    return lambda folder, end, saved: sorted(end.files) == sorted(["q", "x", name]) and end.files[name] == (stat.S_IFREG | mode, saved)


def saved_through_link(folder: str, end: End, saved: bytes) -> bool:
    return os.path.islink(os.path.join(folder, "link")) and in_sub_then(folder) == {"state": saved}


def unchanged_sub(folder: str, end: End, saved: bytes) -> bool:
    return in_sub_then(folder) == {"state": b"old"}


def unchanged_link(folder: str, end: End, saved: bytes) -> bool:
    return sorted(end.files) == ["link", "q", "x"] and os.path.islink(os.path.join(folder, "link"))


def unchanged_guarded(folder: str, end: End, saved: bytes) -> bool:
    return saved_there("state", 0o444)(folder, end, b"old")


def unchanged(folder: str, end: End, saved: bytes) -> bool:
    return sorted(end.files) == ["q", "x"]


@dataclasses.dataclass(frozen=True)
class Row:
    """A name to save under: how its folder is prepared, whether what stands afterwards is good, and whether the save has to fail. A name
    outside of the folder is weak: a program that is wrong must not be able to put a file in the place of a device of the machine."""

    what: str
    name: str
    prepare: Callable[[str], None]
    good: Callable[[str, End, bytes], bool]
    fails: bool = False
    weak: bool = False


ROWS = [
    Row("a file that only its owner may read", "state", private, saved_there("state", 0o600)),
    Row("a link to a file in another folder", "link", in_sub, saved_through_link),
    Row("a link to a file that isn't there", "link", dangling, saved_through_link),
    Row("a link that leads to itself", "link", endless, unchanged_link, fails=True),
    Row("a name of 255 bytes", LONG_NAME, nothing, saved_there(LONG_NAME, 0o644)),
    Row("/dev/null", "/dev/null", nothing, unchanged, weak=True),
    Row("a folder that isn't there", "nowhere/state", nothing, unchanged, fails=True),
    Row("a folder", "sub", in_sub, unchanged_sub, fails=True),
    Row("/dev/full", "/dev/full", nothing, unchanged, fails=True, weak=True),
    Row("a file that may not be written", "state", guarded, unchanged_guarded, fails=True, weak=True),
    Row("a new name in a folder that may not be written", "sub/new", in_guarded_sub, unchanged_sub, fails=True, weak=True),
]


def try_names(clean: Clean, program: str, tally: FaultTally) -> None:
    """`start` under names that are no plain new file. What is printed and saved is to be that of the clean run."""
    rows = ROWS
    if not can_be_weak(program):
        rows = [row for row in ROWS if not row.weak]
        tally.left_out.append(f"saves where there are no rights: nobody else may call the program: {len(ROWS) - len(rows)} cases")
    for row in rows:
        end, folder = save_under(program, row.name, row.prepare, row.weak)
        wrong = wrong_status(end, 6, b"tilt: 6 save fault: %s\n" % row.name.encode()) if row.fails else wrong_status(end, 0, b"")
        if not row.good(folder, end, clean.saved or b""):
            wrong.append(f"there are {end.files}")
        if end.out != clean.out:
            wrong.append("not the whole output")
        tally.note(f"a save under {row.what}", wrong, NAMES)
        shutil.rmtree(os.path.dirname(folder))


def try_streams(clean: Clean, program: str, tally: FaultTally) -> None:
    """`start` that saves to its own standard output, and to a pipe. A link in the folder leads where /dev/stdout leads, and stands for it:
    so a program that is wrong can do no harm to that of the machine."""
    saved = clean.saved or b""
    words = [program, *START, "stdout"]
    with Place(Case("", [], {"q": QUERY, "x": FIRST})) as folder:
        os.symlink("/proc/self/fd/1", os.path.join(folder, "stdout"))
        done = subprocess.run(words, cwd=folder, stdin=subprocess.DEVNULL, capture_output=True, timeout=SECONDS)
        good = done.returncode == 0 and done.stdout == clean.out + saved and sorted(os.listdir(folder)) == ["q", "stdout", "x"]
        wrong = [] if good else [f"status {done.returncode}, {done.stdout!r}, {done.stderr!r}"]
        tally.note("a save to standard output, which is a pipe", wrong, NAMES)
        end = run(words, folder)
        wrong = wrong_status(end, 0, b"") + ([] if end.out == clean.out + saved else [f"it holds {end.out!r}"])
        if not os.path.islink(os.path.join(folder, "stdout")):
            wrong.append("its name is no link any more")
        tally.note("a save to standard output, which is a file", wrong, NAMES)
        os.unlink(os.path.join(folder, "stdout"))
        os.mkfifo(os.path.join(folder, "fifo"))
        with subprocess.Popen(["cat", "fifo"], cwd=folder, stdout=subprocess.PIPE) as reader:
            end = run([program, *START, "fifo"], folder)
            if not (end.status == 0 and stat.S_ISFIFO(end.files["fifo"][0])):
                reader.kill()
            got = reader.communicate()[0]
        wrong = wrong_status(end, 0, b"")
        if got != saved or sorted(end.files) != ["fifo", "q", "x"]:
            wrong.append(f"the pipe got {got[:60]!r}, and there are {sorted(end.files)}")
        tally.note("a save under a pipe in the folder", wrong, NAMES)


def try_shared(clean: Clean, program: str, tally: FaultTally) -> None:
    """`start` twice under a name in a folder `fd` of the shared memory: though it stands in /dev, what is there wasn't handed open to the
    program, and is replaced."""
    if not os.access(SHARED, os.W_OK):
        tally.left_out.append(f"saves in a folder fd of {SHARED}, which isn't there: 2 cases")
        return
    with tempfile.TemporaryDirectory(prefix="faults.", dir=SHARED) as top:
        place = os.path.join(top, "fd")
        os.mkdir(place)
        for what in ("a new name", "an old file"):
            end, folder = save_under(program, os.path.join(place, "state"), nothing, False)
            shutil.rmtree(os.path.dirname(folder))
            there = {name: found for name, (_, found) in files_in(place).items()}
            wrong = wrong_status(end, 0, b"") + ([] if there == {"state": clean.saved} else [f"there are {there}"])
            tally.note(f"a save under {what} in a folder fd of {SHARED}", wrong, NAMES)


def can_be_given() -> bool:
    """Whether a file can be given to OTHER and GROUP here."""
    with tempfile.NamedTemporaryFile(prefix="faults.") as file:
        try:
            os.chown(file.fileno(), OTHER, GROUP)
        except OSError:
            return False
    return True


def try_owners(clean: Clean, program: str, tally: FaultTally) -> None:
    """`start` over a file of another owner and another group. Both are kept where the program may do that, and the group where its user is
    in it. Another group than the old one has no right that others don't have."""
    if not can_be_given() or not can_be_weak(program):
        tally.left_out.append(f"saves over files of other owners: none can be made: {len(OWNERS)} cases")
        return
    for gives, member, mode, want in OWNERS:
        with Place(Case("", [], {"q": QUERY, "x": FIRST, "state": b"old"})) as folder:
            state = os.path.join(folder, "state")
            os.chmod(os.path.dirname(folder), 0o755)
            for path in (folder, os.path.join(folder, "q"), os.path.join(folder, "x")):
                os.chown(path, NOBODY, NOBODY)
            os.chown(state, OTHER, GROUP)
            os.chmod(state, mode)
            end = run([program, *START, "state"], folder, weak=not gives, groups=[GROUP] if member else [])
            found = os.stat(state)
        rights = (found.st_uid, found.st_gid, stat.S_IMODE(found.st_mode))
        wrong = wrong_status(end, 0, b"")
        if rights != want:
            wrong.append("owner, group and mode are %d, %d, %o, wanted %d, %d, %o" % (*rights, *want))
        if end.files["state"][1] != clean.saved or sorted(end.files) != ["q", "state", "x"]:
            wrong.append(f"there are {end.files}")
        tally.note(f"a save over a file of another owner with the mode {mode:o}", wrong, NAMES)
