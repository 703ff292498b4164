"""Files: they are read in a stream, and written beside their names, which they take at the end."""
from __future__ import annotations

import concurrent.futures
import contextlib
import csv
import dataclasses
import errno
import fcntl
import glob
import hashlib
import io
import json
import os
import pathlib
import re
import shutil
import signal
import stat
import sys
import tempfile
import time
import urllib.parse
from typing import IO, Any, Callable, Iterable, Iterator

from .clock import TIMES, WHOLE, Clock, Moments, duration_of, duration_text, moment_text
from .errors import Refused, refused_at
from .scales import GREATEST, LEAST, Scale
from .version import VERSION

Row = tuple[int, int, "int | None"]
HEADER = ["start", "end", "value"]
HEADER_LINE = b"start,end,value\n"
# How the name of a file ends that has no name of its own yet: in a folder that `scale` sweeps, and elsewhere.
PLACED = ".tilt-data-new"
BESIDE = ".tilt-data"
# The longest name, in bytes, that a file beside it takes over whole: what is added has less than the other 55 of 255.
LONGEST_NAME = 200
# How long to wait for the lock of a folder, in seconds.
LOCK_WAIT = 1.0
# How many bytes of a file are copied at once.
AT_ONCE = 1 << 26
# How many files are brought to the disk at the same time, so that the file system joins their commits.
SYNCS = 16
# The JSON file of a series that is being written.
PENDING = b'{"tilt-data": 1, "pending": true}\n'
# The signals that end a command.
ENDING = (signal.SIGINT, signal.SIGTERM, signal.SIGHUP)
# The texts of a JSON file that may be missing.
DEFAULTS = {"kind": "hold", "name": "", "key": None, "zone": None, "sha256": None}
# The conventions of a series.
KINDS = ("hold", "event", "helper")
# Where a key, or other signs, are in an argument that names files.
WILD = re.compile(r"\{key\}|\*|\?")
# The folders of the files that a process was handed open.
HANDED = re.compile(r"/proc/[0-9]+(/task/[0-9]+)?/fd", re.ASCII)


@contextlib.contextmanager
def reading(path: str, shown: str | None = None, sha256: str | None = None, encoding: str = "utf-8-sig") -> Iterator[IO[str]]:
    """The text of a file, or of standard input if the path is `-`. Errors name it as `shown`, or by its path. A file that hasn't the
    SHA-256 that its notes have is rejected before it is read. A byte order mark is left out, but not with the encoding `utf-8`."""
    shown = "standard input" if "-" in (path, shown) else shown or path
    try:
        if path == "-":
            stream = standard_input()
            if isinstance(stream, io.TextIOWrapper):
                stream.reconfigure(encoding=encoding, newline="")
            yield stream
            return
        with open(path, encoding=encoding, newline="") as file:
            if sha256 is not None and os.path.isfile(path):
                if hashlib.file_digest(file.buffer, "sha256").hexdigest() != sha256:  # type: ignore[arg-type]
                    raise Stale(path, "it isn't the file that its JSON file describes")
                file.seek(0)
            yield file
    except BrokenPipeError:
        raise
    except OSError as error:
        raise Refused(f"{shown}: {error.strerror}") from error
    except UnicodeDecodeError as error:
        line = undecodable(path)
        raise Refused(f"{shown}{'' if line is None else f':{line}'}: a text in UTF-8 was expected") from error


def standard_input() -> IO[str]:
    """Standard input; if the caller closed it, it is rejected."""
    if sys.stdin is None:
        raise Refused("standard input: it can't be read: it is closed")
    return sys.stdin


def undecodable(path: str) -> int | None:
    """The first line of a file that is no UTF-8, from 1; None where it can't be read again."""
    if not os.path.isfile(path):
        return None
    with open(path, "rb") as file:
        for number, line in enumerate(file, 1):
            try:
                line.decode("utf-8")
            except UnicodeDecodeError:
                return number
    return None


def records(path: str, file: Iterable[str], delimiter: str = ",") -> Iterator[tuple[int, list[str]]]:
    """Each record that isn't empty, with the number of the line on which it ends, from 1. A torn one is rejected by its first line."""
    reader = csv.reader(file, delimiter=delimiter, strict=True)
    ended = 0
    try:
        for record in reader:
            ended = reader.line_num
            if record:
                yield ended, record
    except csv.Error as error:
        raise refused_at(path, ended + 1, f"a record of CSV was expected: {error}") from error


def rows_of(path: str, file: Iterable[str], values: Values | None = None) -> Iterator[Row]:
    """The rows of a series or an output, as they come: start, end and value of each, in ticks and whole numbers; null is None. What the
    program rejects is rejected here too, with its line. An output in units can have decimals, which `values` reads."""
    found = records(path, file)
    line, header = next(found, (1, []))
    if header != HEADER:
        raise refused_at(path, line, "the header start,end,value was expected")
    before = None
    for line, record in found:
        row = row_of(path, line, record, before, values)
        before = row[1]
        yield row


def rows_in(path: str, shown: str | None = None, sha256: str | None = None, values: Values | None = None) -> Iterator[Row]:
    """The rows of a file, as `rows_of` has them. An error while they are written elsewhere isn't reported as a fault of this file."""
    with reading(path, shown, sha256) as file:
        yield from rows_of(shown or path, file, values)


def row_of(path: str, line: int, record: list[str], before: int | None = None, values: Values | None = None) -> Row:
    """The row of a record, after a row that ends at `before`. It is spelled as the program reads it: three fields of a sign and ASCII
    digits, within 64 bits and the program's times, of which only the value may be empty."""
    try:
        start, end, value = record
        row = whole(start), whole(end), (whole(value) if values is None else values.read(value)) if value else None
    except ValueError as error:
        numbers = f"with {values.decimals} decimals" if values is not None and values.decimals else "of whole numbers"
        raise refused_at(path, line, f"a row start,end,value {numbers} was expected, not {','.join(record)}") from error
    if row[0] < -TIMES or row[1] > TIMES:
        raise refused_at(path, line, f"times from -{TIMES} to {TIMES} were expected, not {start},{end}")
    if row[0] >= row[1] or before is not None and row[0] < before:
        raise refused_at(path, line, "rows in order were expected, each with its start below its end")
    return row


def whole(text: str) -> int:
    """A number as the program reads it; a ValueError for another text."""
    if text.isdigit() and text.isascii() and len(text) <= 18:
        return int(text)
    number = int(text) if WHOLE.fullmatch(text) else GREATEST + 1
    if not LEAST <= number <= GREATEST:
        raise ValueError(text)
    return number


class Values:
    """Reads the values of an output: whole numbers, or decimals, as whole numbers and the scale that they have in common."""

    def __init__(self) -> None:
        self.decimals: int | None = None

    @property
    def scale(self) -> int:
        """The scale of the values that were read."""
        return int(10 ** (self.decimals or 0))

    def read(self, text: str) -> int:
        """The number of a text. All have as many digits after their point as the first; a ValueError for another text."""
        front, point, digits = text.partition(".")
        self.decimals = len(digits) if self.decimals is None else self.decimals
        if len(digits) != self.decimals or point and not digits.isdigit():
            raise ValueError(text)
        return whole(front + digits)


class ValuesAt(Values):
    """Reads the values of an output whose scale is known before its rows are: decimals become whole numbers at it."""

    def __init__(self, scale: int) -> None:
        super().__init__()
        self.exact = Scale(scale).exact

    def read(self, text: str) -> int:
        return self.exact(text) if re.fullmatch(r"-?[0-9]+\.[0-9]+", text, re.ASCII) else whole(text)


def spooled(path: str, folder: str) -> str:
    """A file that may be read twice: the file itself, or a copy of what comes from a pipe, in the folder."""
    if path != "-" and (os.path.isfile(path) or not os.path.exists(path)):
        return path
    copy = os.path.join(folder, "spooled")
    with open(copy, "wb") as file, contextlib.ExitStack() as stack:
        source = standard_input().buffer if path == "-" else stack.enter_context(open(path, "rb"))  # type: ignore[attr-defined]
        shutil.copyfileobj(source, file)
    return copy


def safe(text: str) -> str:
    """A text as the name of a file or a folder: signs outside ASCII, those that no such name has, and a point at the beginning, which would
    hide it, are written as %XX. `urllib.parse.unquote` gives the text back."""
    quoted = urllib.parse.quote(text, safe=" +,=@()")
    return "%2E" + quoted[1:] if quoted.startswith(".") else quoted


def unsafe(name: str) -> str:
    """The text that a name was written for by `safe`; a name that `safe` doesn't write, as `%41`, is the text itself."""
    text = urllib.parse.unquote(name)
    return text if safe(text) == name else name


def keys_and_files(pattern: str, wild: re.Pattern[str] = WILD) -> dict[str | None, list[str]]:
    """The files of an argument by their keys, as these are in the names; the key is None if the argument has none."""
    if os.path.exists(pattern):
        return {None: [os.path.abspath(pattern)]}
    pieces, signs = wild.split(pattern), wild.findall(pattern)
    form, some = re.escape(pieces[0]), glob.escape(pieces[0])
    for number, (sign, piece) in enumerate(zip(signs, pieces[1:])):
        again = sign == "{key}" and sign in signs[:number]
        form += ("(?P=key)" if again else {"{key}": "(?P<key>[^/]+)", "*": "[^/]*", "?": "[^/]"}[sign]) + re.escape(piece)
        some += ("?" if sign == "?" else "*") + glob.escape(piece)
    found: dict[str | None, list[str]] = {}
    for path in sorted(glob.glob(some)):
        match = re.fullmatch(form, path)
        if match and os.path.isfile(path):
            found.setdefault(match.groupdict().get("key"), []).append(os.path.abspath(path))
    return found


# Files that are written beside their names


class Outputs:
    """Files that are written beside their names. All take their names at `commit`; without it they go away, and what was there before
    stays. `write` appends to what is held, and brings it to the files from time to time, so that many files need few handles.

    A series and its JSON file are two files, and a file system renames one at a time. So `commit` has three steps, and folders are
    brought to the disk after each: first each JSON file is replaced by one that says `pending`, then each CSV takes its name, and then each
    JSON file takes its own, with the size and the SHA-256 of its CSV. Whenever the command is killed, a series has its old CSV and its old
    JSON, or a JSON that is pending, which `notes_of` rejects, or its new CSV and its new JSON. New values never have the old scale, no
    reader needs to read a CSV to notice it, and no set of series is a mix of old and new that all look right. An error or a signal in
    `commit` brings each JSON file back that belongs to the CSV that is there."""

    def __init__(self, most: int = 100000) -> None:
        self.held: dict[str, list[str]] = {}
        self.count, self.most = 0, most
        self.begun: dict[str, str] = {}
        self.targets: set[str] = set()
        self.folders: set[str] = set()
        self.notes: dict[str, str] = {}
        # Of each file the bytes so far: how many they are, and their digest.
        self.sizes: dict[str, int] = {}
        self.digests: dict[str, hashlib._Hash] = {}

    def __enter__(self) -> Outputs:
        return self

    def __exit__(self, kind: object, *_: object) -> None:
        for path, new in self.begun.items():
            drop(new, path)

    def write(self, path: str, text: str) -> None:
        """Adds a text to a file. The text of a JSON file comes whole, and is that of `Notes`."""
        if path.endswith(".json"):
            if not text.startswith("{"):
                raise Refused(f"{path}: a JSON file describes a series: give the series another name, as {path[:-5]}.csv")
            self.notes[path] = text
            return
        self.held.setdefault(path, []).append(text)
        self.count += 1
        if self.count >= self.most:
            self.flush()

    def flush(self) -> None:
        for path, texts in self.held.items():
            with failing_at(path):
                self.append(path, "".join(texts).encode())
        self.held.clear()
        self.count = 0

    def append(self, path: str, data: bytes) -> None:
        if path not in self.begun:
            self.begin(path)
        with open(self.begun[path], "ab") as file:
            file.write(data)
        self.sizes[path] += len(data)
        self.digests[path].update(data)

    def begin(self, path: str) -> None:
        above = os.path.dirname(path)
        # The folders whose names of folders are new.
        while above and not os.path.exists(above):
            above = os.path.dirname(above)
            self.folders.add(above)
        os.makedirs(os.path.dirname(path) or ".", exist_ok=True)
        folder, name = os.path.split(followed(path))
        target = os.path.join(os.path.realpath(folder), name)
        if target in self.targets:
            raise Refused(f"{path}: its links lead to the file of another output")
        with uninterrupted():
            self.begun[path] = new_of(path)
        self.targets.add(target)
        self.sizes[path], self.digests[path] = 0, hashlib.sha256()
        if self.begun[path] != path:
            self.folders.add(folder)

    def commit(self) -> None:
        self.flush()
        series = {notes_path(path): path for path in self.begun}
        for path, text in self.notes.items():
            if path in series:
                size, digest = self.sizes[series[path]], self.digests[series[path]]
                text = json_text({**json.loads(text), "size": size, "sha256": digest.hexdigest()})
            with failing_at(path):
                self.append(path, text.encode())
        with concurrent.futures.ThreadPoolExecutor(SYNCS) as pool:
            list(pool.map(sync_new, self.begun.items()))
        self.place(sorted(path for path in self.begun if path not in self.notes), sorted(self.notes), series)

    def place(self, others: list[str], notes: list[str], series: dict[str, str]) -> None:
        """Gives all files their names, in the three steps."""
        folders = sorted(self.folders)
        before: dict[str, bytes | None] = {}
        try:
            for path in notes:
                if path in series and self.begun[path] != path:
                    with failing_at(path):
                        before[path] = pathlib.Path(path).read_bytes() if os.path.exists(path) else None
                        put_back(path, PENDING)
            sync_folders(folders if before else [])
            for paths in (others, notes):
                for path in paths:
                    self.take(path)
                sync_folders(folders)
        except BaseException:
            for path, text in before.items():
                with contextlib.suppress(OSError, Refused):
                    if series[path] in self.begun:
                        put_back(path, text)
                    elif path in self.begun:
                        self.take(path)
            raise

    def take(self, path: str) -> None:
        with failing_at(path):
            if self.begun[path] != path:
                take_place(self.begun[path], followed(path))
        del self.begun[path]


def put_back(path: str, text: bytes | None) -> None:
    """Puts a JSON file in place, or takes it away if there is no text."""
    if text is None:
        os.unlink(followed(path))
        return
    with taking(path, lasting=False) as new, open(new, "wb") as file:
        file.write(text)


@contextlib.contextmanager
def failing_at(path: str) -> Iterator[None]:
    """An error of the system is reported for this output."""
    try:
        yield
    except BrokenPipeError:
        raise
    except OSError as error:
        raise Refused(f"{path}: it can't be written: {error.strerror}") from error


def locked(folder: str, command: str, name: str = "lock") -> IO[str]:
    """The lock of a folder, in which only one call of a command works: it is held until it is closed. The folder is made if need be. A
    process that a killed call was starting has its lock until it has become another program, so a lock may need a moment."""
    try:
        os.makedirs(folder, exist_ok=True)
        lock = open(os.path.join(folder, name), "a")
    except OSError as error:
        raise Refused(f"{folder}: it can't be made: {error.strerror}") from error
    end = time.monotonic() + LOCK_WAIT
    while True:
        try:
            fcntl.flock(lock, fcntl.LOCK_EX | fcntl.LOCK_NB)
            return lock
        except OSError as error:
            if time.monotonic() >= end:
                lock.close()
                raise Refused(f"{folder}: another `tilt-data {command}` works in this folder") from error
        time.sleep(0.01)


def sync(path: str) -> None:
    number = os.open(path or ".", os.O_RDONLY)
    try:
        os.fsync(number)
    finally:
        os.close(number)


def replace(path: str, text: str) -> None:
    """Replaces a file whole. The new one that a kill leaves is written again."""
    with failing_at(path):
        with open(f"{path}.new", "w", encoding="utf-8") as file:
            file.write(text)
        sync(f"{path}.new")
        os.replace(f"{path}.new", path)
        sync(os.path.dirname(path))


def sync_new(begun: tuple[str, str]) -> None:
    """Brings a new file to the disk; what is written as it stands isn't replaced, and has no need of it."""
    path, new = begun
    if new != path:
        with failing_at(path):
            sync(new)


def sync_folders(folders: Iterable[str]) -> None:
    """Brings the names in these folders to the disk, as far as the file system and the rights of the caller allow it."""
    for folder in folders:
        try:
            sync(folder)
        except OSError as error:
            if error.errno not in (errno.EACCES, errno.EINVAL, errno.ENOTSUP):
                raise Refused(f"{folder or '.'}: it can't be written: {error.strerror}") from error


def followed(path: str) -> str:
    """Where the links of a path lead. A file that the caller handed open, as /dev/stdout leads to, is the end of them."""
    for _ in range(40):
        if is_handed(path) or not os.path.islink(path):
            break
        path = os.path.join(os.path.dirname(path), os.readlink(path))
    return path


def is_handed(path: str) -> bool:
    """Whether it is the path of a descriptor: one of /dev/fd, which leads to the folder `fd` of a process in /proc, or of such a folder."""
    return HANDED.fullmatch(os.path.realpath(os.path.dirname(path) or ".")) is not None


@contextlib.contextmanager
def uninterrupted() -> Iterator[None]:
    """A signal that ends the command waits until the end of this block, so that a file is noted for removal as soon as it is there."""
    before = signal.pthread_sigmask(signal.SIG_BLOCK, ENDING)
    try:
        yield
    finally:
        signal.pthread_sigmask(signal.SIG_SETMASK, before)


def new_of(path: str) -> str:
    """Where an output is written before it takes its place, as the program saves: a new file that nobody else has, beside the file that its
    links lead to. A device, a pipe, and a file that the caller handed open are written as they stand, after what is there. A file that the
    caller may not write isn't replaced."""
    target = followed(path)
    if is_handed(target) or os.path.exists(target) and not os.path.isfile(target):
        return path
    if os.path.exists(target) and not os.access(target, os.W_OK, effective_ids=True):
        raise PermissionError(errno.EACCES, os.strerror(errno.EACCES), path)
    handle, new = new_beside(target, BESIDE)
    os.close(handle)
    return new


def new_beside(target: str, end: str) -> tuple[int, str]:
    """An open new file in the folder of another, with a name that nobody else has, and that name. It has the mode of the file that it is
    going to replace, or of an ordinary new file."""
    folder, name = os.path.split(target)
    name = os.fsdecode(os.fsencode(name)[:LONGEST_NAME])
    new = os.path.join(folder, f".{name}.{os.urandom(8).hex()}{end}")
    try:
        mode = stat.S_IMODE(os.stat(target).st_mode) | 0o600 if os.path.exists(target) else 0o666
        return os.open(new, os.O_RDWR | os.O_CREAT | os.O_EXCL | os.O_NOFOLLOW, mode), new
    except OSError as error:
        raise OSError(error.errno, error.strerror, target) from error


def take_place(new: str, target: str) -> None:
    """What was written takes the place of a file, with its mode if there is one."""
    with contextlib.suppress(FileNotFoundError, PermissionError):
        os.chmod(new, stat.S_IMODE(os.stat(target).st_mode))
    os.replace(new, target)


def drop(new: str, path: str) -> None:
    """What was written and hasn't taken its place goes away."""
    if new != path:
        with contextlib.suppress(OSError):
            os.unlink(new)


def same_file(path: str, source: str) -> bool:
    """Whether a path leads to the file that is read, of which `-` is standard input."""
    try:
        read = os.fstat(standard_input().fileno()) if source == "-" else os.stat(source)
        return os.path.samestat(read, os.stat(path))
    except (OSError, ValueError, Refused):
        return False


@contextlib.contextmanager
def writing(path: str | None) -> Iterator[IO[str]]:
    """A text that is written to standard output, or beside a file whose place it takes at the end."""
    if path is None and sys.stdout is None:
        raise Refused("standard output: it can't be written: it is closed")
    with failing_at(path or "standard output"):
        if path is None:
            yield sys.stdout
            sys.stdout.flush()
        else:
            with taking(path) as new, open(new, "a" if new == path else "w", encoding="utf-8", newline="") as file:
                yield file


@contextlib.contextmanager
def taking(path: str, lasting: bool = True) -> Iterator[str]:
    """The path of a new file, which is brought to the disk if it is to be `lasting`, and takes the place of another at the end, or goes
    away. If the other is written as it stands, the path is its own."""
    new = path
    try:
        with uninterrupted():
            new = new_of(path)
        yield new
        if new != path:
            if lasting:
                sync_new((path, new))
            take_place(new, followed(path))
            if lasting:
                sync_folders([os.path.dirname(followed(path))])
    finally:
        drop(new, path)


class Together:
    """New files in folders that several machines may share: each is written beside its name under one that nobody else has. They are
    brought to the disk together at `commit`, unless they needn't be `lasting`, and then take their names, one after another. Those that
    haven't taken theirs at the end go away."""

    def __init__(self, lasting: bool = True) -> None:
        self.lasting = lasting
        self.begun: list[tuple[int, str, str]] = []

    def __enter__(self) -> Together:
        return self

    def begin(self, beside: str, path: str) -> int:
        """A descriptor of a new file that is written beside a name and takes another."""
        os.makedirs(os.path.dirname(beside) or ".", exist_ok=True)
        with uninterrupted():
            handle, new = new_beside(beside, PLACED)
            self.begun.append((handle, new, path))
        return handle

    def keep(self, count: int) -> None:
        """All go away but so many that were begun first."""
        while len(self.begun) > count:
            handle, new, path = self.begun.pop()
            os.close(handle)
            drop(new, path)

    def commit(self) -> None:
        handles = [handle for handle, _, _ in self.begun if self.lasting]
        # All are on their way to the disk before the first is waited for, so that the file system has few commits for them.
        for handle in handles:
            os.posix_fadvise(handle, 0, 0, os.POSIX_FADV_DONTNEED)
        if len(handles) == 1:
            os.fsync(handles[0])
        elif handles:
            with concurrent.futures.ThreadPoolExecutor(min(SYNCS, len(handles))) as pool:
                list(pool.map(os.fsync, handles))
        for _, new, path in self.begun:
            take_place(new, path)

    def __exit__(self, *_: object) -> None:
        self.keep(0)


@contextlib.contextmanager
def placed(path: str, lasting: bool = True) -> Iterator[IO[bytes]]:
    """A file of bytes as one of `Together`. If its writer doesn't come to the end, it goes away."""
    with Together(lasting) as together:
        with open(together.begin(path, path), "wb", closefd=False) as file:
            yield file
        together.commit()


# The JSON file beside a series


class Stale(Refused):
    """A JSON file that doesn't describe the series beside it."""

    def __init__(self, series: str, why: str) -> None:
        super().__init__(f"{series}: {why} ({notes_path(series)}), so its clock and scale aren't known: write the series again")


@dataclasses.dataclass
class Extremes:
    """The smallest and the largest of some whole numbers, None if there are none."""

    smallest: int | None = None
    largest: int | None = None

    def take(self, value: int | None) -> None:
        """Takes one more; None is no number."""
        if value is not None:
            self.smallest = value if self.smallest is None or value < self.smallest else self.smallest
            self.largest = value if self.largest is None or value > self.largest else self.largest

    @property
    def both(self) -> tuple[int | None, int | None]:
        return self.smallest, self.largest


def extent_of(stretches: Iterable[tuple[int, int] | None]) -> tuple[int, int] | None:
    """From the first start to the last end of some stretches; None if there are none."""
    extent: tuple[int, int] | None = None
    for one in stretches:
        if one is not None:
            extent = one if extent is None else (min(extent[0], one[0]), max(extent[1], one[1]))
    return extent


@dataclasses.dataclass(frozen=True)
class Notes:
    """What the JSON file beside a series says: its clock, its scale, its convention (`hold`, `event`, or `helper` for what `ticks` writes),
    its name and key, its smallest and its largest whole number, if it has values, and the size and the SHA-256 of the CSV. Earlier versions
    didn't write these four. The file also has the version that wrote it, which no command reads."""

    clock: Clock
    scale: int = 1
    kind: str = "hold"
    name: str = ""
    key: str | None = None
    zone: str | None = None
    smallest: int | None = None
    largest: int | None = None
    size: int | None = None
    sha256: str | None = None

    def text(self) -> str:
        clock = self.clock
        origin = moment_text(clock.origin, 9 if clock.origin % 10**9 else 0)
        fields = {"tilt-data": 1, "version": VERSION, "name": self.name, "key": self.key, "tick": duration_text(clock.tick)}
        fields |= {"origin": origin, "zone": self.zone, "closed": clock.closed, "kind": self.kind, "scale": self.scale}
        fields |= {"smallest": self.smallest, "largest": self.largest, "size": self.size, "sha256": self.sha256}
        return json_text({name: value for name, value in fields.items() if value is not None})

    @staticmethod
    def of(found: dict[str, Any]) -> Notes:
        """The notes of the fields of a JSON file; a ValueError or a KeyError says what was expected."""

        def field(name: str, kind: type, *default: Any) -> Any:
            value = found.get(name, *default) if default else found[name]
            if type(value) is not kind and not (default and value is default[0]):
                raise ValueError(f"{name} {json.dumps(value)[:80]}: {'a whole number' if kind is int else 'a text'} was expected")
            return value

        clock = Clock(duration_of(field("tick", str)), Moments().read(field("origin", str)), field("closed", str, "left"))
        if clock.closed not in ("left", "right"):
            raise ValueError(f"closed {clock.closed!r}: left or right was expected")
        texts = {name: field(name, str, default) for name, default in DEFAULTS.items()}
        numbers = {name: field(name, int, None) for name in ("smallest", "largest", "size")}
        notes = Notes(clock, field("scale", int), **numbers, **texts)
        if notes.scale < 1:
            raise ValueError("a scale above 0")
        if notes.kind not in KINDS:
            raise ValueError(f"kind {notes.kind!r}: one of {', '.join(KINDS)} was expected")
        return notes


def json_text(fields: dict[str, Any]) -> str:
    return json.dumps(fields, indent=1, ensure_ascii=False) + "\n"


def notes_path(series: str) -> str:
    """The JSON file beside a series: `a/x.json` for `a/x.csv`."""
    return os.path.splitext(series)[0] + ".json"


def notes_of(series: str) -> Notes | None:
    """What the JSON file beside a series says, or None if there is no such file. Notes that are pending, or of a CSV of another size, are
    rejected as `Stale`; `reading` compares the digest when it reads the CSV to its end."""
    path = notes_path(series)
    if series == "-" or not os.path.exists(path):
        return None
    try:
        with open(path, encoding="utf-8") as file:
            found = json.load(file)
        if found.get("pending") is True:
            raise Stale(series, "a command is writing this series, or was stopped while it did")
        notes = Notes.of(found)
    except Stale:
        raise
    except (OSError, ValueError, KeyError, TypeError, AttributeError, RecursionError, Refused) as error:
        raise Refused(f"{path}: the JSON that `tilt-data series` writes was expected: {error}") from error
    if notes.size is not None and os.path.isfile(series) and os.path.getsize(series) != notes.size:
        raise Stale(series, f"it has {os.path.getsize(series)} bytes, and its JSON file describes one of {notes.size}")
    return notes


def notes_of_like(series: str) -> Notes:
    """What the JSON file beside a series of --like says."""
    notes = notes_of(series)
    if notes is None:
        raise Refused(f"{series}: there is no {notes_path(series)} beside it; `tilt-data series` writes one")
    return notes


def check_replaceable(path: str, cure: str) -> None:
    """Rejects a series that would replace a file of other origin. A series of ours has the JSON file of ours beside it."""
    notes = notes_path(path)
    if os.path.isfile(notes):
        found = None
        with contextlib.suppress(OSError, ValueError, RecursionError), open(notes, encoding="utf-8") as file:
            found = json.load(file)
        if not (isinstance(found, dict) and "tilt-data" in found):
            raise Refused(f"{notes}: it is there, and `tilt-data` didn't write it; {cure}")
    # What the caller handed open, such as /dev/stdout, is never replaced.
    elif os.path.isfile(path) and not is_handed(followed(path)):
        raise Refused(f"{path}: it is there without a JSON file beside it, so `tilt-data` didn't write it; {cure}")


def copy(source: int, out: int, begin: int, end: int, check: Callable[[], None] = lambda: None, pause: float = 0.0) -> None:
    """Copies bytes of a file to where another is written, or to a pipe; the system copies them, many at a time. `check` is called for
    each piece, and can raise an exception to stop. A pipe that is full is left alone for a pause, in seconds: otherwise it would be filled
    again after each read of its reader. A file that ends before `end` gives fewer."""
    while begin < end:
        check()
        wanted = min(AT_ONCE, end - begin)
        count = os.sendfile(out, source, begin, wanted)
        if not count:
            break
        begin += count
        if count < wanted and pause:
            time.sleep(pause)


def scratch() -> tempfile.TemporaryDirectory[str]:
    """A folder that goes away at the end of a `with`."""
    return tempfile.TemporaryDirectory(prefix="tilt-data-")
