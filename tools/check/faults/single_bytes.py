"""Reads that give one byte, and writes that take one."""
from __future__ import annotations

import os
import re
import shutil
import subprocess
import threading

from check.faults.calls import Clean
from check.faults.rules import held, wrong_files, wrong_status
from check.faults.running import Case, Place, run, traced
from check.faults.table import FaultTally

PACKETS = "reads that give one byte, from pipes"
ONES = "reads that give one byte and writes that take one"
# An output of so many bytes takes too long to be traced byte by byte.
LONG = 10000
ONE_BYTE = """#include <sys/syscall.h>
#include <unistd.h>
ssize_t read(int fd, void *room, size_t size) { return syscall(SYS_read, fd, room, size > 1 ? 1 : size); }
ssize_t write(int fd, const void *bytes, size_t size) { return syscall(SYS_write, fd, bytes, size > 1 ? 1 : size); }
"""


def give(file: int, given: bytes) -> None:
    """Writes the bytes to a pipe, each as a packet of its own, so that a read gives one."""
    try:
        for i in range(len(given)):
            os.write(file, given[i : i + 1])
    except BrokenPipeError:
        pass
    os.close(file)


def try_packets(case: Case, clean: Clean, program: str, tally: FaultTally) -> None:
    """Each file that is read is a pipe that gives one byte a read."""
    words = list(case.words)
    readers, givers = [], []
    for name, given in [*case.files.items(), *([(case.link, case.old or b"")] if case.link else [])]:
        places = [i for i, word in enumerate(words) if (word == name or word.endswith("=" + name)) and words[i - 1] != "--save"]
        if not places:
            continue
        reader, writer = os.pipe2(os.O_DIRECT | os.O_CLOEXEC)
        readers.append(reader)
        givers.append(threading.Thread(target=give, args=(writer, given), daemon=True))
        for i in places:
            words[i] = words[i].removesuffix(name) + f"/dev/fd/{reader}"
    with Place(case) as folder:
        for giver in givers:
            giver.start()
        end = run([program, *words], folder, fds=readers)
        for reader in readers:
            os.close(reader)
        for giver in givers:
            giver.join()
    wrong = wrong_status(end, case.status, case.told) + wrong_files(case, end, clean)
    if end.out != clean.out or case.saves and held(case, end) != clean.saved:
        wrong.append(f"not the whole output or the new bytes: {end.out[:100]!r}")
    tally.note(f"{case.name}: {PACKETS}", wrong, PACKETS)


def compiles(text: str, *words: str) -> bool:
    """Whether there is a C compiler that takes a text with these words."""
    compiler = shutil.which("cc")
    if compiler is None:
        return False
    return subprocess.run([compiler, *words, "-x", "c", "-"], input=text.encode(), capture_output=True).returncode == 0


def one_byte_library(folder: str) -> str | None:
    """A library whose reads give one byte and whose writes take one, or None where it can't be made."""
    library = os.path.join(folder, "one_byte.so")
    return library if compiles(ONE_BYTE, "-shared", "-fPIC", "-o", library) else None


def try_one_byte(case: Case, clean: Clean, program: str, tally: FaultTally, library: str) -> None:
    with Place(case) as folder:
        end = traced([program, *case.words], folder, ["-y", "-e", "trace=read,write"], {"LD_PRELOAD": library})
    puts = [line for line in end.trace.splitlines() if re.match(r"\d+ +write\(1<", line)]
    if clean.out and any(not line.endswith(" = 1") for line in puts):
        tally.left_out.append(f"{case.name}: writes that take one byte: the library isn't used")
        return
    wrong = wrong_status(end, case.status, case.told) + wrong_files(case, end, clean)
    if end.out != clean.out or case.saves and held(case, end) != clean.saved or len(puts) != len(clean.out):
        wrong.append(f"not the whole output or the new bytes: {end.out[:100]!r}")
    tally.note(f"{case.name}: {ONES}", wrong, ONES)
