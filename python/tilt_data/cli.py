"""The command line: `tilt-data COMMAND ..`."""
from __future__ import annotations

import argparse
import contextlib
import importlib
import io
import os
import signal
import sys
import threading
import traceback
from typing import Any, Iterator

from .errors import Refused, note, printable

# The module of each command. A call loads that of its own alone.
COMMANDS = {"series": "readings", "table": "table", "run": "running", "why": "running", "units": "unit_table", "ticks": "ticks"}
COMMANDS |= {"by": "by", "scale": "scaling", "feeds": "feeds", "follow": "follow", "plot": "plotting", "view": "view.command"}
COMMANDS |= {"serve": "serve"}


def module_of(command: str) -> Any:
    return importlib.import_module(f".{COMMANDS[command]}", __package__)


class ShowVersion(argparse.Action):
    def __call__(self, parser: argparse.ArgumentParser, *_: Any) -> None:
        from .version import version_lines

        print("\n".join(version_lines()))
        parser.exit()


def parser_of(command: str | None = None) -> argparse.ArgumentParser:
    description = "From a file of readings to series of tilt, and from its output to tables and pictures."
    parser = argparse.ArgumentParser(prog="tilt-data", description=description)
    version = "print the version, the commit, the toolchain, and the program with its SHA-256"
    parser.add_argument("--version", action=ShowVersion, nargs=0, help=version)
    commands = parser.add_subparsers(metavar="COMMAND", required=True)
    for module in dict.fromkeys(map(module_of, COMMANDS if command is None else [command])):
        module.add(commands)
    return parser


def main(words: list[str] | None = None) -> int:
    words = sys.argv[1:] if words is None else words
    prepare_streams()
    with ending():
        return called(words)


def called(words: list[str]) -> int:
    """Runs the command of these arguments: its status. Whatever goes wrong is one line on standard error."""
    try:
        # The words of `run` are the program's, whatever they are.
        if words[:1] == ["run"] and words[1:] not in (["--help"], ["-h"]):
            return int(module_of("run").run(words[1:]))
        parsed = parser_of(words[0] if words and words[0] in COMMANDS else None).parse_args(words)
        return int(parsed.main(parsed))
    except Refused as refused:
        report("\n".join(map(printable, str(refused).split("\n"))))
        return refused.status
    except BrokenPipeError:
        # The reader of the output has gone: nothing more is written, also not at the end.
        os.dup2(os.open(os.devnull, os.O_WRONLY), 1)
        return 1
    except OSError as error:
        report(printable(f"{'' if error.filename is None else f'{error.filename}: '}{error.strerror or error}"))
        return 1
    except KeyboardInterrupt:
        return 130
    except MemoryError:
        report("out of memory")
        return 1
    except Exception as error:
        if os.environ.get("TILT_DATA_DEBUG"):
            traceback.print_exc()
        report(printable(f"unexpected error: {type(error).__name__}: {error}; please report it"))
        return 1


def report(text: str) -> None:
    """What standard output doesn't take isn't tried again at the end."""
    note(text)
    try:
        if sys.stdout is not None:
            sys.stdout.flush()
    except OSError:
        os.dup2(os.open(os.devnull, os.O_WRONLY), 1)


def prepare_streams() -> None:
    """Standard output and standard error take every text, as UTF-8. A stream that the caller closed keeps its number, so that no file is
    opened under it, and fails when it is read or written; what goes to a closed standard error is dropped."""
    for number, mode in ((0, os.O_WRONLY), (1, os.O_RDONLY), (2, os.O_RDONLY)):
        try:
            os.fstat(number)
        except OSError:
            # The lowest free number is the one that was closed.
            os.set_inheritable(os.open(os.devnull, mode), True)
    if sys.stderr is None:
        sys.stderr = open(os.devnull, "w", encoding="utf-8")
    for stream, errors in ((sys.stdout, "surrogateescape"), (sys.stderr, "backslashreplace")):
        if isinstance(stream, io.TextIOWrapper):
            stream.reconfigure(encoding="utf-8", errors=errors)


@contextlib.contextmanager
def ending() -> Iterator[None]:
    """SIGTERM and SIGHUP end a command as an error does, so that it takes its temporary files away; the status is 128 and their number. A
    signal that the caller ignores, as `nohup` does, stays ignored, and only the main thread can handle signals."""
    numbers = [signal.SIGTERM, signal.SIGHUP] if threading.current_thread() is threading.main_thread() else []
    taken = [number for number in numbers if signal.getsignal(number) is signal.SIG_DFL]

    def end(number: int, _: object) -> None:
        for one in taken:
            signal.signal(one, signal.SIG_IGN)
        raise SystemExit(128 + number)

    for number in taken:
        signal.signal(number, end)
    try:
        yield
    finally:
        for number in taken:
            signal.signal(number, signal.SIG_DFL)


if __name__ == "__main__":
    sys.exit(main())
