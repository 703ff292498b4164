"""Which program `./tilt` and `./tilt-live` run: the one built here, the released one, or one that is proved and built first. Tried on a small
checkout whose programs are shell scripts, with a toolchain that builds nothing."""
from __future__ import annotations

import hashlib
import os
import pathlib
import shutil
import subprocess
import sys
import time

import pytest

from conftest import TOP

# Files of the repository that are in the small checkout.
COPIED = [
    "tilt",
    "tilt-live",
    "tools/package/program",
    "tools/package/programs",
    "tools/package/prove.py",
    "tools/package/sources",
]
CRATES = "# A comment: with a colon.\ntilt_base: itoa\ntilt: tilt_base\ntilt_live_program: tilt_base\ntilt_tests: tilt\n"
DESCRIPTION = 'version = "9.8.7"\nsources = "{sources}"\ntoolchain = "none"\nprogram = "{program}"\n'


class Checkout:
    """A checkout with two programs, a crate below both, one of tests, and a release that was built from its sources."""

    def __init__(self, folder: pathlib.Path) -> None:
        self.folder = folder
        shutil.copytree(TOP / "tools" / "shared", folder / "tools" / "shared", ignore=shutil.ignore_patterns("__pycache__"))
        (folder / "tools" / "package").mkdir()
        for name in COPIED:
            shutil.copy(TOP / name, folder / name)
        self.write("crates.txt", CRATES)
        for crate in ("tilt_base", "tilt", "tilt_live_program", "tilt_tests"):
            self.write(f"crates/{crate}/src/lib.rt", f"// {crate}\n")
        self.write("crates/tilt_base/specs/Lib.antt", "")
        self.release("tilt", "released")
        self.release("tilt-live", "released live")

    def write(self, name: str, text: str) -> pathlib.Path:
        path = self.folder / name
        path.parent.mkdir(parents=True, exist_ok=True)
        path.write_text(text)
        return path

    def script(self, name: str, says: str) -> pathlib.Path:
        path = self.write(name, f'#!/bin/sh\necho "{says} $*"\n')
        path.chmod(0o755)
        return path

    def sources(self, command: str) -> str:
        words = [self.folder / "tools/package/sources", command]
        return subprocess.run(words, check=True, capture_output=True, text=True).stdout.strip()

    def release(self, command: str, says: str) -> None:
        program = self.script(f"release/{command}", says)
        digest = hashlib.sha256(program.read_bytes()).hexdigest()
        self.write(f"release/{command}.toml", DESCRIPTION.format(sources=self.sources(command), program=digest))

    def run(self, *arguments: str, script: str = "tilt", toolchain: bool = False) -> tuple[int, str, str]:
        """A call of ./tilt, or of another script: its status, its output and its messages. The path has no `rt`, or one that fails."""
        folder = self.folder / "path"
        folder.mkdir(exist_ok=True)
        for name in (
            "sh",
            "env",
            "awk",
            "cat",
            "cut",
            "dirname",
            "find",
            "head",
            "mkdir",
            "python3",
            "readlink",
            "rm",
            "sed",
            "sha256sum",
            "sort",
            "touch",
            "xargs",
        ):
            found = shutil.which(name)
            assert found is not None
            if not (folder / name).exists():
                (folder / name).symlink_to(found)
        if toolchain:
            (folder / "rt").write_text("#!/bin/sh\nexit 1\n")
            (folder / "rt").chmod(0o755)
        done = subprocess.run([self.folder / script, *arguments], env={"PATH": str(folder)}, capture_output=True, text=True)
        return done.returncode, done.stdout, done.stderr


@pytest.fixture
def checkout(tmp_path: pathlib.Path) -> Checkout:
    return Checkout(tmp_path / "checkout")


def test_release_of_these_sources_is_run_without_a_message(checkout: Checkout) -> None:
    assert checkout.run("run", "a b") == (0, "released run a b\n", "")


def test_each_command_runs_its_own_program(checkout: Checkout) -> None:
    assert checkout.run("query", script="tilt-live") == (0, "released live query\n", "")
    checkout.script("crates/tilt_live_program/out/tilt_live_program", "built live")
    assert checkout.run("query", script="tilt-live") == (0, "built live query\n", "")
    assert checkout.run("run") == (0, "released run\n", "")


def test_there_is_no_other_program(checkout: Checkout) -> None:
    assert checkout.run("tilt_base", script="tools/package/program") == (125, "", "tilt: there is no program tilt_base\n")


@pytest.mark.parametrize("changed, statuses", [("tilt", (125, 0)), ("tilt_live_program", (0, 125)), ("tilt_base", (125, 125))])
def test_a_change_ends_the_releases_of_the_programs_that_use_it(checkout: Checkout, changed: str, statuses: tuple[int, int]) -> None:
    checkout.write(f"crates/{changed}/src/lib.rt", "// changed\n")
    (tilt, _, _), (live, _, err) = checkout.run(), checkout.run(script="tilt-live")
    assert (tilt, live) == statuses
    assert live == 0 or "no rt in PATH; release/tilt-live is the last release (9.8.7)" in err


def test_release_is_run_through_a_link(checkout: Checkout, tmp_path: pathlib.Path) -> None:
    (tmp_path / "link").symlink_to(checkout.folder / "tilt")
    done = subprocess.run([tmp_path / "link", "x"], capture_output=True, text=True)
    assert (done.returncode, done.stdout) == (0, "released x\n")


@pytest.mark.parametrize("name", ["crates/tilt/src/lib.rt", "crates/tilt_base/src/lib.rt", "crates/tilt_base/specs/Lib.antt"])
def test_release_of_other_sources_is_not_run(checkout: Checkout, name: str) -> None:
    with open(checkout.folder / name, "a") as file:
        file.write("// changed\n")
    status, out, err = checkout.run("run")
    assert (status, out) == (125, "")
    assert "no rt in PATH; release/tilt is the last release (9.8.7)" in err


@pytest.mark.parametrize("name", ["crates/tilt_base/proofs/Lemma.antt", "crates/tilt/src/more.rt"])
def test_release_is_not_run_if_a_source_is_new(checkout: Checkout, name: str) -> None:
    checkout.write(name, "")
    assert checkout.run("run")[:2] == (125, "")


def test_libraries_of_a_crate_count(checkout: Checkout) -> None:
    checkout.write("crates.txt", "tilt_base: itoa csv\ntilt: tilt_base\n")
    assert checkout.run("run")[:2] == (125, "")


def test_lines_of_other_crates_do_not_count(checkout: Checkout) -> None:
    checkout.write("crates.txt", "tilt: tilt_base\ntilt_more: tilt_base\n# Another comment.\ntilt_base: itoa\n")
    assert checkout.run("run")[1] == "released run\n"


def test_sources_of_tests_do_not_count(checkout: Checkout) -> None:
    checkout.write("crates/tilt_tests/src/lib.rt", "// changed\n")
    assert checkout.run("run")[1] == "released run\n"


def test_moved_source_counts(checkout: Checkout) -> None:
    os.rename(checkout.folder / "crates/tilt/src/lib.rt", checkout.folder / "crates/tilt/src/other.rt")
    assert checkout.run("run")[0] == 125


def test_damaged_release_is_not_run(checkout: Checkout) -> None:
    checkout.script("release/tilt", "damaged")
    status, out, _ = checkout.run("run")
    assert (status, out) == (125, "")


def test_program_built_here_comes_first(checkout: Checkout) -> None:
    checkout.script("crates/tilt/out/tilt", "built")
    assert checkout.run("run")[1] == "built run\n"


def test_program_older_than_a_source_is_not_run(checkout: Checkout) -> None:
    program = checkout.script("crates/tilt/out/tilt", "built")
    old = time.time() - 100
    os.utime(program, (old, old))
    assert checkout.run("run")[1] == "released run\n"


def test_changed_source_is_proved_and_built(checkout: Checkout) -> None:
    checkout.write("crates/tilt/src/lib.rt", "// changed\n")
    status, out, err = checkout.run("run", toolchain=True)
    assert (status, out) == (125, "")
    assert "proving and building the program first" in err and "it could not be built" in err


def found_in_python(checkout: Checkout, **environment: str) -> str:
    """The program that tilt_data of a checkout calls, or the error. The path has the usual commands, and a `tilt-stream`."""
    shutil.copytree(TOP / "python" / "tilt_data", checkout.folder / "python" / "tilt_data", ignore=shutil.ignore_patterns("__pycache__"))
    checkout.run()
    checkout.script("path/tilt-stream", "installed")
    environment = {
        "PATH": str(checkout.folder / "path"),
        "PYTHONPATH": str(checkout.folder / "python"),
        "PYTHONDONTWRITEBYTECODE": "1",
        **environment,
    }
    words = [sys.executable, "-c", "from tilt_data.program import program; print(program())"]
    return subprocess.run(words, env=environment, check=True, capture_output=True, text=True).stdout.rstrip("\n")


def test_python_finds_the_release_of_these_sources(checkout: Checkout) -> None:
    assert found_in_python(checkout) == str(checkout.folder / "release/tilt")


def test_python_takes_the_program_built_here_before_the_release(checkout: Checkout) -> None:
    program = checkout.script("crates/tilt/out/tilt", "built")
    assert found_in_python(checkout) == str(program)


def test_python_takes_no_release_of_other_sources(checkout: Checkout) -> None:
    checkout.write("crates/tilt/src/lib.rt", "// changed\n")
    assert found_in_python(checkout) == str(checkout.folder / "path/tilt-stream")


def test_python_takes_the_program_that_the_caller_names(checkout: Checkout) -> None:
    assert found_in_python(checkout, TILT="/some/program") == "/some/program"


def test_releases_of_this_checkout_are_described() -> None:
    released = [path for path in (TOP / "release").iterdir() if path.suffix == ""]
    assert TOP / "release" / "tilt" in released
    for path in released:
        digest = hashlib.sha256(path.read_bytes()).hexdigest()
        assert f'program = "{digest}"\n' in path.with_suffix(".toml").read_text()
        assert os.access(path, os.X_OK)
