"""The version: one place defines it, `tilt-data --version` prints it with the commit, the toolchain and the program, and what is written
records it."""
from __future__ import annotations

import hashlib
import json
import os
import pathlib
import re
import shutil
import struct
import subprocess
import sys
import tomllib
import xml.etree.ElementTree
import zlib

import pytest
import tilt_data
from conftest import PYTHON, TOP, rows_in
from test_plot import put
from test_release import Checkout
from tilt_data.files import notes_of
from tilt_data.version import VERSION

TOOLCHAIN = "rattle-kit-0 logic 0"


class Versioned(Checkout):
    """A small checkout with `tilt-data` and a git repository, whose path has `git`."""

    def __init__(self, folder: pathlib.Path) -> None:
        super().__init__(folder)
        shutil.copy(TOP / "tools/package/describe", folder / "tools/package/describe")
        shutil.copytree(TOP / "python" / "tilt_data", folder / "python" / "tilt_data", ignore=shutil.ignore_patterns("__pycache__"))
        described = (folder / "release/tilt.toml").read_text()
        self.write("release/tilt.toml", described.replace('toolchain = "none"', f'toolchain = "{TOOLCHAIN}"'))
        self.write(".gitignore", "out/\n/path/\n__pycache__/\n")
        self.run()
        self.git("init", "-q")
        self.git("add", ".")
        self.git("-c", "user.name=x", "-c", "user.email=x@x", "commit", "-q", "-m", "first")

    def git(self, *words: str) -> str:
        return subprocess.run(["git", "-C", self.folder, *words], check=True, capture_output=True, text=True).stdout.strip()

    def printed(self, with_git: bool = True, **environment: str) -> dict[str, str]:
        """What `tilt-data --version` prints in this checkout."""
        if with_git:
            found = shutil.which("git")
            assert found is not None
            (self.folder / "path" / "git").unlink(missing_ok=True)
            (self.folder / "path" / "git").symlink_to(found)
        words = [sys.executable, "-m", "tilt_data", "--version"]
        environment = {
            "PATH": str(self.folder / "path"),
            "PYTHONPATH": str(self.folder / "python"),
            "PYTHONDONTWRITEBYTECODE": "1",
            **environment,
        }
        return fields(subprocess.run(words, cwd="/", env=environment, check=True, capture_output=True, text=True).stdout)


def fields(printed: str) -> dict[str, str]:
    """The lines of `--version` by their names, whose order is fixed."""
    first, *rest = printed.splitlines()
    assert first == f"tilt-data {VERSION}"
    found = dict(line.split(": ", 1) for line in rest)
    assert list(found) == ["commit", "toolchain", "program", "sha256"]
    return found


def sha256(path: pathlib.Path) -> str:
    return hashlib.sha256(path.read_bytes()).hexdigest()


@pytest.fixture
def checkout(tmp_path: pathlib.Path) -> Versioned:
    if shutil.which("git") is None:
        pytest.skip("git is missing")
    return Versioned(tmp_path / "checkout")


def test_one_place_defines_the_version() -> None:
    project = tomllib.loads((PYTHON / "pyproject.toml").read_text())
    assert "version" not in project["project"] and project["project"]["dynamic"] == ["version"]
    assert project["tool"]["setuptools"]["dynamic"] == {"version": {"attr": "tilt_data.version.VERSION"}}
    assert re.fullmatch(r"\d+\.\d+\.\d+", VERSION) and tilt_data.__version__ == VERSION


def test_pages_show_the_version() -> None:
    assert f"\nVersion {VERSION} · " in (TOP / "README.md").read_text()
    assert f"/tilt-stream_{VERSION}_amd64.deb" in (TOP / "docs" / "INSTALL.md").read_text()
    assert (TOP / "docs" / "INSTALL.md").read_text().count(f"tilt_data-{VERSION}-py3-none-") == 2
    assert f'\n "version": "{VERSION}",\n' in (TOP / "docs" / "DATA.md").read_text()


@pytest.mark.parametrize("named", [["tilt"], ["tilt-live"], []])
def test_a_release_has_the_version(checkout: Versioned, named: list[str]) -> None:
    shutil.copy(TOP / "tools/package/release", checkout.folder / "tools/package/release")
    built = {"tilt": "tilt", "tilt-live": "tilt_live_program"}
    for crate in built.values():
        checkout.script(f"crates/{crate}/out/{crate}", f"built {crate}")
    (checkout.folder / "path" / "rt").write_text(f"#!/bin/sh\necho {TOOLCHAIN}\n")
    (checkout.folder / "path" / "rt").chmod(0o755)
    for name in ("chmod", "cp", "mv"):
        (checkout.folder / "path" / name).symlink_to(f"/bin/{name}")
    words = [checkout.folder / "tools/package/release", *named]
    subprocess.run(words, env={"PATH": str(checkout.folder / "path")}, check=True, capture_output=True)
    for command, crate in built.items():
        release = tomllib.loads((checkout.folder / f"release/{command}.toml").read_text())
        assert release["program"] == sha256(checkout.folder / f"release/{command}")
        assert (release["version"] == VERSION) == (named in ([command], []))
        assert named not in ([command], []) or release["program"] == sha256(checkout.folder / f"crates/{crate}/out/{crate}")


# What `--version` prints


def test_checkout_prints_commit_toolchain_and_program(checkout: Versioned) -> None:
    released = checkout.folder / "release/tilt"
    wanted = {"commit": checkout.git("rev-parse", "HEAD"), "toolchain": TOOLCHAIN, "program": str(released), "sha256": sha256(released)}
    assert checkout.printed() == wanted
    # Another repository that the caller works in isn't that of the checkout.
    assert checkout.printed(GIT_DIR="/nowhere") == wanted


@pytest.mark.parametrize("name", ["crates/tilt_tests/src/lib.rt", "new"])
def test_commit_of_changed_files_is_marked(checkout: Versioned, name: str) -> None:
    checkout.write(name, "changed\n")
    assert checkout.printed()["commit"] == checkout.git("rev-parse", "HEAD") + "-dirty"


def test_toolchain_of_a_program_built_here_is_that_of_rt(checkout: Versioned) -> None:
    built = checkout.script("crates/tilt/out/tilt", "built")
    assert checkout.printed()["toolchain"] == "unknown"
    (checkout.folder / "path" / "rt").write_text("#!/bin/sh\necho rattle-kit-1 logic 1\n")
    (checkout.folder / "path" / "rt").chmod(0o755)
    assert checkout.printed() == {
        "commit": checkout.git("rev-parse", "HEAD"),
        "toolchain": "rattle-kit-1 logic 1",
        "program": str(built),
        "sha256": sha256(built),
    }
    # One that is the release byte for byte was built by the release's toolchain.
    shutil.copy(checkout.folder / "release/tilt", built)
    assert checkout.printed()["toolchain"] == TOOLCHAIN


def test_toolchain_of_another_program_is_unknown(checkout: Versioned, tmp_path: pathlib.Path) -> None:
    other = tmp_path / "other"
    other.write_text("#!/bin/sh\n")
    found = checkout.printed(TILT=str(other))
    assert (found["toolchain"], found["program"], found["sha256"]) == ("unknown", str(other), sha256(other))


def test_program_on_the_path_is_the_one_that_is_read(checkout: Versioned) -> None:
    installed = checkout.script("path/tilt-stream", "installed")
    found = checkout.printed(TILT="tilt-stream")
    assert (found["program"], found["sha256"]) == (str(installed), sha256(installed))


@pytest.mark.parametrize("missing", ["git", ".git"])
def test_commit_is_unknown_without_git(checkout: Versioned, missing: str) -> None:
    if missing == ".git":
        shutil.rmtree(checkout.folder / ".git")
        # The checkout lies in another repository.
        subprocess.run(["git", "-C", checkout.folder.parent, "init", "-q"], check=True)
    found = checkout.printed(with_git=missing != "git")
    assert found["commit"] == "unknown" and found["toolchain"] == TOOLCHAIN


def test_version_is_printed_without_a_program(checkout: Versioned) -> None:
    (checkout.folder / "release/tilt").unlink()
    commit = checkout.git("rev-parse", "HEAD") + "-dirty"
    assert checkout.printed() == {"commit": commit, "toolchain": "unknown", "program": "none", "sha256": "unknown"}
    found = checkout.printed(TILT="/no/such/program")
    assert (found["program"], found["sha256"]) == ("/no/such/program", "unknown")


# What is written


def test_notes_have_the_version(told, tmp_path: pathlib.Path) -> None:
    pathlib.Path("raw.csv").write_text("time,temp\n2026-03-01T00:00:01,20.5\n")
    assert told("series", "raw.csv", "--time", "time", "--tick", "1s", "--scale", "10")[0] == 0
    assert json.loads(pathlib.Path("temp.json").read_text())["version"] == VERSION
    words = ("ticks", "each", "each.csv", "--like", "temp.csv", "--from", "2026-03-01", "--to", "2026-03-01T00:00:05")
    assert told(*words)[0] == 0
    assert json.loads(pathlib.Path("each.json").read_text())["version"] == VERSION


@pytest.mark.parametrize("version", [None, "0.0.9", "99.0.0"])
def test_notes_of_other_versions_are_read(told, version: str | None) -> None:
    pathlib.Path("raw.csv").write_text("time,temp\n2026-03-01T00:00:01,20.5\n")
    told("series", "raw.csv", "--time", "time", "--tick", "1s", "--scale", "10")
    notes = json.loads(pathlib.Path("temp.json").read_text())
    del notes["version"]
    pathlib.Path("temp.json").write_text(json.dumps(notes if version is None else {**notes, "version": version}))
    found = notes_of("temp.csv")
    assert found is not None and found.scale == 10
    assert told("table", "temp.csv") == (0, "start,end,value\n2026-03-01T00:00:01Z,2026-03-01T00:00:02Z,20.5\n", "")
    # What is written after them has the version that writes it.
    assert told("series", "raw.csv", "--time", "time", "--like", "temp.csv", "--out", "more")[0] == 0
    assert json.loads(pathlib.Path("more/temp.json").read_text())["version"] == VERSION


@pytest.mark.parametrize("version", [None, "0.0.9", "99.0.0"])
def test_states_have_the_version_and_go_on_from_others(tilt, live, tmp_path: pathlib.Path, version: str | None) -> None:
    (tmp_path / "q").write_text("input x; emit x over (0, 40];")
    words = [sys.executable, "-m", "tilt_data", "follow", "q", "--state", "s"]
    environment = {**os.environ, "PYTHONPATH": str(PYTHON) + os.pathsep + os.environ.get("PYTHONPATH", ""), "TILT": tilt, "TILT_LIVE": live}

    def followed(text: str) -> tuple[int, str, str]:
        done = subprocess.run(words, input=text, cwd=tmp_path, env=environment, capture_output=True, text=True)
        return done.returncode, done.stdout, done.stderr

    assert followed("x,0,5,7\n") == (0, "start,end,value\n0,5,7\n", "")
    notes = tmp_path / "s" / "taken.json"
    kept = json.loads(notes.read_text())
    assert kept.pop("version") == VERSION
    notes.write_text(json.dumps(kept if version is None else {**kept, "version": version}))
    assert followed("x,5,8,9\n") == (0, "5,8,9\n", "")
    assert json.loads(notes.read_text())["version"] == VERSION


def test_outputs_of_scale_have_the_version(tilt, told, monkeypatch: pytest.MonkeyPatch) -> None:
    monkeypatch.setenv("TILT", tilt)
    pathlib.Path("q").write_text("input x; emit x over (0, 40];")
    pathlib.Path("x.csv").write_text("start,end,value\n0,5,7\n")
    assert told("scale", "q", "x=x.csv", "--out", "out")[0] == 0
    assert json.loads(pathlib.Path("out/outputs.json").read_text())["version"] == VERSION
    assert rows_in("out/output.csv") == [(0, 5, 7)]


def texts_in(png: bytes) -> dict[str, str]:
    """The texts of a PNG by their keywords: the chunks tEXt, zTXt and iTXt of its format."""
    found, at = {}, 8
    while at < len(png):
        length, kind = struct.unpack(">I4s", png[at : at + 8])
        data = png[at + 8 : at + 8 + length]
        keyword, _, text = data.partition(b"\0")
        if kind == b"tEXt":
            found[keyword.decode()] = text.decode("latin-1")
        elif kind == b"zTXt":
            found[keyword.decode()] = zlib.decompress(text[1:]).decode("latin-1")
        elif kind in (b"iTXt", b"tIME"):
            found[keyword.decode("latin-1")] = repr(data)
        at += length + 12
    return found


def test_pictures_have_the_version_and_no_date(told) -> None:
    matplotlib = pytest.importorskip("matplotlib")
    put("temp", "0,5,205\n5,9,210\n")
    for name in ("a.svg", "b.svg", "a.png", "b.png"):
        assert told("plot", name, "temp=temp.csv") == (0, "", "")
    for form in ("svg", "png"):
        assert pathlib.Path(f"a.{form}").read_bytes() == pathlib.Path(f"b.{form}").read_bytes()
    names = {"dc": "http://purl.org/dc/elements/1.1/", "cc": "http://creativecommons.org/ns#"}
    drawn = xml.etree.ElementTree.parse("a.svg")
    creators = [one.text for one in drawn.iterfind(".//dc:creator/cc:Agent/dc:title", names)]
    assert creators == [f"tilt-data {VERSION}", f"Matplotlib v{matplotlib.__version__}, https://matplotlib.org/"]
    assert drawn.find(".//dc:date", names) is None
    software = f"tilt-data {VERSION}, Matplotlib v{matplotlib.__version__}, https://matplotlib.org/"
    assert texts_in(pathlib.Path("a.png").read_bytes()) == {"Software": software}
