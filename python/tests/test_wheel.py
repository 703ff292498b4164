"""The wheel with the programs in it, as `tools/package/wheel.py` makes it: in a small checkout, whose release has the programs that are
tried. It is installed by pip in a fresh virtual environment, and called with no program on the path."""
from __future__ import annotations

import base64
import csv
import hashlib
import importlib.util
import io
import os
import pathlib
import shutil
import subprocess
import sys
import tomllib
import zipfile

import pytest
from conftest import PYTHON, TOP
from test_release import Checkout
from tilt_data.version import VERSION

TOOLCHAIN = "rattle-kit-0 logic 0"
NAME = f"tilt_data-{VERSION}-py3-none-manylinux_2_34_x86_64.whl"
FIRST = TOP / "examples" / "first"


class Packed(Checkout):
    """A small checkout with `tilt-data` and a release of real programs."""

    def __init__(self, folder: pathlib.Path, programs: dict[str, str]) -> None:
        super().__init__(folder)
        for name in ("LICENSE", "python/pyproject.toml", *(f"tools/package/{name}" for name in ("debian.py", "describe", "wheel.py"))):
            (folder / name).parent.mkdir(exist_ok=True)
            shutil.copy(TOP / name, folder / name)
        shutil.copytree(PYTHON / "tilt_data", folder / "python" / "tilt_data", ignore=shutil.ignore_patterns("__pycache__"))
        for command, program in programs.items():
            shutil.copy(program, folder / "release" / command)
            lines = {"version": VERSION, "sources": self.sources(command), "toolchain": TOOLCHAIN, "program": sha256(pathlib.Path(program))}
            self.write(f"release/{command}.toml", "".join(f'{name} = "{text}"\n' for name, text in lines.items()))

    def pack(self, *words: str) -> tuple[int, str, str]:
        """A call of tools/package/wheel.py: its status, its output and its messages."""
        environment = {**os.environ, "PYTHONDONTWRITEBYTECODE": "1"}
        done = subprocess.run([self.folder / "tools/package/wheel.py", *words], env=environment, capture_output=True, text=True)
        return done.returncode, done.stdout, done.stderr

    def replace(self, name: str, old: str, new: str) -> None:
        text = (self.folder / name).read_text()
        assert text.count(old) == 1
        (self.folder / name).write_text(text.replace(old, new))


def sha256(path: pathlib.Path) -> str:
    return hashlib.sha256(path.read_bytes()).hexdigest()


@pytest.fixture
def checkout(tilt: str, live: str, tmp_path: pathlib.Path) -> Packed:
    if shutil.which("readelf") is None:
        pytest.skip("readelf is missing: apt-get install binutils")
    return Packed(tmp_path / "checkout", {"tilt": tilt, "tilt-live": live})


@pytest.fixture
def wheel(checkout: Packed, tmp_path: pathlib.Path) -> pathlib.Path:
    assert checkout.pack(str(tmp_path)) == (0, f"{tmp_path / NAME}\n", "")
    return tmp_path / NAME


def test_the_same_sources_make_the_same_bytes(checkout: Packed, wheel: pathlib.Path, tmp_path: pathlib.Path) -> None:
    other = Packed(tmp_path / "other", {command: str(checkout.folder / "release" / command) for command in ("tilt", "tilt-live")})
    for path in (other.folder / "python" / "tilt_data").rglob("*"):
        os.utime(path, (1000000000, 1000000000))
    (other.folder / "python/tilt_data/__pycache__").mkdir()
    other.write("python/tilt_data/__pycache__/rows.cpython-311.pyc", "")
    (tmp_path / "more").mkdir()
    assert other.pack(str(tmp_path / "more"))[0] == 0
    assert (tmp_path / "more" / NAME).read_bytes() == wheel.read_bytes()
    assert os.listdir(tmp_path / "more") == [NAME]


def test_what_is_in_it(checkout: Packed, wheel: pathlib.Path) -> None:
    with zipfile.ZipFile(wheel) as opened:
        files = {entry.filename: opened.read(entry) for entry in opened.infolist()}
        modes = {entry.filename: entry.external_attr >> 16 & 0o777 for entry in opened.infolist()}
        # Nothing of the day or of the machine's zlib.
        assert {(entry.date_time, entry.compress_type) for entry in opened.infolist()} == {((1980, 1, 1, 0, 0, 0), zipfile.ZIP_STORED)}
    programs = {"tilt_data/bin/tilt", "tilt_data/bin/tilt-live"}
    info = f"tilt_data-{VERSION}.dist-info"
    modules = {str(path.relative_to(PYTHON)) for path in (PYTHON / "tilt_data").rglob("*") if path.is_file() and path.suffix != ".pyc"}
    about = {f"{info}/{name}" for name in ("LICENSE", "METADATA", "RECORD", "WHEEL", "entry_points.txt")}
    assert set(files) == modules | programs | about | {"tilt_data/described.toml"}
    assert modes == {name: 0o755 if name in programs else 0o644 for name in files}
    recorded = {name: (digest, size) for name, digest, size in csv.reader(io.StringIO(files[f"{info}/RECORD"].decode()))}
    assert recorded.pop(f"{info}/RECORD") == ("", "") and len(recorded) == len(files) - 1
    for name, (digest, size) in recorded.items():
        assert digest == "sha256=" + base64.urlsafe_b64encode(hashlib.sha256(files[name]).digest()).decode().rstrip("=")
        assert size == str(len(files[name]))


class Installed:
    """A fresh virtual environment with the wheel, and an empty folder as the path."""

    def __init__(self, folder: pathlib.Path, wheel: pathlib.Path) -> None:
        self.folder = folder
        (folder / "path").mkdir(parents=True)
        self.modules = folder / f"venv/lib/python{sys.version_info[0]}.{sys.version_info[1]}/site-packages/tilt_data"
        self.run(sys.executable, "-m", "venv", "venv")
        self.run("venv/bin/pip", "install", "--no-index", "--no-deps", str(wheel))

    def run(self, *words: str, **environment: str) -> str:
        """What a command prints on both streams."""
        environment = {"PATH": str(self.folder / "path"), "HOME": str(self.folder), **environment}
        done = subprocess.run(words, cwd=self.folder, env=environment, stdout=subprocess.PIPE, stderr=subprocess.STDOUT, text=True)
        assert done.returncode == 0, done.stdout
        return done.stdout


@pytest.fixture
def installed(wheel: pathlib.Path, tmp_path: pathlib.Path) -> Installed:
    if importlib.util.find_spec("ensurepip") is None:
        pytest.skip("ensurepip is missing")
    return Installed(tmp_path / "installed", wheel)


def test_pip_installs_the_commands_and_the_programs(checkout: Packed, installed: Installed) -> None:
    command, program = "venv/bin/tilt-data", installed.modules / "bin" / "tilt"
    lines = ["commit: unknown", f"toolchain: {TOOLCHAIN}", f"program: {program}", f"sha256: {sha256(checkout.folder / 'release/tilt')}"]
    assert installed.run(command, "--version").splitlines() == [f"tilt-data {VERSION}", *lines]
    assert installed.run(command, "run", str(FIRST / "query.tilt"), f"x={FIRST / 'x.csv'}") == "start,end,value\n0,5,7\n6,8,9\n"
    # A query in units needs `tilt-live` too.
    (installed.folder / "raw.csv").write_text("time,temp\n2026-03-01T00:00:01,20.5\n2026-03-01T00:00:03,24.5\n")
    installed.run(command, "series", "raw.csv", "--time", "time", "--tick", "1s", "--scale", "10")
    (installed.folder / "q.tilt").write_text("input temp; emit temp + 0.5 over (0, 5];")
    assert installed.run(command, "run", "q.tilt", "temp=temp.csv") == "start,end,value\n1,3,21.0\n3,4,25.0\n"
    # A program that the caller names comes first. Its toolchain isn't known.
    assert installed.run(command, "--version", TILT="/bin/true").splitlines()[2:4] == ["toolchain: unknown", "program: /bin/true"]
    # Without the wheel's programs, those on the path are taken.
    shutil.move(installed.modules / "bin", installed.folder / "moved")
    (installed.folder / "path" / "tilt").symlink_to(installed.folder / "moved" / "tilt")
    assert f"program: {installed.folder}/path/tilt\n" in installed.run(command, "--version")


def test_pip_knows_what_the_extras_need(installed: Installed) -> None:
    project = tomllib.loads((PYTHON / "pyproject.toml").read_text())["project"]
    asked = "import importlib.metadata as known, tilt_data; print(known.version('tilt-data'), tilt_data.__version__, sep='\\n')"
    extras = project["optional-dependencies"]
    needs = [f'{package}; extra == "{extra}"' for extra, packages in extras.items() for package in packages]
    printed = installed.run("venv/bin/python", "-c", f"{asked}; print(*known.requires('tilt-data'), sep='\\n')")
    assert printed.splitlines() == [VERSION, VERSION, *needs]


@pytest.mark.parametrize("command", ["tilt", "tilt-live"])
def test_programs_of_another_version_or_other_sources_are_rejected(checkout: Packed, tmp_path: pathlib.Path, command: str) -> None:
    description = f"release/{command}.toml"
    kept = (checkout.folder / description).read_text()
    checkout.replace(description, f'version = "{VERSION}"', 'version = "0.0.9"')
    message = f"wheel: release/{command} has the version 0.0.9, and tilt-data {VERSION}: call tools/package/release\n"
    assert checkout.pack(str(tmp_path)) == (1, "", message)
    checkout.write(description, kept.replace('program = "', 'program = "0'))
    message = f"wheel: release/{command} isn't the program that release/{command}.toml describes\n"
    assert checkout.pack(str(tmp_path)) == (1, "", message)
    checkout.write(description, kept)
    checkout.write({"tilt": "crates/tilt/src/lib.rt", "tilt-live": "crates/tilt_live_program/src/lib.rt"}[command], "// changed\n")
    message = f"wheel: release/{command} was built from other sources: call tools/package/release\n"
    assert checkout.pack(str(tmp_path)) == (1, "", message)
    assert not list(tmp_path.glob("*.whl*"))


def test_the_tag_has_the_least_glibc_that_the_programs_need(checkout: Packed, tmp_path: pathlib.Path) -> None:
    checkout.replace("tools/package/wheel.py", "\nGLIBC = (2, 34)\n", "\nGLIBC = (2, 33)\n")
    message = "wheel: release/tilt needs GLIBC_2.34, but the tag is py3-none-manylinux_2_33_x86_64\n"
    assert checkout.pack(str(tmp_path)) == (1, "", message)
    assert not list(tmp_path.glob("*.whl*"))


def test_a_folder_is_named(checkout: Packed, tmp_path: pathlib.Path) -> None:
    for words in ([], ["--help"], ["a", "b"]):
        assert checkout.pack(*words) == (2, "", "usage: tools/package/wheel.py FOLDER\n")
    assert checkout.pack(str(tmp_path / "none"))[:2] == (1, "")
