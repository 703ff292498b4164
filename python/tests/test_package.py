"""The ways to install: the Debian package in a fresh root, tools/package/install in a fresh folder, and pip in a virtual environment. The first example
and the tutorial's last command run with what was installed, with no toolchain on the path."""
from __future__ import annotations

import argparse
import hashlib
import importlib.util
import os
import pathlib
import re
import shlex
import shutil
import subprocess
import sys
import tomllib

import pytest
from conftest import TOP
from tilt_data.cli import parser_of
from tilt_data.version import VERSION


pytestmark = pytest.mark.program


def need_program() -> None:
    """Leaves a test out if a program wasn't built or released from the sources of this checkout: tools/package/debian.py and tools/package/install take each."""
    for command in ("tilt", "tilt-live"):
        if subprocess.run([str(TOP / "tools" / "package" / "program"), "--found", command], capture_output=True).returncode:
            pytest.skip("the program isn't built")


@pytest.fixture(scope="module")
def root(tmp_path_factory: pytest.TempPathFactory) -> pathlib.Path:
    """A fresh root with the package in it."""
    need_program()
    if shutil.which("dpkg-deb") is None:
        pytest.skip("dpkg-deb is missing")
    folder = tmp_path_factory.mktemp("package")
    made = subprocess.run([str(TOP / "tools" / "package" / "debian.py"), str(folder)], capture_output=True, text=True)
    assert made.returncode == 0, made.stderr
    package = made.stdout.strip()
    assert os.path.basename(package).startswith("tilt-stream_") and package.endswith(".deb")
    root = folder / "root"
    for name in ("var/lib/dpkg/info", "var/lib/dpkg/updates", "var/lib/dpkg/alternatives", "etc/alternatives"):
        os.makedirs(root / name)
    (root / "var/lib/dpkg/status").write_text("")
    if os.geteuid() == 0:
        words = ["dpkg", f"--root={root}", "--force-depends", "--force-script-chrootless", "--install", package]
    else:
        words = ["dpkg-deb", "-x", package, str(root)]
    done = subprocess.run(words, capture_output=True, text=True)
    assert done.returncode == 0, done.stdout + done.stderr
    return root


def called(root: pathlib.Path, *words: str, folder: str | pathlib.Path = "/") -> str:
    """What a program of the root prints, with the root and the system's own programs alone on the path."""
    python = root / "usr/lib/python3/dist-packages"
    environment = {"PATH": f"{root}/usr/bin:/usr/bin:/bin", "PYTHONPATH": str(python), "PYTHONDONTWRITEBYTECODE": "1"}
    assert shutil.which("rt", path=environment["PATH"]) is None
    return subprocess.run(words, cwd=folder, env=environment, check=True, capture_output=True, text=True).stdout


def test_the_first_example(root):
    first = "usr/share/doc/tilt-stream/examples/first"
    assert called(root, "tilt-stream", "run", f"{first}/query.tilt", f"x={first}/x.csv", folder=root) == "start,end,value\n0,5,7\n6,8,9\n"
    assert called(root, "tilt-data", "run", f"{first}/query.tilt", f"x={first}/x.csv", folder=root) == "start,end,value\n0,5,7\n6,8,9\n"


def test_from_a_raw_file_to_a_table(root, tmp_path):
    shutil.copytree(root / "usr/share/doc/tilt-stream/examples/clinical", tmp_path / "clinical")
    folder = tmp_path / "clinical"
    called(
        root,
        "tilt-data",
        "series",
        "raw/monitor.csv",
        "--time",
        "time",
        "--tick",
        "1s",
        "--max-age",
        "1s",
        "--null",
        "-1",
        "--out",
        "data",
        "--origin",
        "2026-03-02T22:00",
        folder=folder,
    )
    out = called(root, "tilt-data", "run", "desaturation.tilt", "saturation=data/saturation.csv", folder=folder)
    assert out == (folder / "expected/desaturation.csv").read_text()


def test_a_page_to_look_around_in_is_written(root, tmp_path):
    called(root, "tilt-data", "view", f"x={TOP}/examples/first/x.csv", "--out", str(tmp_path / "page.html"), folder=root)
    assert "</html>" in (tmp_path / "page.html").read_text()


def test_tilt_is_an_alternative(root):
    if os.geteuid() != 0:
        pytest.skip("only root installs by dpkg")
    assert os.readlink(root / "usr/bin/tilt") == "/etc/alternatives/tilt"
    assert os.readlink(root / "etc/alternatives/tilt") == "/usr/bin/tilt-stream"
    assert os.readlink(root / "etc/alternatives/tilt.1.gz") == "/usr/share/man/man1/tilt-stream.1.gz"


def test_what_is_in_it(root):
    for name in (
        "man/man1/tilt-stream.1.gz",
        "man/man1/tilt-live.1.gz",
        "man/man1/tilt-data.1.gz",
        "doc/tilt-stream/copyright",
        "doc/tilt-stream/docs/DATA.md",
        "doc/tilt-stream/docs/internals/PROVED.md",
        "doc/tilt-stream/docs/pictures/window.svg",
        "doc/tilt-stream/CHANGELOG.md",
        "bash-completion/completions/tilt-live",
        "bash-completion/completions/tilt-data",
        "doc/tilt-stream/examples/sensors/raw/readings.csv",
    ):
        assert (root / "usr/share" / name).stat().st_size > 0, name


def versions(program: pathlib.Path, of: pathlib.Path) -> str:
    """What `tilt-data --version` has to print of an installed program, which is the program `of` of the checkout."""
    commit = subprocess.run(["git", "-C", TOP, "rev-parse", "HEAD"], check=True, capture_output=True, text=True).stdout.strip()
    dirty = subprocess.run(["git", "-C", TOP, "status", "--porcelain"], check=True, capture_output=True, text=True).stdout
    described = subprocess.run([TOP / "tools" / "package" / "describe", of], check=True, capture_output=True, text=True).stdout
    toolchain = tomllib.loads(described).get("toolchain", "unknown")
    return (
        f"tilt-data {VERSION}\ncommit: {commit}{'-dirty' if dirty else ''}\ntoolchain: {toolchain}\nprogram: {program}\n"
        f"sha256: {hashlib.sha256(of.read_bytes()).hexdigest()}\n"
    )


def found_here() -> pathlib.Path:
    """The program of the checkout that tools/package/debian.py and tools/package/install take."""
    done = subprocess.run([TOP / "tools" / "package" / "program", "--found"], check=True, capture_output=True, text=True)
    return pathlib.Path(done.stdout.rstrip("\n"))


def need_git() -> None:
    if subprocess.run(["git", "-C", TOP, "rev-parse", "HEAD"], capture_output=True).returncode:
        pytest.skip("this is no git repository")


def test_the_package_has_its_version(root):
    need_git()
    status = root / "var/lib/dpkg/status"
    assert os.geteuid() != 0 or f"\nVersion: {VERSION}\n" in status.read_text()
    assert called(root, "tilt-data", "--version") == versions(root / "usr/bin/tilt-stream", found_here())


def offered(root: pathlib.Path, *words: str, by: str = "_tilt") -> list[str]:
    """What the completion for bash offers for the last of some words, by one of its functions."""
    text = " ".join(shlex.quote(word) for word in words)
    script = f". usr/share/bash-completion/completions/tilt; COMP_WORDS=({text}); COMP_CWORD={len(words) - 1}; {by}; echo ${{COMPREPLY[*]}}"
    return subprocess.run(["bash", "-c", script], cwd=root, capture_output=True, text=True, check=True).stdout.split()


def table_of_commands() -> dict[str, set[str]]:
    """The commands at the top of docs/COMMANDS.md with their options."""
    lines = (TOP / "docs" / "COMMANDS.md").read_text().partition("| command | prints |\n|---|---|\n")[2].partition("\n\n")[0].splitlines()
    found: dict[str, set[str]] = {}
    for line in lines:
        call = re.match(r"\| `(\w+)([^`]*)` \|", line)
        assert call is not None, line
        found.setdefault(call[1], set()).update(re.findall(r"--\w+", call[2]))
    return found


def test_the_completion_has_the_commands_and_their_options(root):
    assert offered(root, "tilt", "ex") == ["exec", "explain"] and offered(root, "tilt", "f") == ["fix", "flow"]
    commands = table_of_commands()
    assert len(commands) > 10 and set(offered(root, "tilt", "")) == set(commands)
    for command, options in commands.items():
        assert set(offered(root, "tilt", command, "--")) == options, command


def test_the_completion_has_the_options_of_tilt_live(root):
    options = [
        "--begun",
        "--strict",
        "--plain",
        "--lateness",
        "--idle",
        "--ahead",
        "--keys",
        "--max-keys",
        "--resume",
        "--save",
        "--folder",
        "--every",
        "--from",
        "--position",
        "--time",
        "--name",
        "--value",
        "--tick",
        "--origin",
        "--unit",
        "--zone",
        "--fold",
        "--scale",
        "--event",
        "--events",
        "--max-age",
        "--closed",
        "--ties",
        "--null",
        "--skip-empty",
        "--delimiter",
        "--decimal",
        "--times",
        "--decimals",
        "--units",
        "--check",
        "--bounds",
    ]
    assert offered(root, "tilt-live", "query.tilt", "--", by="_tilt_live") == options


def test_it_goes_away_again(root):
    if os.geteuid() != 0:
        pytest.skip("only root installs by dpkg")
    words = ["dpkg", f"--root={root}", "--force-script-chrootless", "--remove", "tilt-stream"]
    done = subprocess.run(words, capture_output=True, text=True)
    assert done.returncode == 0, done.stderr
    assert not os.path.lexists(root / "usr/bin/tilt") and not (root / "usr/bin/tilt-stream").exists()


@pytest.fixture(scope="module")
def prefix(tmp_path_factory: pytest.TempPathFactory) -> pathlib.Path:
    """A fresh folder that tools/package/install was called with."""
    need_program()
    folder = tmp_path_factory.mktemp("prefix")
    done = install(folder)
    assert done.returncode == 0, done.stderr
    return folder


def install(folder: pathlib.Path) -> subprocess.CompletedProcess[str]:
    return subprocess.run([str(TOP / "tools" / "package" / "install"), str(folder)], capture_output=True, text=True)


def call_installed(prefix: pathlib.Path, command: str, folder: pathlib.Path) -> str:
    """What a command of the shell prints on both streams, with the folder's `bin` and the system's own programs alone on the path."""
    environment = {"PATH": f"{prefix}/bin:/usr/bin:/bin", "PYTHONDONTWRITEBYTECODE": "1", "LC_ALL": "C.UTF-8"}
    for name in ("tilt", "tilt-live", "tilt-data"):
        assert shutil.which(name, path=environment["PATH"]) == f"{prefix}/bin/{name}"
    done = subprocess.run(["sh", "-c", command], cwd=folder, env=environment, capture_output=True, text=True)
    return done.stdout + done.stderr


def test_the_tutorials_last_command_runs_after_tools_install(prefix, tmp_path):
    page = (TOP / "docs" / "TUTORIAL.md").read_text()
    for name, content in re.findall(r"^```file (\S+)\n(.*?)^```$", page, re.M | re.S):
        (tmp_path / name).write_text(content)
    command, printed = re.findall(r"^\$ (.*)\n((?:(?!\$ |```|\[status ).*\n)*)", page, re.M)[-1]
    assert command.startswith("tilt-data ") and printed.count("\n") > 3
    assert call_installed(prefix, command, tmp_path) == printed


def test_tools_install_brings_pages_and_completion(prefix):
    for name in ("tilt", "tilt-live", "tilt-data"):
        assert (prefix / "share/man/man1" / f"{name}.1").read_bytes() == (TOP / "docs" / f"{name}.1").read_bytes()
        completion = (prefix / "share/bash-completion/completions" / name).read_text()
        assert re.search(rf"^complete .* {name}( |$)", completion, re.M)


def test_the_completion_has_the_options_of_each_command_of_tilt_data(prefix):
    commands = next(action for action in parser_of()._actions if isinstance(action, argparse._SubParsersAction)).choices
    environment = {"PATH": f"{prefix}/bin:/usr/bin:/bin", "PYTHONDONTWRITEBYTECODE": "1", "COLUMNS": "60"}
    script = f". {prefix}/share/bash-completion/completions/tilt-data\n" + "".join(
        f"COMP_WORDS=(tilt-data {command} --) COMP_CWORD=2; _tilt_data; echo {command} ${{COMPREPLY[*]}}\n" for command in commands
    )
    done = subprocess.run(["bash", "-c", script], env=environment, capture_output=True, text=True, check=True)
    offers = {command: set(options) for command, *options in map(str.split, done.stdout.splitlines())}
    assert len(offers) > 8 and "--force" in offers["series"] and "--force" in offers["ticks"]
    assert offers == {
        command: {option for action in parser._actions for option in action.option_strings if option.startswith("--")}
        for command, parser in commands.items()
    }


def test_what_is_installed_has_its_version(prefix, tmp_path):
    need_git()
    wanted = versions(prefix / "bin/tilt", found_here())
    assert call_installed(prefix, "tilt-data --version", tmp_path) == wanted
    # The toolchain is that of the program that was installed, and of no other.
    other = call_installed(prefix, "TILT=/bin/true tilt-data --version", tmp_path).splitlines()
    assert other[2:4] == ["toolchain: unknown", "program: /bin/true"] and other[:2] == wanted.splitlines()[:2]


def test_the_completion_has_the_version(prefix):
    completion = prefix / "share/bash-completion/completions/tilt-data"
    script = f". {completion}; COMP_WORDS=(tilt-data --v) COMP_CWORD=1; _tilt_data; echo ${{COMPREPLY[*]}}"
    assert subprocess.run(["bash", "-c", script], capture_output=True, text=True, check=True).stdout == "--version\n"


def test_tools_install_replaces_an_earlier_version_as_a_whole(prefix, tmp_path):
    old = prefix / "lib" / "tilt-data" / "tilt_data" / "gone.py"
    old.write_text("raise SystemExit(9)\n")
    assert install(prefix).returncode == 0
    assert not old.exists() and os.listdir(prefix / "lib") == ["tilt-data"]
    assert call_installed(prefix, "tilt-data why /dev/null", tmp_path).startswith("tilt: ")


def test_tools_install_says_what_it_cant_write(tmp_path):
    need_program()
    (tmp_path / "file").write_text("")
    done = install(tmp_path / "file")
    assert done.returncode == 1 and done.stdout == ""
    assert done.stderr.splitlines()[-1] == f"install: {tmp_path}/file/bin/tilt can't be written: is {tmp_path}/file yours to write?"


def test_the_way_of_the_page_installs_by_pip_without_a_network(tilt, tmp_path):
    for module in ("ensurepip", "setuptools", "wheel", "pandas", "matplotlib"):
        if importlib.util.find_spec(module) is None:
            pytest.skip(f"{module} is missing")
    page = (TOP / "docs" / "INSTALL.md").read_text()
    make, arguments = re.findall(r"^(python3 -m venv --system-site-packages) .*\n\S+/pip (install --no-build-isolation .*)$", page, re.M)[0]
    shutil.copytree(TOP / "python", tmp_path / "python", ignore=shutil.ignore_patterns("tests", "build", "*.egg-info", "__pycache__"))
    environment = {"PATH": "/usr/bin:/bin", "HOME": str(tmp_path), "TILT": tilt, "PYTHONDONTWRITEBYTECODE": "1"}
    first = TOP / "examples" / "first"
    asked = "import importlib.metadata, tilt_data; assert importlib.metadata.version('tilt-data') == tilt_data.__version__"
    for words in (
        [sys.executable, *shlex.split(make)[1:], "venv"],
        ["venv/bin/pip", *shlex.split(arguments), "--no-index"],
        ["venv/bin/python", "-c", asked],
        ["venv/bin/python", "-c", "import tilt_data, matplotlib; assert tilt_data.__file__.startswith(__import__('sys').prefix)"],
        ["venv/bin/tilt-data", "view", f"x={first}/x.csv", "--out", "page.html"],
        ["venv/bin/tilt-data", "run", str(first / "query.tilt"), f"x={first}/x.csv"],
    ):
        done = subprocess.run(words, cwd=tmp_path, env=environment, capture_output=True, text=True)
        assert done.returncode == 0, done.stdout + done.stderr
    assert done.stdout == "start,end,value\n0,5,7\n6,8,9\n"
