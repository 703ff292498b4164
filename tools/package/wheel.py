#!/usr/bin/env python3
"""Makes a wheel of `tilt-data` with the released programs in it: `tools/package/wheel.py FOLDER` writes it into the folder and prints its
path. The programs are in `tilt_data/bin`, where `tilt_data/program.py` finds them. Neither a network nor setuptools is needed. The same
commit makes the same bytes: the order and the times of the files are fixed, and they aren't compressed, since another zlib would compress
them to other bytes. It exits with 1 if a released program is of another version or of other sources, or if it needs more than the wheel's
tag says."""
from __future__ import annotations

import base64
import hashlib
import os
import re
import stat
import subprocess
import sys
import tomllib
import zipfile

sys.path.insert(0, os.path.dirname(os.path.dirname(os.path.realpath(__file__))))

from package.debian import DESCRIBE, text_of, version
from shared.paths import TOOLS, TOP
from shared.program import crates_of_programs

# The first version of glibc that the programs run with. pip compares it with the one of the machine.
GLIBC = (2, 34)
TAG = f"py3-none-manylinux_{GLIBC[0]}_{GLIBC[1]}_x86_64"
NAME = f"tilt_data-{version()}"
INFO = f"{NAME}.dist-info"
PROGRAMS = "tilt_data/bin"
# The first time that a zip can have.
TIME = (1980, 1, 1, 0, 0, 0)


class Unfit(Exception):
    """Why a released program can't be in the wheel."""


def content(*parts: str) -> bytes:
    with open(os.path.join(TOP, *parts), "rb") as file:
        return file.read()


def beyond_the_tag(program: str) -> list[str]:
    """What a program needs of its libraries beyond the glibc of the tag, such as GLIBC_2.36, GLIBC_ABI_DT_RELR or GCC_3.0."""
    words = ["readelf", "--version-info", "--wide", program]
    printed = subprocess.run(words, capture_output=True, text=True, check=True, env={**os.environ, "LC_ALL": "C"}).stdout
    names = re.findall(r" Name: (\S+)", printed)
    numbers = {name: re.fullmatch(r"GLIBC_(\d+(?:\.\d+)*)", name) for name in names}
    return [name for name, number in numbers.items() if number is None or tuple(map(int, number[1].split("."))) > GLIBC]


def released(command: str) -> bytes:
    """A released program, which has to be the one of these sources."""
    described = tomllib.loads(text_of("release", f"{command}.toml"))
    program = content("release", command)
    words = [os.path.join(TOOLS, "package", "sources"), command]
    sources = subprocess.run(words, capture_output=True, text=True, check=True).stdout.strip()
    if described["version"] != version():
        raise Unfit(f"release/{command} has the version {described['version']}, and tilt-data {version()}: call tools/package/release")
    if described["sources"] != sources:
        raise Unfit(f"release/{command} was built from other sources: call tools/package/release")
    if described["program"] != hashlib.sha256(program).hexdigest():
        raise Unfit(f"release/{command} isn't the program that release/{command}.toml describes")
    beyond = beyond_the_tag(os.path.join(TOP, "release", command))
    if beyond:
        raise Unfit(f"release/{command} needs {', '.join(beyond)}, but the tag is {TAG}")
    return program


def files_of_the_package() -> dict[str, bytes]:
    """The modules, what is known of the programs, and the programs."""
    python = os.path.join(TOP, "python")
    files = {}
    for folder, folders, names in os.walk(os.path.join(python, "tilt_data")):
        folders[:] = [name for name in folders if name != "__pycache__"]
        paths = [os.path.relpath(os.path.join(folder, name), python) for name in names]
        files.update({path: content("python", path) for path in paths})
    described = subprocess.run([DESCRIBE, os.path.join(TOP, "release", "tilt")], capture_output=True, check=True).stdout
    programs = {f"{PROGRAMS}/{command}": released(command) for command in crates_of_programs()}
    return dict(sorted({**files, "tilt_data/described.toml": described, **programs}.items()))


def files_of_the_wheel() -> dict[str, bytes]:
    """What pip has to know: the metadata of python/pyproject.toml, the tag, and the commands."""
    project = tomllib.loads(text_of("python", "pyproject.toml"))["project"]
    lines = ["Metadata-Version: 2.1", f"Name: {project['name']}", f"Version: {version()}", f"Summary: {project['description']}"]
    lines += [f"License: {project['license']['text']}", f"Requires-Python: {project['requires-python']}"]
    lines += [f"Requires-Dist: {package}" for package in project["dependencies"]]
    for extra, packages in project["optional-dependencies"].items():
        lines += [f"Provides-Extra: {extra}", *(f'Requires-Dist: {package}; extra == "{extra}"' for package in packages)]
    texts = {
        "LICENSE": text_of("LICENSE"),
        "METADATA": "".join(f"{line}\n" for line in lines),
        "WHEEL": f"Wheel-Version: 1.0\nGenerator: tools/package/wheel.py\nRoot-Is-Purelib: false\nTag: {TAG}\n",
        "entry_points.txt": "[console_scripts]\n" + "".join(f"{name} = {function}\n" for name, function in project["scripts"].items()),
    }
    return {f"{INFO}/{name}": text.encode() for name, text in texts.items()}


def record(files: dict[str, bytes]) -> bytes:
    """The SHA-256 and the size of each file, as pip reads them."""
    digests = {name: base64.urlsafe_b64encode(hashlib.sha256(data).digest()).rstrip(b"=").decode() for name, data in files.items()}
    lines = [f"{name},sha256={digests[name]},{len(data)}\n" for name, data in files.items()]
    return "".join([*lines, f"{INFO}/RECORD,,\n"]).encode()


def write(path: str, files: dict[str, bytes]) -> None:
    with zipfile.ZipFile(path, "w") as wheel:
        for name, data in files.items():
            entry = zipfile.ZipInfo(name, TIME)
            entry.external_attr = (stat.S_IFREG | (0o755 if name.startswith(f"{PROGRAMS}/") else 0o644)) << 16
            wheel.writestr(entry, data)


def main() -> int:
    if len(sys.argv) != 2 or sys.argv[1].startswith("-"):
        print("usage: tools/package/wheel.py FOLDER", file=sys.stderr)
        return 2
    path = os.path.join(os.path.abspath(sys.argv[1]), f"{NAME}-{TAG}.whl")
    try:
        files = {**files_of_the_package(), **files_of_the_wheel()}
        write(f"{path}.new", {**files, f"{INFO}/RECORD": record(files)})
        os.replace(f"{path}.new", path)
    except (OSError, subprocess.CalledProcessError, Unfit) as error:
        print(f"wheel: {error}", file=sys.stderr)
        return 1
    print(path)
    return 0


if __name__ == "__main__":
    sys.exit(main())
