#!/usr/bin/env python3
"""Makes a package of Debian: `tools/package/debian.py [FOLDER]` puts tilt-stream_VERSION_ARCH.deb into the folder, `.` where none is given,
and prints its path. It has the program `tilt` as `tilt-stream`, and by its own name by update-alternatives; the other programs of
tools/package/programs; `tilt-data`; manual pages, pages, examples, completion for bash, and the licence. It exits with 1 if a program of
these sources is missing, built or released, or if dpkg-deb is."""
from __future__ import annotations

import gzip
import os
import re
import shutil
import subprocess
import sys
import tempfile

sys.path.insert(0, os.path.dirname(os.path.dirname(os.path.realpath(__file__))))

from shared.paths import FIND_PROGRAM, TOP
from shared.program import crates_of_programs

DOC = "usr/share/doc/tilt-stream"
DESCRIBE = os.path.join(TOP, "tools", "package", "describe")
MODULES = "usr/lib/python3/dist-packages/tilt_data"
# Other software is named `tilt`.
NAMES = {"tilt": "tilt-stream"}
STARTER = '#!/usr/bin/python3\nimport sys\n\nfrom tilt_data.cli import main\n\nif __name__ == "__main__":\n    sys.exit(main())\n'


def text_of(*parts: str) -> str:
    with open(os.path.join(TOP, *parts), encoding="utf-8") as file:
        return file.read()


def version() -> str:
    return str(re.findall(r'^VERSION = "(.*)"$', text_of("python", "tilt_data", "version.py"), re.M)[0])


def moment() -> int:
    """The time of the last commit: the same sources make the same package."""
    done = subprocess.run(["git", "-C", TOP, "log", "-1", "--format=%ct"], capture_output=True, text=True)
    return int(done.stdout) if done.returncode == 0 and done.stdout.strip() else 0


def put(root: str, name: str, content: bytes | str, mode: int = 0o644) -> None:
    path = os.path.join(root, name)
    os.makedirs(os.path.dirname(path), exist_ok=True)
    with open(path, "wb") as file:
        file.write(content if isinstance(content, bytes) else content.encode())
    os.chmod(path, mode)


def manual(page: str) -> bytes:
    return gzip.compress(text_of("docs", page).encode(), 9, mtime=0)


def found_program(command: str) -> str:
    """The path of a program of these sources, or nothing; standard error then says why."""
    return subprocess.run([FIND_PROGRAM, "--found", command], stdout=subprocess.PIPE, text=True).stdout.strip()


def architecture() -> str:
    return subprocess.run(["dpkg", "--print-architecture"], capture_output=True, text=True, check=True).stdout.strip()


def control(kilobytes: int) -> str:
    return f"""Package: tilt-stream
Version: {version()}
Architecture: {architecture()}
Maintainer: tilt <tilt@localhost>
Installed-Size: {kilobytes}
Depends: libc6, python3 (>= 3.11)
Recommends: python3-matplotlib, python3-pandas, tzdata
Suggests: mosquitto-clients, python3-distributed, python3-tqdm
Section: science
Priority: optional
Description: queries over interval data, proved to print what they mean
 tilt compiles and runs queries over streams of readings: windows, joins,
 grids and limits. What it prints is proved to be what the query means.
 tilt-live runs a query on readings as they come in.
 tilt-data makes its series of readings with dates and decimals, and tables
 and pictures of its output.
"""


def lay_out(root: str, programs: dict[str, str]) -> None:
    """The files of the package, of which these are the programs by their commands."""
    shutil.copytree(os.path.join(TOP, "python", "tilt_data"), os.path.join(root, MODULES), ignore=shutil.ignore_patterns("__pycache__"))
    shutil.copytree(os.path.join(TOP, "examples"), os.path.join(root, DOC, "examples"))
    described = subprocess.run([DESCRIBE, programs["tilt"]], capture_output=True, check=True)
    put(root, f"{MODULES}/described.toml", described.stdout)
    for command, program in programs.items():
        with open(program, "rb") as file:
            put(root, f"usr/bin/{NAMES.get(command, command)}", file.read(), 0o755)
    put(root, "usr/bin/tilt-data", STARTER, 0o755)
    for command in [*programs, "tilt-data"]:
        put(root, f"usr/share/man/man1/{NAMES.get(command, command)}.1.gz", manual(f"{command}.1"))
    put(root, f"{DOC}/copyright", text_of("LICENSE"))
    for page in ("README.md", "CHANGELOG.md"):
        put(root, f"{DOC}/{page}", text_of(page))
    for folder in ("docs", os.path.join("docs", "internals")):
        for page in sorted(os.listdir(os.path.join(TOP, folder))):
            if page.endswith(".md"):
                put(root, f"{DOC}/{folder}/{page}", text_of(folder, page))
    shutil.copytree(os.path.join(TOP, "docs", "pictures"), os.path.join(root, DOC, "docs", "pictures"))
    for name in [*programs, *NAMES.values(), "tilt-data"]:
        put(root, f"usr/share/bash-completion/completions/{name}", text_of("tools", "package", "completion"))


def finish(root: str, time: int) -> None:
    """The control files, the modes, and one time for all."""
    sizes = [os.path.getsize(os.path.join(folder, name)) for folder, _, names in os.walk(root) for name in names]
    put(root, "DEBIAN/control", control(sum(sizes) // 1024 + 1))
    for script in ("postinst", "prerm"):
        put(root, f"DEBIAN/{script}", text_of("tools", "package", script), 0o755)
    for folder, _, names in os.walk(root):
        os.chmod(folder, 0o755)
        for name in names:
            path = os.path.join(folder, name)
            os.chmod(path, 0o755 if os.access(path, os.X_OK) else 0o644)
            os.utime(path, (time, time))
        os.utime(folder, (time, time))


def main() -> int:
    if len(sys.argv) > 2 or sys.argv[1:2] and sys.argv[1].startswith("-"):
        print("usage: tools/package/debian.py [FOLDER]", file=sys.stderr)
        return 2
    programs = {command: found_program(command) for command in crates_of_programs()}
    if not all(programs.values()):
        return 1
    if shutil.which("dpkg-deb") is None:
        print("debian: dpkg-deb is missing", file=sys.stderr)
        return 1
    target = os.path.abspath(sys.argv[1] if sys.argv[1:] else ".")
    package = os.path.join(target, f"tilt-stream_{version()}_{architecture()}.deb")
    time = moment()
    with tempfile.TemporaryDirectory() as root:
        lay_out(root, programs)
        finish(root, time)
        new = package + ".new"
        done = subprocess.run(
            ["dpkg-deb", "--root-owner-group", "-Zxz", "--build", root, new],
            stdout=subprocess.DEVNULL,
            env={**os.environ, "SOURCE_DATE_EPOCH": str(time)},
        )
        if done.returncode:
            return 1
    os.replace(new, package)
    print(package)
    return 0


if __name__ == "__main__":
    sys.exit(main())
