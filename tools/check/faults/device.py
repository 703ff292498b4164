"""A device that is full."""
from __future__ import annotations

import os
import shlex
import subprocess
import tempfile

from check.faults.rules import wrong_status
from check.faults.running import Case, End, Place, content, files_in, put_files, run
from check.faults.table import FaultTally

DEVICES = "a full device"
DEVICE = """mount -t tmpfs -o size=64k none device || exit 99
cp given/* device/
cd device
"$@" >../out 2>../err
echo $? >../status
cp -R . ../after
"""


def on_device(folder: str, given: dict[str, bytes], command: list[str]) -> End | None:
    """Runs a command in a device of 64 KiB that holds the given files, or gives None where none can be mounted. The device is in a
    mount namespace of its own, and goes away with it."""
    top = tempfile.mkdtemp(dir=folder)
    for name in ("given", "device", "after"):
        os.mkdir(os.path.join(top, name))
    put_files(os.path.join(top, "given"), given)
    apart = ["unshare", "--mount"] if os.geteuid() == 0 else ["unshare", "--map-root-user", "--mount"]
    whole = [*apart, "sh", "-c", DEVICE, "sh", *command]
    try:
        done = subprocess.run(whole, cwd=top, stdin=subprocess.DEVNULL, capture_output=True, timeout=60)
    except (OSError, subprocess.TimeoutExpired):
        return None
    if done.returncode != 0 or not os.path.exists(os.path.join(top, "status")):
        return None
    status = int(content(os.path.join(top, "status")))
    return End(status, content(os.path.join(top, "out")), content(os.path.join(top, "err")), files_in(os.path.join(top, "after")))


def rows_from(first: int, last: int) -> bytes:
    return b"start,end,value\n" + b"".join(b"%d,%d,%d\n" % (i, i + 1, i % 7) for i in range(first, last))


def try_device(program: str, tally: FaultTally) -> None:
    """A `resume` whose new checkpoint doesn't fit the device, under the name of the old one; a save after it that fits; and an output that
    doesn't fit."""
    files = {
        "q": b"input x; emit count(x[t-100000:t]) over (0, 100000];\n",
        "x": rows_from(0, 500),
        "more": rows_from(500, 9000),
        "some": rows_from(500, 600),
    }
    resume = ["resume", "state"]
    with Place(Case("", [], files)) as folder:
        first = run([program, "start", "q", "x=x", "--upto", "500", "--save", "state"], folder)
        whole = run([program, *resume, "x=more", "--upto", "9000", "--save", "other"], folder)
        wide = run([program, "run", "q", "x=more"], folder)
        given = {"state": first.files["state"][1]}
        more = [program, *resume, f"x={folder}/more", "--upto", "9000", "--save", "state"]
        some = [program, *resume, f"x={folder}/some", "--upto", "600", "--save", "state"]
        both = ["sh", "-c", f"{shlex.join(more)} 2>told >/dev/null; {shlex.join(some)}"]
        text = ["sh", "-c", f"{shlex.join([program, 'run', f'{folder}/q', f'x={folder}/more'])} >text"]
        ends = [on_device(folder, given, more), on_device(folder, given, both), on_device(folder, {}, text)]
    if None in ends:
        tally.left_out.append("a full device: none can be mounted here (unshare --mount, mount -t tmpfs): 3 cases")
        return
    too_long, fitting, cut_short = (end for end in ends if end is not None)
    wrong = wrong_status(too_long, 6, b"tilt: 6 save fault: state\n")
    sizes = {name: len(there) for name, (_, there) in too_long.files.items()}
    if list(sizes) != ["state"] or too_long.files["state"][1] != given["state"]:
        wrong.append(f"the device holds {sizes}, and not the old {len(given['state'])} bytes alone")
    if too_long.out != whole.out:
        wrong.append("not the whole output")
    tally.note("a checkpoint, and a new one under its name that doesn't fit the device", wrong, DEVICES)
    wrong = wrong_status(fitting, 0, b"")
    if fitting.files["told"][1] != b"tilt: 6 save fault: state\n" or sorted(fitting.files) != ["state", "told"]:
        wrong.append(f"the device holds {sorted(fitting.files)}, and the first save told {fitting.files['told'][1]!r}")
    tally.note("after it a save on the device that fits", wrong, DEVICES)
    wrong = wrong_status(cut_short, 4, b"tilt: 5 write fault\n")
    if not wide.out.startswith(cut_short.files["text"][1]):
        wrong.append("the device holds no prefix of the output")
    tally.note("an output that doesn't fit the device", wrong, DEVICES)
