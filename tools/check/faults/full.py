"""Folders whose files may not grow: by a limit on the length of files, and on a device that is full."""
from __future__ import annotations

import os
import shlex
import signal
import subprocess
import tempfile
from functools import partial
from typing import Callable, Iterator

from check.faults.live import QUERY, put_file, text_in
from check.faults.served import FOLDER, QUERY_FILE, Clean, Place, files_in, serve, shown, wrong_after
from check.faults.running import SECONDS
from shared.tally import Tally

# Each limit on the length of files is this many bytes above the one before.
STEP = 16
# How many lines are served on the device.
LINES = 20000
# A device of 64 KiB. The first call finds it full, then the position is printed, then it is made larger and the feed is served again.
DEVICE = """mount -t tmpfs -o size=64k none device || exit 99
cp q device/
cd device
"$@" --folder kept <../feed >../out 2>../err
echo $? >../status
cp -R kept ../found
"$1" q --folder kept --position >../position 2>../position_err
cp -R kept ../cut
mount -o remount,size=4m . || exit 99
"$@" --folder kept <../feed >../out_again 2>../err_again
echo $? >../status_again
cp -R kept ../after
"""


def short_files(clean: Clean, tally: Tally) -> Iterator[Callable[[], None]]:
    """For lengths that no file may have more than: the run fails there, or is ended by a signal."""
    most = max(len(clean.out[-1]), len(clean.state)) + STEP
    for length in range(0, most, STEP):
        for ignored in (False, True):
            yield partial(try_short_files, clean, length, ignored, tally)


def try_short_files(clean: Clean, length: int, ignored: bool, tally: Tally) -> None:
    failed = f"tilt: 6 save fault: {FOLDER}\n"
    shell = f"trap {shlex.quote('')} XFSZ; " if ignored else ""
    with Place(clean) as top:
        first = ["sh", "-c", f'{shell}exec prlimit --fsize={length} -- "$@"', "sh"]
        end = serve(top, clean.words, clean.case.packets, first=first)
        halted = end.status == 6 and end.err.endswith(failed) and clean.reports().startswith(end.err.removesuffix(failed))
        ended = end.status in (-signal.SIGXFSZ, 128 + signal.SIGXFSZ) and clean.reports().startswith(end.err) and not ignored
        fits = (end.status, end.err) == (0, clean.reports()) and length >= len(clean.state)
        wrong = None if end.out == "" and (halted or ended or fits) else f"came {shown(end)}"
        wrong = wrong or wrong_after(clean, top, range(len(clean.commits)), killed=ended)
    tally.expect(wrong is None, f"{clean.case}: files of {length} bytes at most, ignored {ignored}: {wrong}")


def long_feed() -> str:
    """A feed whose output doesn't fit the device."""
    rows = "".join(f"load,{at},{at + 1},{at % 7}\n,,{at + 1},\n" for at in range(LINES // 2))
    return "limit,0,,5\n" + rows


def try_full_device(program: str, tally: Tally) -> None:
    """A device that is full at the middle of a feed, and is then made larger."""
    query, feed = QUERY.replace("40", "1000000"), long_feed()
    with tempfile.TemporaryDirectory(prefix="faults.") as top:
        put_file(top, QUERY_FILE, query)
        put_file(top, "feed", feed)
        os.mkdir(os.path.join(top, "device"))
        apart = ["unshare", "--mount"] if os.geteuid() == 0 else ["unshare", "--map-root-user", "--mount"]
        words = [program, QUERY_FILE, "--every", "100"]
        whole = subprocess.run([program, QUERY_FILE], cwd=top, input=feed, capture_output=True, text=True, timeout=SECONDS).stdout
        try:
            done = subprocess.run([*apart, "sh", "-c", DEVICE, "sh", *words], cwd=top, capture_output=True, timeout=60)
        except (OSError, subprocess.TimeoutExpired):
            done = None
        if done is None or done.returncode != 0:
            tally.left_out.append("a folder on a full device: none can be mounted here (unshare --mount, mount -t tmpfs)")
            return
        wrong = wrong_on_device(program, top, feed, whole)
    tally.expect(wrong is None, f"a folder on a full device: {wrong}")


def wrong_on_device(program: str, top: str, feed: str, whole: str) -> str | None:
    """What is wrong with what was found on the device, or None."""
    texts = {
        name: text_in(top, name) for name in ("status", "out", "err", "position", "position_err", "status_again", "out_again", "err_again")
    }
    position = int(texts["position"] or 0)
    wanted = {"status": "6\n", "err": f"tilt: 6 save fault: {FOLDER}\n", "position": f"{position}\n", "status_again": "0\n"}
    if texts != {name: wanted.get(name, "") for name in texts}:
        return f"wanted {wanted}, came {texts}"
    found, cut, after = (files_in(os.path.join(top, name)) for name in ("found", "cut", "after"))
    front = feed[: feed.rfind("\n", 0, position) + 1]
    output = subprocess.run([program, QUERY_FILE], cwd=top, input=front, capture_output=True, text=True, timeout=SECONDS).stdout
    length = int(found["state"].split("\n")[1])
    if not 0 < position < len(feed) or found["output.csv"][:length] != output or cut["output.csv"] != output:
        return (
            f"position {position}, output of {length} bytes, of {len(found['output.csv'])} there, and of {len(cut['output.csv'])} after it"
        )
    return None if after["output.csv"] == whole else f"the output has {len(after['output.csv'])} bytes, wanted {len(whole)}"
