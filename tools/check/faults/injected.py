"""Each call of a command fails, is interrupted or is the last one, as strace lets it."""
from __future__ import annotations

import os
import signal
from functools import partial
from typing import Callable, Iterator

from check.faults.calls import AGAIN, FAILING, MEMORY, Call, Clean, Demand
from check.faults.rules import answers_of, held, is_prefix, wrong_end, wrong_files, wrong_status
from check.faults.running import Case, Place, run, traced
from check.faults.table import FaultTally

ERRORS = ["EIO", "ENOSPC", "EINTR", "EMFILE"]


def again(case: Case, clean: Clean, program: str, folder: str) -> list[str]:
    """Whether the same command, called once more in the folder from the old bytes, goes through and leaves nothing beside."""
    if case.old is not None and case.saves:
        with open(os.path.join(folder, case.saves), "wb") as file:
            file.write(case.old)
    end = run([program, *case.words], folder)
    wrong = wrong_status(end, 0, b"") + wrong_files(case, end, clean)
    if end.out != clean.out or held(case, end) != clean.saved:
        wrong.append("not the whole output or the new bytes")
    return [f"called once more: {what}" for what in wrong]


def try_fault(case: Case, clean: Clean, program: str, tally: FaultTally, call: Call, error: str, when: str) -> None:
    stays = when.endswith("+")
    with Place(case) as folder:
        options = ["-e", f"trace={call.name}", "-e", f"inject={call.name}:error={error}:when={when}"]
        end = traced([program, *case.words], folder, options)
        wrong = wrong_end(case, clean, call, error, end, stays)
        if not wrong and end.status == 6:
            wrong = again(case, clean, program, folder)
    tally.note(f"{case.name}: {call.name} {when} {error}{' and later' if stays else ''} [{call.line[:70]}]", wrong)
    survived = (end.status, end.err, end.out) == (case.status, case.told, clean.out)
    tally.count(case.name, "faults")
    tally.count(case.name, "wrong" if wrong else "survived" if survived else "told")
    if case.saves and not wrong and not survived:
        tally.count(case.name, "old" if held(case, end) == case.old else "new")


def try_interrupts(case: Case, clean: Clean, program: str, tally: FaultTally, call: Call) -> None:
    """Each second call of this kind is interrupted, from the first of the program itself on."""
    with Place(case) as folder:
        options = ["-e", f"trace={call.name}", "-e", f"inject={call.name}:error=EINTR:when={call.count}+2"]
        end = traced([program, *case.words], folder, options)
    wrong = wrong_end(case, clean, call, "EINTR", end, False)
    tally.note(f"{case.name}: each second {call.name} EINTR", wrong)
    tally.count(case.name, "faults")
    tally.count(case.name, "wrong" if wrong else "survived")


def try_two_faults(case: Case, clean: Clean, program: str, tally: FaultTally, call: Call) -> None:
    """The save fails, and so does the removal of what it began."""
    with Place(case) as folder:
        removals = [name for name in ("unlink", "unlinkat") if name != call.name]
        options = ["-e", f"trace={','.join([call.name, *removals])}", "-e", f"inject={call.name}:error=ENOSPC:when={call.count}"]
        options += ["-e", f"inject={','.join(removals)}:error=EIO"]
        end = traced([program, *case.words], folder, options)
        wrong = wrong_status(end, 6, answers_of(case, call, "ENOSPC", False)[0][1]) + wrong_files(case, end, clean, beside=1)
        if end.out != clean.out or held(case, end) not in (case.old, clean.saved):
            wrong.append("not the whole output, or neither the old bytes nor the new ones")
        wrong = wrong or again(case, clean, program, folder)
    tally.note(f"{case.name}: {call.name} {call.count} ENOSPC, and no removal", wrong)
    tally.count(case.name, "faults")
    tally.count(case.name, "wrong" if wrong else "told")


def try_kill(case: Case, clean: Clean, program: str, tally: FaultTally, call: Call) -> None:
    saving = call.part in ("save", "folder")
    with Place(case) as folder:
        options = ["-e", f"trace={call.name}", "-e", f"inject={call.name}:signal=KILL:when={call.count}"]
        end = traced([program, *case.words], folder, options)
        wrong = wrong_status(end, -signal.SIGKILL, case.told if call.name == "exit_group" else end.err)
        wrong += wrong_files(case, end, clean, beside=1 if saving else 0)
        if not is_prefix(case, end, clean) or not case.told.startswith(end.err):
            wrong.append(f"{end.out[:100]!r} and {end.err[:100]!r} are no prefixes of what is printed and told")
        if case.saves and held(case, end) not in (case.old, clean.saved):
            wrong.append("the name holds neither the old bytes nor the new ones")
        if not wrong and case.saves:
            wrong = again(case, clean, program, folder)
    tally.note(f"{case.name}: killed at {call.name} {call.count} [{call.line[:70]}]", wrong)
    tally.count(case.name, "kills")
    tally.count(case.name, "wrong" if wrong else "old" if held(case, end) == case.old else "new")


def try_no_memory(case: Case, clean: Clean, program: str, tally: FaultTally, demand: Demand) -> None:
    """From the call on no memory is given: what is printed is a prefix where snapshots are printed as they are made, and else nothing."""
    refusals = {name: f"{'retval=0' if name == 'brk' else 'error=ENOMEM'}:when={count}+" for name, count in demand.counts.items()}
    options = [word for name, refusal in refusals.items() for word in ("-e", f"inject={name}:{refusal}")]
    with Place(case) as folder:
        end = traced([program, *case.words], folder, ["-e", f"trace={','.join(MEMORY)}", *options])
        wrong = [] if "(INJECTED)" in end.trace else ["no memory was refused"]
        wrong += wrong_files(case, end, clean)
    streams = case.words[0] in ("run", "pipe", "watch", "flow") and "--cut" not in case.words
    answers = [(case.status, case.told), (5, b"tilt: 7 out of memory\n")] + ([(5, b""), (7, b"")] if demand.early else [])
    if (end.status, end.err) not in answers:
        wrong.append(f"status {end.status} and {end.err[:100]!r}, wanted one of {answers}")
    if end.status == case.status and (end.out, held(case, end)) != (clean.out, clean.saved):
        wrong.append(f"status {end.status}, and not the whole output or the new bytes")
    if end.status != case.status and (not is_prefix(case, end, clean) or end.out and not streams or held(case, end) != case.old):
        wrong.append(f"status {end.status}, with output {end.out[:100]!r}, or the name doesn't hold what it held")
    tally.note(f"{case.name}: no memory from {demand.counts} on", wrong)
    tally.count(case.name, "refusals")
    tally.count(case.name, "wrong" if wrong else "enough" if end.status == case.status else "wanting")


def trials_of(case: Case, clean: Clean, program: str, tally: FaultTally) -> Iterator[Callable[[], None]]:
    """Everything that is tried of a case, each as a call without arguments."""
    interrupted = set()
    for demand in clean.demands:
        yield partial(try_no_memory, case, clean, program, tally, demand)
    for call in clean.calls:
        yield partial(try_kill, case, clean, program, tally, call)
        if call.name not in FAILING:
            continue
        for error in ERRORS:
            yield partial(try_fault, case, clean, program, tally, call, error, str(call.count))
        yield partial(try_fault, case, clean, program, tally, call, "EIO", f"{call.count}+")
        if call.name in AGAIN and call.name not in interrupted:
            interrupted.add(call.name)
            yield partial(try_interrupts, case, clean, program, tally, call)
        if call.part == "save" and call.strict:
            yield partial(try_two_faults, case, clean, program, tally, call)
