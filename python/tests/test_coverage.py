"""tools/measure/coverage: what it notes of a small program in C, whose functions and jumps are known."""
from __future__ import annotations

import pathlib
import shutil
import subprocess
import sys

import pytest
from conftest import TOP

sys.path.insert(0, str(TOP / "tools"))

from measure.coverage.program import ENTRY, Observed, Place, places_of  # noqa: E402
from measure.coverage.run import branches_in, functions_in, is_ours  # noqa: E402

# With one argument and the name of the program `count` is 2.
SOURCE = """
int never(int n) { return n; }
int odd(int n) { if (n & 1) return 1; return 0; }
int sum(int n) { int all = 0; for (int i = 0; i < n; i++) all += i; return all; }
int sure(int n) { if (n > 9) __builtin_trap(); return n; }
int main(int count, char **words) { if (count > 9) return never(count); return 10 * odd(sure(count)) + sum(100 * count) % 7; }
"""


@pytest.fixture
def observed(tmp_path: pathlib.Path) -> Observed:
    for tool in ("cc", "objdump"):
        if shutil.which(tool) is None:
            pytest.skip(f"{tool} is missing")
    (tmp_path / "program.c").write_text(SOURCE)
    subprocess.run(["cc", "-O0", "-o", tmp_path / "program", tmp_path / "program.c"], check=True)
    return Observed(str(tmp_path / "program"), str(tmp_path))


def ways(observed: Observed, function: str) -> list[int]:
    """What was seen of the jumps of a function: 0 is nothing, 1 and 2 one way, 3 both."""
    return [bits for place, bits in observed.seen() if place.function == function and place.condition != ENTRY]


def entered(observed: Observed) -> dict[str, bool]:
    return {name: was for name, was in functions_in(observed.seen()).items() if name in ("never", "odd", "sum", "main")}


def test_nothing_is_seen_before_a_run(observed: Observed) -> None:
    assert not any(entered(observed).values()) and len(entered(observed)) == 4
    assert ways(observed, "odd") == [0] and ways(observed, "sum") == [0] and ways(observed, "never") == []


def test_entries_and_ways_are_those_of_the_runs(observed: Observed) -> None:
    # The program gives what it gives when nothing observes it: 4950 % 7 is 1, and 19900 % 7 is 6.
    assert subprocess.run([observed.starter]).returncode == 10 + 4950 % 7
    assert entered(observed) == {"never": False, "odd": True, "sum": True, "main": True}
    first = ways(observed, "odd")
    assert first in ([1], [2]) and ways(observed, "sum") == [3] and ways(observed, "main") in ([1], [2])
    assert subprocess.run([observed.starter, "x"]).returncode == 19900 % 7
    assert ways(observed, "odd") == [3] and ways(observed, "main") in ([1], [2])
    assert subprocess.run([observed.starter, *"abcdefghi"]).returncode == 10
    assert entered(observed)["never"] and ways(observed, "main") == [3]


def test_jumps_are_found_with_their_conditions(observed: Observed) -> None:
    places = [place for place in places_of(str(pathlib.Path(observed.starter).parent / "program")) if place.function == "sum"]
    assert [place.condition == ENTRY for place in places] == [True, False]
    assert places[0].at < places[1].at and places[1].length in (2, 6)


def test_only_places_in_some_functions_are_observed(observed: Observed, tmp_path: pathlib.Path) -> None:
    some = Observed(str(tmp_path / "program"), str(tmp_path), lambda function: function in ("odd", "sum"))
    assert subprocess.run([some.starter]).returncode == 10 + 4950 % 7
    assert functions_in(some.seen()) == {"odd": True, "sum": True} and sorted(branches_in(some.seen())) == [("odd", 0), ("sum", 0)]


def test_a_way_to_where_nothing_leads_makes_no_branch(observed: Observed) -> None:
    assert subprocess.run([observed.starter]).returncode == 10 + 4950 % 7
    assert functions_in(observed.seen())["sure"] and ways(observed, "sure") == []


def test_branches_of_a_generic_function_count_once() -> None:
    def jump(function: str, at: int, bits: int) -> tuple[Place, int]:
        return Place(function, at, at + 9, 2, 4, 0x74), bits

    same = [jump("tilt_a::f::<i8>", 1, 1), jump("tilt_a::f::<i8>", 5, 1), jump("tilt_a::f::<i64>", 11, 2), jump("tilt_a::f::<i64>", 15, 0)]
    assert branches_in(same) == {("tilt_a::f", 0): 3, ("tilt_a::f", 1): 1}
    apart = [*same, jump("tilt_a::f::<i64>", 19, 2)]
    assert sorted(branches_in(apart).values()) == [0, 1, 1, 2, 2] and len({name for name, _ in branches_in(apart)}) == 2


def test_functions_of_the_crates_count_and_not_what_the_compiler_writes() -> None:
    assert is_ours("tilt_base::number::read_number") and is_ours("tilt_app::command::tilt::<#3e0491d12895cc8a>") and is_ours("tilt::main")
    assert not is_ours("std_alloc::vec::Vec::push::<i8>") and not is_ours("tilt::main+start") and not is_ours("main")
    assert not is_ours("tilt_parts::tilt_parts++part++Part+Destruct::drop") and not is_ours("tilt::Destruct++none::drop::<i8>")
