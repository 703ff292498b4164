"""The text of rows `start,end,value`, written many rows at a time by numpy: the bytes are those of `convert.row_text`.

A number is written as groups of digits, four to a group, of which the last has three digits and the sign after the number. A group is a
32-bit integer, looked up in a table; leading zeros are zero bytes there, and all zero bytes are dropped at the end."""
from __future__ import annotations

import functools
from typing import Any

COMMA, LINE_END, MINUS = b",", b"\n", b"-"


def rows_text(starts: Any, ends: Any, values: Any, known: Any = None) -> bytes:
    """The lines of rows, of arrays of 64-bit integers of one length; `known` is False where a row has no value, or None if all have one.

    >>> rows_text(numpy.array([0, 5]), numpy.array([5, 7]), numpy.array([-20, 0]), numpy.array([True, False]))
    b'0,5,-20\\n5,7,\\n'
    """
    import numpy

    if len(starts) and (ends[:-1] == starts[1:]).all():
        # Where a row ends the next one starts.
        edges = groups_of(numpy.append(starts, ends[-1]), COMMA)
        columns = [group[:-1] for group in edges] + [group[1:] for group in edges]
    else:
        columns = groups_of(starts, COMMA) + groups_of(ends, COMMA)
    columns += groups_of(values, LINE_END, known)
    table = numpy.empty((len(starts), len(columns)), "<u4")
    for at, column in enumerate(columns):
        table[:, at] = column
    text: bytes = table.tobytes()
    return text.translate(None, b"\0")


def groups_of(numbers: Any, sign: bytes, known: Any = None) -> list[Any]:
    """The groups of the numbers with the sign after each, from the highest group on."""
    import numpy

    if not len(numbers):
        return []
    least, greatest = int(numbers.min()), int(numbers.max())
    groups = groups_of_sizes(numbers.view("u8") if least >= 0 else numpy.abs(numbers).view("u8"), max(greatest, -least), sign)
    if known is not None:
        groups = [numpy.where(known, group, 0 if at else word_of(sign)) for at, group in enumerate(groups)]
    if least < 0:
        minus = numpy.where(numbers < 0, word_of(MINUS), 0)
        groups.append(minus if known is None else numpy.where(known, minus, 0))
    return groups[::-1]


def groups_of_sizes(rest: Any, most: int, sign: bytes) -> list[Any]:
    """The groups of numbers without a sign, of which none is above `most`, from the lowest group on."""
    found: list[Any] = []
    (zeros, blank), size = tables(sign, 3), 1000
    while True:
        if most < 2**32 and rest.dtype.itemsize > 4:
            rest = rest.astype("u4")
        if most < size:
            return [*found, blank[rest]]
        above = rest // size
        # After other digits a group has leading zeros.
        found.append(zeros[rest - (above - (above == 0)) * rest.dtype.type(size)])
        rest, most = above, most // size
        (zeros, blank), size = tables(b"", 4), 10000


def word_of(sign: bytes) -> int:
    """The group that has a sign alone, as its last byte."""
    return int.from_bytes(b"\0\0\0" + sign, "little")


@functools.cache
def tables(sign: bytes, digits: int) -> tuple[Any, Any]:
    """The groups of so many digits and the sign: at first with leading zeros, and then, at the number plus their count, without; and the
    latter alone. Without a sign the 0 is no digit either."""
    import numpy

    full = [b"%0*d" % (digits, number) + sign for number in range(10**digits)]
    blank = [(b"%d" % number).rjust(digits, b"\0") + sign for number in range(10**digits)]
    if not sign:
        blank[0] = b"\0" * digits
    return numpy.frombuffer(b"".join(full + blank), "<u4"), numpy.frombuffer(b"".join(blank), "<u4")
