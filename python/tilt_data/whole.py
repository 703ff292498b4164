"""The values of a Series as whole numbers, by numpy if that is exact, and else one by one.

A float means the shortest decimal text that its type reads back. If a whole number of at most 15 digits, divided by a power of ten, gives
the float again, that decimal is its text: no two decimals of at most 15 digits are read as the same 64-bit float (6 digits for 32 bits).
Floats are divided with correct rounding, so `whole / scale == value` proves it if the scale is a float exactly. All other values are taken
by their text."""
from __future__ import annotations

import decimal
import re
from typing import TYPE_CHECKING, Any

from .errors import Refused
from .scales import GREATEST, MOST_DIGITS, Scale, digits_after_point, factors

if TYPE_CHECKING:
    import pandas

# How many values are taken at a time, so that what is made of them is in the processor's cache.
AT_ONCE = 1 << 15
PLAIN = re.compile(r"[Uu]?[Ii]nt(8|16|32|64)|[Ff]loat(32|64)")
# By the bytes of a float: the largest whole number of which the proof holds, and the largest powers of 2 and 5 in the scale.
PROVED = {8: 10**15, 4: 10**6}
MOST_TWOS = {8: 200, 4: 60}
MOST_FIVES = {8: 22, 4: 10}


def digits_in(name: str, series: pandas.Series) -> int:
    """The most digits that a value of a Series has after its point. If a value needs more than 19, the input of this name is rejected.

    >>> digits_in("x", pandas.Series([1, 2.50, 0.125]))
    3
    """
    try:
        plain = plain_values(series)
        if plain is None:
            return max((digits_after_point(text) for text in texts_of(series) if text is not None), default=0)
        values, known = plain
        most = 0
        for at in range(0, len(values), AT_ONCE) if values.dtype.kind == "f" else ():
            some = values[at : at + AT_ONCE]
            most = digits_of_floats(some if known is None else some[known[at : at + AT_ONCE]], most)
        return most
    except ValueError as error:
        raise Refused(f"the input {name}: {in_python(str(error))}") from error


def whole_numbers(name: str, series: pandas.Series, scale: int) -> tuple[Any, Any]:
    """The values of a Series times the scale, as an array of 64-bit integers; and an array of where there is a value, or None if there is
    one everywhere. If a value loses digits or isn't within 64 bits, the input of this name is rejected.

    >>> whole_numbers("x", pandas.Series([2.5, float("nan")]), 10)
    (array([25,  0]), array([ True, False]))
    """
    import numpy

    try:
        plain = plain_values(series)
        if plain is None:
            texts, read = texts_of(series), Scale(scale)
            known = numpy.fromiter((text is not None for text in texts), bool, len(texts))
            numbers = numpy.fromiter((0 if text is None else read.whole(text) for text in texts), "i8", len(texts))
        else:
            numbers, known = scaled(*plain, scale), plain[1]
    except ValueError as error:
        raise Refused(f"the input {name}: {in_python(str(error))}") from error
    return numbers, None if known is None or known.all() else known


def plain_values(series: pandas.Series) -> tuple[Any, Any] | None:
    """The array of a Series of numbers of 8 to 64 bits, and an array of where there is a value, or None if there is one everywhere. None
    for a Series of another type."""
    import numpy

    kind = str(series.dtype)
    if not PLAIN.fullmatch(kind):
        return None
    known: Any = None
    if kind[0].islower():
        values = series.to_numpy()
    else:
        values, known = series.to_numpy(dtype=kind.lower(), na_value=0), series.notna().to_numpy()
    if values.dtype.kind == "f":
        missing = numpy.isnan(values)
        if missing.any():
            known = ~missing if known is None else known & ~missing
    return values, known


def digits_of_floats(values: Any, most: int) -> int:
    """The most digits after the point of these floats, or `most` if that is more."""
    left = values[~proofs(values, most, most, 10**most)[0]]
    for digits in range(MOST_DIGITS + 1):
        if not len(left):
            break
        proved = proofs(left, digits, digits, 10**digits)[0]
        most = max(most, digits) if proved.any() else most
        left = left[~proved]
    return max([most, *(digits_after_point(str(text_of(value))) for value in left)])


def proofs(values: Any, twos: int, fives: int, scale: int) -> tuple[Any, Any]:
    """Whether it is proved that floats times the scale, which has so many factors 2 and 5 and no others, are whole; and what they are."""
    import numpy

    size = values.dtype.itemsize
    if twos > MOST_TWOS[size] or fives > MOST_FIVES[size]:
        return numpy.zeros(len(values), bool), values
    factor = values.dtype.type(scale)
    with numpy.errstate(over="ignore", invalid="ignore"):
        whole = numpy.rint(values * factor)
        return (whole / factor == values) & (numpy.abs(whole) <= PROVED[size] // (10 ** max(twos, fives) // scale)), whole


def scaled(values: Any, known: Any, scale: int) -> Any:
    """The values times the scale, 0 if there is none. What isn't whole, or isn't within 64 bits, is a ValueError."""
    import numpy

    found = numpy.zeros(len(values), "i8")
    twos, fives, rest = factors(scale)
    read = Scale(scale)
    for at in range(0, len(values), AT_ONCE):
        some = values[at : at + AT_ONCE]
        if some.dtype.kind == "f":
            proved, whole = proofs(some, twos, fives, scale // rest)
            most = GREATEST // rest
            proved &= numpy.abs(whole) <= float(min(most, PROVED[8]))
            numbers = numpy.where(proved, whole, 0).astype("i8") * (rest if most else 1)
        else:
            most = GREATEST // scale
            proved = (some <= most) & (some >= -most)
            numbers = numpy.where(proved, some, 0).astype("i8") * (scale if most else 1)
        by_text = ~proved if known is None else ~proved & known[at : at + AT_ONCE]
        for place in numpy.flatnonzero(by_text):
            numbers[place] = read.whole(str(text_of(some[place])))
        found[at : at + AT_ONCE] = numbers if known is None else numpy.where(known[at : at + AT_ONCE], numbers, 0)
    return found


# By the text


def texts_of(series: pandas.Series) -> list[str | None]:
    # A Series gives its values of 32 bits as floats of 64, whose shortest text is another one.
    values = series.to_numpy() if str(series.dtype) in ("float16", "float32") else series
    return [text_of(value) for value in values]


def text_of(value: Any) -> str | None:
    """The decimal text of a value of pandas; None for a missing one."""
    import pandas

    if isinstance(value, decimal.Decimal):
        return None if value.is_nan() else str(value)
    # What NA is compared to is NA, which is neither true nor false.
    if value is None or value is pandas.NA or value != value:
        return None
    if isinstance(value, float):
        return repr(float(value))
    if type(value).__name__ in ("bool", "bool_"):
        raise ValueError(f"{value} is no number: astype(int) makes 1 and 0 of True and False")
    return str(value)


def in_python(text: str) -> str:
    """A message about a value, with the arguments of Python in place of options."""
    text = re.sub(r"--scale 1(0*)( or --scale auto)?", lambda found: f"scale=1{found[1]}, scale='auto', or round({len(found[1])})", text)
    text = re.sub("; (if|where) it means that there is no value, name it by --null", "; a missing value is NaN or None", text)
    return text.replace("a smaller --scale", "a smaller scale=, or round()").replace("--scale", "scale=")
