"""Decimals as whole numbers: a value is stored as the value times a scale. Nothing is rounded: digits that the scale loses are refused."""
from __future__ import annotations

import contextlib
import decimal
import functools
import re
from typing import Callable

from .clock import BLANKS, DECIMAL, EXACT

LEAST, GREATEST = -(2**63), 2**63 - 1
# A 64-bit value has at most 19 digits: a scale that is found, and not given, is a power of ten of no more than these.
MOST_DIGITS = 19
# The numbers that can be scales: exact arithmetic (EXACT) has room for a value of 19 digits besides.
SCALE = re.compile(r"0*([1-9][0-9]{0,59})")


def scale_of(text: str) -> int:
    """The scale that a text gives: a whole number above 0, of at most 60 digits. Anything else is a ValueError."""
    found = SCALE.fullmatch(text)
    if found is None:
        raise ValueError("a whole number above 0 was expected")
    return int(found[1])


def digits_after_point(text: str) -> int:
    """How many digits a decimal needs after its point; 0 for a text that is no number. More than 19 are a ValueError."""
    plain, count = text.strip(BLANKS), 0
    if DECIMAL.fullmatch(plain) is not None and "e" not in plain and "E" not in plain:
        count = len(plain.partition(".")[2].rstrip("0"))
    elif DECIMAL.fullmatch(plain) is not None:
        with contextlib.suppress(decimal.DecimalException):
            _, digits, exponent = decimal.Decimal(plain).as_tuple()
            shown = "".join(map(str, digits))
            count = max(0, -int(exponent) - (len(shown) - len(shown.rstrip("0")))) if shown.strip("0") else 0
    if count > MOST_DIGITS:
        cure = "round it, or name a --scale"
        raise ValueError(f"{text!r} needs {count} digits after its point, and a 64-bit value has {MOST_DIGITS}: {cure}")
    return count


class Scale:
    """Whole numbers of decimals, by one scale. A decimal is written in ASCII, with or without a sign, a point and an exponent, and can have
    blanks around it. What can't be taken is a ValueError that says what was expected."""

    def __init__(self, scale: int) -> None:
        self.scale = scale
        self.factor = decimal.Decimal(scale)
        self.whole: Callable[[str], int] = functools.lru_cache(50000)(self.exact)

    def exact(self, text: str) -> int:
        if DECIMAL.fullmatch(text.strip(BLANKS)) is None:
            raise ValueError(f"{text!r} is no number; if it means that there is no value, name it by --null")
        try:
            scaled = EXACT.multiply(decimal.Decimal(text.strip(BLANKS)), self.factor)
        except decimal.DecimalException as error:
            # It has too many digits after its point, or before it.
            digits_after_point(text)
            raise ValueError(f"{text} times {self.scale} isn't within 64 bits: a smaller --scale") from error
        if scaled != scaled.to_integral_value():
            needed = 10 ** digits_after_point(text)
            raise ValueError(f"{text} times {self.scale} isn't whole, and digits would be lost: --scale {needed} or --scale auto")
        if not LEAST <= scaled <= GREATEST:
            raise ValueError(f"{text} times {self.scale} isn't within 64 bits: a smaller --scale")
        return int(scaled)


def decimal_text(value: int, scale: int) -> str:
    """A whole number divided by its scale: exact where the scale has no factors but 2 and 5, else rounded to 20 digits."""
    if scale == 1:
        return str(value)
    digits = len(str(scale)) - 1
    if scale == 10**digits:
        shown = str(abs(value)).rjust(digits + 1, "0")
        return f"{'-' if value < 0 else ''}{shown[:-digits]}.{shown[-digits:]}"
    twos, fives, others = factors(scale)
    # So many digits after the point have an end, and 20 are shown of those that have none.
    digits = max(twos, fives) if others == 1 else 20
    scaled, rest = divmod(abs(value) * 10**digits, scale)
    # Half to even; where it is exact there is no rest.
    scaled += 2 * rest > scale or 2 * rest == scale and scaled % 2
    whole, part = divmod(scaled, 10**digits)
    shown = str(part).rjust(digits, "0").rstrip("0")
    return f"{'-' if value < 0 else ''}{whole}{'.' + shown if shown else ''}"


@functools.lru_cache(maxsize=64)
def factors(number: int) -> tuple[int, int, int]:
    """How many factors 2 and 5 a number has, and what is left without them."""
    counts = []
    for factor in (2, 5):
        count = 0
        while number % factor == 0:
            number, count = number // factor, count + 1
        counts.append(count)
    return counts[0], counts[1], number
