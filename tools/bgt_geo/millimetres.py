"""Whole millimetres: from decimal text and from doubles, and back, never rounded in silence."""
import math
import re

# The register's bounds of x and of y, in millimetres.
BOUNDS = ((-100_000_000, 400_000_000), (200_000_000, 800_000_000))

_FORM = re.compile(r"(-?)([0-9]{1,9})(?:\.([0-9]{1,3}))?\Z", re.ASCII)


def of_text(text: str) -> int:
    """The millimetres of a coordinate as bgt reads it; a ValueError where the text has another form."""
    form = _FORM.match(text)
    if form is None:
        raise ValueError(f"{text!r} is no coordinate")
    sign, whole, fraction = form.groups()
    value = int(whole + (fraction or "").ljust(3, "0"))
    return -value if sign else value


def of_double(value: float) -> int | None:
    """The millimetres whose decimal text reads as just this double, or None where there are none.

    A GIS keeps metres as doubles. The double nearest to a text of three decimals gives that text back, since doubles of this size
    lie some 10^-10 m apart. Every other double is not on the millimetre.
    """
    if not math.isfinite(value):
        return None
    number = round(value * 1000)
    return number if number / 1000 == value else None


def nearest(value: float) -> int:
    """The nearest millimetre. Callers say that they rounded, and how far."""
    return round(value * 1000)


def metres(number: int) -> float:
    """The double that reads as these millimetres."""
    return number / 1000


def text_of(number: int) -> str:
    """The printed form: metres with three decimals."""
    whole, fraction = divmod(abs(number), 1000)
    return f"{'-' if number < 0 else ''}{whole}.{fraction:03d}"


def is_within(point: tuple[int, int]) -> bool:
    """Whether the register takes a corner at this point."""
    return all(low <= value <= high for value, (low, high) in zip(point, BOUNDS))


def point_text(point: tuple[int, int]) -> str:
    """A point as a reply prints it."""
    return f"{text_of(point[0])} {text_of(point[1])}"
