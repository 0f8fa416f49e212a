"""The fields of a message that are no coordinates: which texts they may have, and moments in their printed form."""
import re
from datetime import datetime, timedelta

HOLDER = re.compile(r"[A-Z][0-9]{4}\Z", re.ASCII)
IDENTIFICATION = re.compile(r"[A-Z][0-9]{4}\.[A-Za-z0-9]{32}\Z", re.ASCII)
CODE = re.compile(r"[A-Za-z0-9_-]{1,64}\Z", re.ASCII)
LEVEL = re.compile(r"-?[0-9]{1,3}\Z", re.ASCII)
_DAY = re.compile(r"([0-9]{4})-([0-9]{2})-([0-9]{2})\Z", re.ASCII)
_MOMENT = re.compile(r"(.{10})T([0-9]{2}):([0-9]{2}):([0-9]{2})(?:\.([0-9]{1,3}))?\Z", re.ASCII)
# A moment at which what holds now holds.
LAST = "9999-12-31T23:59:59.999"


def is_day(text: str) -> bool:
    """Whether the civil calendar has this day. The year 0000 is a leap year, which Python's own dates do not have."""
    form = _DAY.match(text)
    if form is None:
        return False
    year, month, day = (int(it) for it in form.groups())
    leap = year % 4 == 0 and (year % 100 != 0 or year % 400 == 0)
    lengths = (31, 29 if leap else 28, 31, 30, 31, 30, 31, 31, 30, 31, 30, 31)
    return 1 <= month <= 12 and 1 <= day <= lengths[month - 1]


def is_moment(text: str) -> bool:
    """Whether the text is a moment as bgt reads it."""
    form = _MOMENT.match(text)
    return form is not None and is_day(form[1]) and int(form[2]) < 24 and int(form[3]) < 60 and int(form[4]) < 60


def printed_moment(text: str) -> str:
    """The moment without a fraction where that is 0, else with three digits. So printed, moments are ordered as their texts are."""
    whole, _, fraction = text.partition(".")
    fraction = fraction.ljust(3, "0")
    return whole if fraction in ("", "000") else f"{whole}.{fraction}"


def just_before(moment: str) -> str:
    """The moment one millisecond earlier: all that an earlier message did holds then, and nothing of this moment."""
    whole, _, fraction = moment.partition(".")
    earlier = datetime.fromisoformat(whole) + timedelta(milliseconds=int(fraction.ljust(3, "0")) - 1)
    return printed_moment(earlier.isoformat(timespec="milliseconds"))


def day_of(moment: str) -> str:
    """The day of a moment."""
    return moment[:10]
