"""Dates of HTTP (RFC 9110 section 5.6.7)."""
import calendar
import re

_MONTHS = [b"Jan", b"Feb", b"Mar", b"Apr", b"May", b"Jun", b"Jul", b"Aug", b"Sep", b"Oct", b"Nov", b"Dec"]
_DAYS = [b"Mon", b"Tue", b"Wed", b"Thu", b"Fri", b"Sat", b"Sun"]
_LONG_DAYS = [b"Monday", b"Tuesday", b"Wednesday", b"Thursday", b"Friday", b"Saturday", b"Sunday"]

_TIME = rb"(?P<hour>[0-9]{2}):(?P<minute>[0-9]{2}):(?P<second>[0-9]{2})"
_FORMS = [
    (re.compile(rb"(?P<name>[A-Z][a-z]{2}), (?P<day>[0-9]{2}) (?P<month>[A-Z][a-z]{2}) (?P<year>[0-9]{4}) " + _TIME + rb" GMT\Z"), _DAYS),
    (re.compile(rb"(?P<name>[A-Z][a-z]+), (?P<day>[0-9]{2})-(?P<month>[A-Z][a-z]{2})-(?P<year>[0-9]{2}) " + _TIME + rb" GMT\Z"), _LONG_DAYS),
    (re.compile(rb"(?P<name>[A-Z][a-z]{2}) (?P<month>[A-Z][a-z]{2}) (?P<day>[ 0-9][0-9]) " + _TIME + rb" (?P<year>[0-9]{4})\Z"), _DAYS),
]


def _year(text: bytes) -> int:
    """A year of two digits is one of 1970 to 2069."""
    year = int(text)
    return year if len(text) == 4 else year + (2000 if year < 70 else 1900)


def _moment(found: re.Match[bytes], days: list[bytes]) -> int | None:
    if found["name"] not in days or found["month"] not in _MONTHS:
        return None
    year, month, day = _year(found["year"]), _MONTHS.index(found["month"]) + 1, int(found["day"])
    hour, minute, second = int(found["hour"]), int(found["minute"]), int(found["second"])
    if year < 1970 or not 1 <= day <= calendar.monthrange(year, month)[1] or hour > 23 or minute > 59 or second > 59:
        return None
    if calendar.weekday(year, month, day) != days.index(found["name"]):
        return None
    return calendar.timegm((year, month, day, hour, minute, second))


def date_of(text: bytes) -> int | None:
    """The moment that a date tells, in seconds since 1970; None where it can't be read."""
    for form, days in _FORMS:
        found = form.match(text)
        if found:
            return _moment(found, days)
    return None
