"""Clock times: ISO 8601 in and out."""

from datetime import datetime, timedelta, timezone

from .saying import Trouble


def clock_of(text):
    """A time of the clock; without a zone it is UTC."""
    if isinstance(text, datetime):
        found = text
    else:
        try:
            found = datetime.fromisoformat(str(text))
        except ValueError:
            raise Trouble(f"'{text}' is no time", "write it as 2026-12-01T06:00:00Z") from None
    return found if found.tzinfo else found.replace(tzinfo=timezone.utc)


def text_of(clock):
    """To the nearest millisecond, in the zone that the time has."""
    return (clock + timedelta(microseconds=500)).isoformat(timespec="milliseconds").replace("+00:00", "Z")


def after(clock, seconds):
    return clock + timedelta(seconds=seconds)


def of_unix(seconds):
    return datetime.fromtimestamp(seconds, timezone.utc)
