"""Moments as one says them, and as one reads them. All times are nanoseconds since 1970, in UTC."""
import re
from datetime import datetime, timedelta, timezone
from plan.faults import USAGE, Refusal

MICROSECOND, MILLISECOND, SECOND, MINUTE, DAY = 10**3, 10**6, 10**9, 60 * 10**9, 86_400 * 10**9
WAIT = re.compile(r"\+(?:(\d+)h)?(?:(\d+)m(?!s))?(?:(\d+)(?:\.(\d{1,9}))?(?:s|$))?(?:(\d+)ms)?")
CLOCK = re.compile(r"(\d\d):(\d\d)(?::(\d\d)(?:\.(\d{1,9}))?)?(Z|[+-]\d\d:\d\d)?")
DATE = re.compile(r"(\d{4}-\d\d-\d\d)[T ](\S+)")
FORMS = "HH:MM:SS, HH:MM:SS+02:00, YYYY-MM-DDTHH:MM:SSZ or, from the capture's beginning on, +5m"


def parts_of(digits):
    """Digits after the point of a second, in nanoseconds."""
    return int((digits or "").ljust(9, "0"))


def offset_of(text):
    """An offset from UTC in nanoseconds."""
    if text in (None, "Z"):
        return 0
    hours, minutes = map(int, text[1:].split(":"))
    return (-1 if text[0] == "-" else 1) * (hours * 60 + minutes) * 60 * SECOND


def day_of(time):
    """When the day of this time began."""
    return time // DAY * DAY


def clock(text, day):
    """The time of a clock on this day, and None if it is no clock's."""
    read = CLOCK.fullmatch(text)
    if not read or int(read[1]) > 23 or int(read[2]) > 59 or int(read[3] or 0) > 59:
        return None
    seconds = (int(read[1]) * 60 + int(read[2])) * 60 + int(read[3] or 0)
    return day + seconds * SECOND + parts_of(read[4]) - offset_of(read[5])


def after(text):
    """A wait like `+5m` or `+1h30m`, and None if it is none."""
    read = WAIT.fullmatch(text)
    if not read or text == "+":
        return None
    hours, minutes, seconds, parts, thousandths = read.groups()
    whole = int(hours or 0) * 3600 + int(minutes or 0) * 60 + int(seconds or 0)
    return whole * SECOND + parts_of(parts) + int(thousandths or 0) * MILLISECOND


def on_date(text):
    """The time of a date and a clock, and None if the text is no such."""
    read = DATE.fullmatch(text)
    try:
        day = read and datetime.fromisoformat(read[1]).replace(tzinfo=timezone.utc)
    except ValueError:
        return None
    return day and clock(read[2], int(day.timestamp()) * SECOND)


def moment_of(text, begin, end):
    """The time that is said. A clock without a date is that of the captures' day, or of the next day if they begin after it."""
    if text.startswith("+"):
        wait = after(text)
        time = None if wait is None else begin + wait
    else:
        time = on_date(text)
        if time is None:
            days = [clock(text, day_of(begin) + days * DAY) for days in (0, -1, 1)]
            time = next((it for it in days if it is not None and begin <= it <= end), days[0])
    if time is None:
        raise Refusal(USAGE, f"{text!r} isn't a moment: say {FORMS}")
    return within(time, text, begin, end)


def within(time, text, begin, end):
    """The time, unless it isn't within the captures."""
    if not begin <= time <= end:
        raise Refusal(USAGE, f"{text} isn't within the captures, which last from {utc(begin)} to {utc(end)} UTC")
    return time


def of_datetime(value):
    """The time of a date and time of TOML, in UTC where it has no offset."""
    aware = value if value.tzinfo else value.replace(tzinfo=timezone.utc)
    since = aware - datetime(1970, 1, 1, tzinfo=timezone.utc)
    return (since // timedelta(microseconds=1)) * MICROSECOND


# AS TEXT


def utc(time, digits=0):
    """A date and a clock, like `2026-11-27 21:02:11`."""
    return f"{date(time)} {clock_text(time, digits)}"


def date(time):
    return datetime.fromtimestamp(time // SECOND, timezone.utc).strftime("%Y-%m-%d")


def clock_text(time, digits=0):
    """A clock, like `21:02:11.331`; the last digit is rounded down."""
    text = datetime.fromtimestamp(time // SECOND, timezone.utc).strftime("%H:%M:%S")
    return text + (f".{time % SECOND:09d}"[: digits + 1] if digits else "")


def seconds(text):
    """The nanoseconds of a number of seconds with nine digits, as the programs write it."""
    return int(text.replace(".", ""))


def seconds_text(wait):
    """A wait in seconds, to milliseconds, rounded up."""
    thousandths = -(-wait // MILLISECOND)
    return f"{thousandths // 1000}.{thousandths % 1000:03d}".rstrip("0").rstrip(".") + " s"
