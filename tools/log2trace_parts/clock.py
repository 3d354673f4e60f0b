"""Dates with a time of day, as ISO 8601 writes them, in seconds since 1970."""

import datetime
import functools
import re
from typing import Callable, Dict, List, Optional, Sequence, Tuple

from .texts import Refused, shown

MOMENT = re.compile(
    r"([0-9]{4}-[0-9]{2}-[0-9]{2})[Tt ]([0-9]{2}:[0-9]{2})(?::([0-9]{2})(?:[.,]([0-9]{1,80}))?)? ?([Zz]|[+-][0-9]{2}(?::?[0-9]{2})?)?"
)
# The minutes of a day, and the seconds of a minute.
MINUTES = {f"{minute // 60:02}:{minute % 60:02}": minute * 60 for minute in range(24 * 60)}
SECONDS = {f"{second:02}": second for second in range(60)}
# A date of which all that is before the minutes has 14 characters, and what stands behind the seconds.
TO_THE_HOUR, AFTER_SECONDS = 14, 19
LONGEST_FRACTION = 18  # digits
BEHIND = re.compile(r"[0-9]{2}:[0-9]{2}(?:([.,])([0-9]{1,80}))?(.*)")
OFFSET = re.compile(r"([+-])([01][0-9]|2[0-3])(?::?([0-5][0-9]))?")
NEWEST = 1024  # seconds of the log that are kept, since lines of one second come together
MOST_HOURS = 8192  # of the log that are kept; it is read in pieces that have fewer lines
EPOCH = datetime.datetime(1970, 1, 1)
SECOND = datetime.timedelta(seconds=1)

# What the clocks of a zone are ahead of UTC at a time of these clocks.
Zone = Callable[[datetime.datetime], datetime.timedelta]


class Fixed:
    """The zone of clocks that are never set."""

    def __init__(self, ahead: datetime.timedelta):
        self.ahead = ahead

    def __call__(self, _moment: datetime.datetime) -> datetime.timedelta:
        return self.ahead


def fixed(text: str) -> Optional[Fixed]:
    """The zone of a text as `Z` or `+01:00`; None where it is none."""
    match = OFFSET.fullmatch(text)
    if match is None and text not in ("Z", "z", "UTC"):
        return None
    sign, hours, minutes = match.groups() if match else ("+", "0", None)
    ahead = datetime.timedelta(hours=int(hours), minutes=int(minutes or 0))
    return Fixed(-ahead if sign == "-" else ahead)


def zone_of(text: str) -> Optional[Zone]:
    """The zone that a word of the command line names; None where there is none."""
    if text == "local":
        return lambda moment: ahead_of_utc(moment.astimezone())
    zone: Optional[Zone] = fixed(text)
    if zone is None:
        import zoneinfo  # which takes long to load, for a few words

        try:
            rules = zoneinfo.ZoneInfo(text)
        except (KeyError, ValueError, OSError):
            return None
        return lambda moment: ahead_of_utc(moment.replace(tzinfo=rules))
    return zone


def ahead_of_utc(moment: datetime.datetime) -> datetime.timedelta:
    ahead = moment.utcoffset()
    assert ahead is not None, "it has a zone"
    return ahead


class IntoHour(Dict[str, int]):
    """The seconds from the beginning of an hour to minutes and seconds, as 59:30."""

    def __missing__(self, text: str) -> int:
        minute, colon, second = text.partition(":")
        if colon != ":":
            raise KeyError(text)
        self[text] = into = 60 * SECONDS[minute] + SECONDS[second]
        return into


class Alike:
    """Dates that look like the one before: as long, with as long a fraction, and with the same zone."""

    def __init__(self) -> None:
        self.hours: Dict[str, int] = {}  # when hours have begun, by the text before the minutes
        self.into_hour = IntoHour()
        self.looks = (0, 0, "", "")  # the length, where the fraction ends, the point before it if there is one, and the zone

    def learn(self, text: str, begun: int) -> None:
        """Takes a date whose hour has begun then, and whose seconds follow one another."""
        behind = BEHIND.fullmatch(text, TO_THE_HOUR)
        if behind is None or len(behind[2] or "") > LONGEST_FRACTION:
            return
        looks = len(text), behind.start(3), behind[1] or "", behind[3]
        if looks != self.looks or len(self.hours) >= MOST_HOURS:
            self.hours.clear()
            self.looks = looks
        self.hours[text[:TO_THE_HOUR]] = begun

    def all_look_so(self, texts: Sequence[str]) -> bool:
        length, end, point, zone = self.looks
        if set(map(len, texts)) != {length}:
            return False
        if point:
            return {text[AFTER_SECONDS] + text[end:] for text in texts} == {point + zone}
        return {text[AFTER_SECONDS:] for text in texts} == {zone}

    def seconds(self, texts: Sequence[str]) -> List[int]:
        """The whole seconds since 1970 of dates that look so. A KeyError says that an hour is not known, or that the text is no date."""
        hours, into_hour = self.hours, self.into_hour
        return [hours[text[:TO_THE_HOUR]] + into_hour[text[TO_THE_HOUR:AFTER_SECONDS]] for text in texts]


class Clock:
    """Reads dates; those without a zone are of the one that --zone names."""

    def __init__(self, zone: Optional[Zone]):
        self.zone = zone
        self.days: Dict[Tuple[str, Optional[str]], int] = {}  # when days of zones have begun, as new_day says
        self.hours: Dict[Tuple[str, str, Optional[str]], int] = {}  # and by the clocks of an hour, as new_hour says
        self.alike = Alike()
        self.whole_seconds = functools.lru_cache(NEWEST)(self.new_whole_seconds)

    def moment(self, text: str) -> Optional[Tuple[int, str]]:
        """The whole seconds since 1970, and the digits of the fraction; None where the text is no date."""
        match = MOMENT.fullmatch(text)
        if match is None:
            return None
        day, minute, second, fraction, zone = match.groups()
        begun = self.days.get((day, zone))
        if begun is None:
            begun = self.new_day(day, zone)
        if begun < 0:
            begun = self.hours.get((day, minute[:2], zone), 0)
            if begun == 0:
                begun = self.new_hour(day, minute[:2], zone)
        into, more = MINUTES.get(minute), SECONDS.get(second or "00")
        if begun < 0 or into is None or more is None:
            return self.whole_seconds(f"{day} {minute}:{second or '00'}", zone), fraction or ""
        self.alike.learn(text, begun + into // 3600 * 3600)
        return begun + into + more, fraction or ""

    def numbers(self, texts: Sequence[str]) -> Optional[Tuple[List[int], int]]:
        """Dates that look like the one before, as numbers without their point, and how many digits each has after it; None where one looks otherwise."""
        if not self.alike.all_look_so(texts):
            return None
        try:
            seconds = self.alike.seconds(texts)
        except KeyError:
            seconds = self.seconds_of_new_hours(texts)
        _, end, point, _ = self.alike.looks
        if not point or not seconds:
            return (seconds, 0) if seconds else None
        fractions = [text[AFTER_SECONDS + 1 : end] for text in texts]
        digits = "".join(fractions)
        if not (digits.isdigit() and digits.isascii()):
            return None
        places = end - AFTER_SECONDS - 1
        unit = 10**places
        return [second * unit + int(fraction) for second, fraction in zip(seconds, fractions)], places

    def seconds_of_new_hours(self, texts: Sequence[str]) -> List[int]:
        """The same after a look at the hours that are not known yet; none where this does not help."""
        looks, hours = self.alike.looks, self.alike.hours
        try:
            for text in texts:
                if text[:TO_THE_HOUR] not in hours:
                    self.moment(text)
            return self.alike.seconds(texts) if self.alike.looks == looks else []
        except (KeyError, Refused):
            return []

    def new_hour(self, day: str, hour: str, zone_text: Optional[str]) -> int:
        """The seconds from 1970 to a day by the clocks of one of its hours, within which they are not set; a number below 0 where they may be."""
        zone = self.zone if zone_text is None else fixed(zone_text)
        begun = -1
        if zone is not None:
            try:
                first = datetime.datetime.fromisoformat(f"{day} {hour}:00:00")
                moments = [first, first + 3599 * SECOND]
                ahead = {zone(moment.replace(fold=fold)) for moment in moments for fold in (0, 1)}
                if len(ahead) == 1:
                    begun = (datetime.datetime.fromisoformat(day) - EPOCH - ahead.pop()) // SECOND
            except (ValueError, OverflowError, OSError):
                pass
        if len(self.hours) >= NEWEST:
            self.hours.clear()
        self.hours[day, hour, zone_text] = begun = begun if begun > 0 else -1
        return begun

    def new_day(self, day: str, zone_text: Optional[str]) -> int:
        """The seconds from 1970 to a day of a zone whose clocks are never set; a number below 0 where each moment has to be looked at."""
        zone = self.zone if zone_text is None else fixed(zone_text)
        begun = -1
        if isinstance(zone, Fixed):
            try:
                begun = (datetime.datetime.fromisoformat(day) - EPOCH - zone.ahead) // SECOND
            except ValueError:
                pass
        if len(self.days) >= NEWEST:
            self.days.clear()
        self.days[day, zone_text] = begun
        return begun

    def new_whole_seconds(self, text: str, zone_text: Optional[str]) -> int:
        zone = self.zone if zone_text is None else fixed(zone_text)
        if zone is None:
            raise Refused(f"no zone: {text} (see --zone)" if zone_text is None else f"no zone: {zone_text}")
        try:
            moment = datetime.datetime.fromisoformat(text)
            ahead, again = zone(moment), zone(moment.replace(fold=1))
        except (ValueError, OverflowError, OSError):
            raise Refused(f"no time: {shown(text)}") from None
        if ahead != again:
            raise Refused(f"{text} comes twice, or never, where clocks are set (see --zone)")
        seconds = (moment - EPOCH - ahead) // SECOND
        if seconds < 0:
            raise Refused(f"{text} is before 1970")
        return seconds
