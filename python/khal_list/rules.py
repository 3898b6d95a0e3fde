"""Recurrence rules and sets, in the manner of dateutil.rrule."""
from __future__ import annotations

import ctypes
import heapq
import itertools
from datetime import date, datetime, timedelta, timezone, tzinfo
from typing import Iterator

from . import _library
from ._library import NO_ZONE, RULES_END
from .zones import is_utc, zone_bytes

_DAY = 86_400
# The room of the first call and of each further one.
_ROOM, _MORE = 64, 1_024


class _Recurrences:
    """What rules and sets have in common. A class below gives `_since`, `_last` and `tzinfo`."""

    tzinfo: tzinfo | None

    def _since(self, moment: datetime | None) -> Iterator[datetime]:
        """The instances in order, from about a moment on, or all: none that is later than the moment is left out."""
        raise NotImplementedError

    def _last(self, moment: datetime, inc: bool) -> datetime | None:
        raise NotImplementedError

    def __iter__(self) -> Iterator[datetime]:
        return self._since(None)

    def __contains__(self, moment: datetime) -> bool:
        return self.after(moment, inc=True) == moment

    def __getitem__(self, place: int | slice) -> datetime | list[datetime]:
        if isinstance(place, slice):
            if any(end is not None and end < 0 for end in (place.start, place.stop, place.step)):
                return list(self)[place]
            return list(itertools.islice(self, place.start, place.stop, place.step))
        found = list(self)[place:][:1] if place < 0 else list(itertools.islice(self, place, place + 1))
        if not found:
            raise IndexError('recurrence index out of range')
        return found[0]

    def count(self) -> int:
        """How many instances there are before the year 9801."""
        return sum(1 for _ in self)

    def xafter(self, moment: datetime, count: int | None = None, inc: bool = False) -> Iterator[datetime]:
        """The instances after a moment, with `inc` also one at it, at most `count`."""
        later = itertools.dropwhile(lambda found: found < moment or found == moment and not inc, self._since(moment))
        return itertools.islice(later, count)

    def after(self, moment: datetime, inc: bool = False) -> datetime | None:
        """The first instance after a moment, with `inc` also one at it, or None."""
        return next(self.xafter(moment, 1, inc), None)

    def before(self, moment: datetime, inc: bool = False) -> datetime | None:
        """The last instance before a moment, with `inc` also one at it, or None."""
        return self._last(moment, inc)

    def between(self, after: datetime, before: datetime, inc: bool = False) -> list[datetime]:
        """The instances between two moments, with `inc` also those at them."""
        return list(itertools.takewhile(lambda found: found < before or found == before and inc, self.xafter(after, inc=inc)))


class rrule(_Recurrences):
    """The instances of a recurrence rule: the local times that an RRULE value keeps from a start on. The start is always one.

    `text` is the value, as `FREQ=WEEKLY;BYDAY=TU`, with or without `RRULE:`. `dtstart` is a datetime, whose microseconds are left off, or a
    date, which stands for its midnight in a rule of dates. Instances are datetimes with the tzinfo of `dtstart`, in the order of their local
    times; none is in the year 9801 or later.

    An UNTIL in UTC bounds instants: those of a zone of `zoneinfo`, of `Zone`, of UTC, or of any other tzinfo. Without a tzinfo it leaves
    none out. RuleError if the text is no rule, and ZoneError if the zone's bytes are none."""

    def __init__(self, text: str, dtstart: datetime | date):
        self.text = text[6:] if text[:6].upper() == 'RRULE:' else text
        self.dtstart = dtstart
        self._rule = self.text.encode()
        if isinstance(dtstart, datetime):
            self.tzinfo = dtstart.tzinfo
            self._first = dtstart.replace(microsecond=0)
            self._start = f'{dtstart:%Y%m%dT%H%M%S}'.rjust(15, '0').encode() + b'Z' * is_utc(self.tzinfo)
        else:
            self.tzinfo = None
            self._first = datetime(dtstart.year, dtstart.month, dtstart.day)
            self._start = f'{dtstart:%Y%m%d}'.rjust(8, '0').encode()
        until = _library.rule_until(self._rule, self._start)
        known = zone_bytes(self.tzinfo) if until is not None and not is_utc(self.tzinfo) else None
        self._zone = known or NO_ZONE
        # The last instant, where the library has no zone for it.
        self._until = None
        if until is not None and self.tzinfo is not None and known is None and not is_utc(self.tzinfo):
            self._until = datetime(1970, 1, 1, tzinfo=timezone.utc) + timedelta(0, until)
        self._times(0, 0, 1)

    def __repr__(self) -> str:
        return f'rrule({self.text!r}, {self.dtstart!r})'

    def _times(self, begin: int, end: int, room: int) -> list[int]:
        times = (ctypes.c_uint64 * room)()
        return times[:_library.rule_times(self._rule, self._start, self._zone, begin, end, times)]

    def _allows(self, found: datetime) -> bool:
        return self._until is None or found == self._first or found <= self._until

    def _within(self, begin: int, end: int) -> Iterator[datetime]:
        """The instances from one local on and before another."""
        low, room = datetime.min.replace(tzinfo=self.tzinfo), _ROOM
        stop = None if self._until is None else _library.number(self._until) + 2 * _DAY
        while True:
            times = self._times(begin, end, room)
            for value in times:
                found = low + timedelta(0, value - _library.YEAR_1)
                if stop is not None and stop < value and found != self._first:
                    return
                if self._allows(found):
                    yield found
            if len(times) < room:
                return
            begin, room = times[-1] + 1, _MORE

    def _place(self, moment: datetime) -> tuple[int, int]:
        """The local of a moment, and how far the order of instants may be from that of locals there."""
        if (moment.tzinfo is None) != (self.tzinfo is None):
            raise TypeError('can\'t compare offset-naive and offset-aware datetimes')
        if moment.tzinfo is self.tzinfo:
            return _library.number(moment), 0
        return _library.number(moment.replace(tzinfo=None) - moment.utcoffset()), 2 * _DAY

    def _since(self, moment: datetime | None) -> Iterator[datetime]:
        if moment is None:
            return self._within(0, RULES_END)
        place, slack = self._place(moment)
        return self._within(place - slack, RULES_END)

    def _last(self, moment: datetime, inc: bool) -> datetime | None:
        place, slack = self._place(moment)
        first, end, span = _library.number(self._first), place + slack + 1, 64
        # Each further window is earlier and larger, so that one of few instances is not sought second by second.
        while first < end:
            begin = max(end - span, first)
            found = [at for at in self._within(begin, end) if at < moment or inc and at == moment]
            if found:
                return max(found)
            end, span = begin, span * 8
        return None


class _Dates(_Recurrences):
    """Single dates."""

    def __init__(self):
        self.dates: list[datetime] = []

    def _since(self, moment):
        return iter(sorted(self.dates))

    def _last(self, moment, inc):
        return max((at for at in self.dates if at < moment or inc and at == moment), default=None)


class rruleset(_Recurrences):
    """The instances of rules and of single dates, each once, without the dates that are left out.

    It has what iCalendar says by RRULE, RDATE and EXDATE. There is no `exrule`: RFC 5545 has none."""

    def __init__(self):
        self._rules: list[_Recurrences] = []
        self._dates = _Dates()
        self._left_out: set[datetime] = set()

    def rrule(self, rule: rrule) -> None:
        """Adds a rule."""
        self._rules.append(rule)

    def rdate(self, moment: datetime) -> None:
        """Adds a single date."""
        self._dates.dates.append(moment)

    def exdate(self, moment: datetime) -> None:
        """Leaves a date out."""
        self._left_out.add(moment)

    def _since(self, moment: datetime | None) -> Iterator[datetime]:
        merged = heapq.merge(*[source._since(moment) for source in (*self._rules, self._dates)])
        return (found for found, _ in itertools.groupby(merged) if found not in self._left_out)

    def _last(self, moment: datetime, inc: bool) -> datetime | None:
        while True:
            found = [source._last(moment, inc) for source in (*self._rules, self._dates)]
            last = max((at for at in found if at is not None), default=None)
            if last is None or last not in self._left_out:
                return last
            moment, inc = last, False
