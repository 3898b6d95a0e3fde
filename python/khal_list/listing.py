"""Listings of calendar files, as the program khal-list makes them."""
from __future__ import annotations

import dataclasses
import re
from datetime import date, datetime, timedelta, timezone, tzinfo
from typing import Iterable

from . import _library
from ._library import RequestError
from .zones import is_utc, zone_bytes

_EPOCH = datetime(1970, 1, 1, tzinfo=timezone.utc)
_FAULT = re.compile('khal-list: (.*): (?:line ([0-9]+): ([A-Za-z]+)|ReadFault)')
_MORE = 'more: '
_FIELDS = ('start-unix', 'end-unix', 'token', 'start-time', 'uid', 'title', 'location', 'cancelled')
# No value has a tab, so that it stands between two.
_FORMAT = '\t'.join(f'{{{field}}}' for field in _FIELDS)


@dataclasses.dataclass(frozen=True)
class CalendarFault:
    """A file that is not listed, or not whole: its name, the number of the line, or None where the file was not read, and the kind, as BadStamp."""

    name: str
    line: int | None
    kind: str


@dataclasses.dataclass(frozen=True)
class Listing:
    """The text of a listing, the faults of files that leave something out of it, and the token from which it goes on if --limit cut it."""

    text: str
    faults: list[CalendarFault]
    more: str | None


@dataclasses.dataclass(frozen=True)
class Occurrence:
    """An occurrence of an event. `start` and `end` are datetimes in the zone of the listing, the end not included, and for an event of dates
    the midnights there. `recurrence` is the instant that the rule or RECURRENCE-ID gives it. `token` goes after it in a listing."""

    start: datetime
    end: datetime
    uid: str
    recurrence: datetime
    title: str
    location: str
    token: str
    all_day: bool
    cancelled: bool


def _faults(told: str) -> tuple[list[CalendarFault], str | None]:
    faults, more = [], None
    for line in told.splitlines():
        match = _FAULT.fullmatch(line)
        if line.startswith(_MORE):
            more = line[len(_MORE):]
        elif match:
            faults.append(CalendarFault(match[1], int(match[2]), match[3]) if match[2] else CalendarFault(match[1], None, 'ReadFault'))
    return faults, more


def listing(
        words: Iterable[str], files: Iterable[tuple[str, bytes]], zones: Iterable[tuple[str, bytes]] = (), zone_file: bytes = b'',
        now: datetime | int | None = None) -> Listing:
    """What `khal-list WORDS` prints for these files, each a pair of a name and bytes.

    `words` are those after the program's name, as `['list', '.', '2024-01-01', '7d']`; the folder is not looked at. `zones` are zone files by
    the names of their zones, and `zone_file` is the file that `--zone-file` names. `now` is the clock, by default the computer's.
    RequestError if the words are no request."""
    if now is None:
        now = datetime.now(timezone.utc)
    seconds = now if isinstance(now, int) else int((now - _EPOCH).total_seconds())
    status, out, err = _library.run(words, list(files), list(zones), zone_file, seconds)
    told = err.decode('utf-8', 'replace')
    if status == 3:
        raise MemoryError
    if status >= 2:
        name = told if re.fullmatch('[A-Z][A-Za-z]+', told) else 'Usage'
        raise RequestError(name, told)
    faults, more = _faults(told)
    return Listing(out.decode('utf-8', 'replace'), faults, more)


def _zone_words(zone: tzinfo) -> tuple[list[str], bytes]:
    """The words that name a display zone, and the bytes of its file."""
    data = zone_bytes(zone)
    if is_utc(zone):
        return ['--zone=UTC'], b''
    if isinstance(zone, timezone):
        seconds = int(zone.utcoffset(None).total_seconds())
        if seconds % 60:
            raise ValueError('a zone is whole minutes from UTC')
        sign, minutes = '-' if seconds < 0 else '+', abs(seconds) // 60
        return [f'--zone={sign}{minutes // 60:02}:{minutes % 60:02}'], b''
    if data is None or not data.startswith(b'TZif'):
        raise ValueError('a listing is shown in UTC, at a fixed offset, or in the zone of a zone file')
    return ['--zone-file=zone'], data


def _moment(moment: datetime | date, zone: tzinfo) -> datetime:
    """A bound as an aware datetime. A date is its midnight."""
    if not isinstance(moment, datetime):
        moment = datetime(moment.year, moment.month, moment.day)
    return moment if moment.tzinfo else moment.replace(tzinfo=zone)


def _meets(found: Occurrence, start: datetime, end: datetime, notstarted: bool) -> bool:
    """The occurrence begins before the end, and ends after the start, or begins not before it if it has no length or none that has begun is wanted."""
    begun, low = found.start.astimezone(timezone.utc), start.astimezone(timezone.utc)
    over = found.end.astimezone(timezone.utc)
    if not begun < end.astimezone(timezone.utc) or notstarted and begun < low:
        return False
    return low < over or begun == over and low <= begun


def _occurrence(line: str, zone: tzinfo) -> Occurrence:
    fields = dict(zip(_FIELDS, line.split('\t')))
    _, _, recurrence, _ = fields['token'].split('.')
    start, end, of = (
        (_EPOCH + timedelta(0, int(seconds))).astimezone(zone) for seconds in (fields['start-unix'], fields['end-unix'], recurrence))
    return Occurrence(
        start, end, fields['uid'], of, fields['title'], fields['location'], fields['token'], not fields['start-time'], bool(fields['cancelled']))


def occurrences(
        files: Iterable[tuple[str, bytes]], start: datetime | date, end: datetime | date, *, zone: tzinfo = timezone.utc,
        zones: Iterable[tuple[str, bytes]] = (), notstarted: bool = False, keep_going: bool = False,
        faults: list[CalendarFault] | None = None) -> list[Occurrence]:
    """The occurrences of files, each a pair of a name and bytes, that meet the window from `start` on and before `end`, in the order of
    their starts.

    A bound without tzinfo is a local time of `zone`, and a date its midnight there. Local times without a zone and dates in the files are read
    in `zone`: UTC, a fixed offset, or one of `zoneinfo` or a `Zone` by a zone file. `zones` are zone files for names that a calendar does not
    define. `notstarted` leaves out what began before the window. Files that are not accepted are left out and added to `faults`, or
    ValueError names the first of them if that is not given. `keep_going` gives the sound events of such files too; it wants `faults`, or is a
    ValueError."""
    if keep_going and faults is None:
        raise ValueError('keep_going wants a list for faults')
    low, high = _moment(start, zone), _moment(end, zone)
    words, zone_file = _zone_words(zone)
    # The words have whole minutes, and of a local that comes twice they mean the first, so that the window is an hour wider here.
    first = (low.astimezone(zone) - timedelta(hours=1)).strftime('%Y-%m-%dT%H:%M').rjust(16, '0')
    last = (high.astimezone(zone) + timedelta(hours=25)).strftime('%Y-%m-%dT%H:%M').rjust(16, '0')
    going = ['--keep-going'] if keep_going else []
    got = listing(['list', '.', first, last, *words, *going, '--format', _FORMAT, '--day-format', ''], files, zones, zone_file, 0)
    if faults is None and got.faults:
        fault = got.faults[0]
        raise ValueError(f'{fault.name}: {"" if fault.line is None else f"line {fault.line}: "}{fault.kind}')
    if faults is not None:
        faults += got.faults
    found = [_occurrence(line, zone) for line in got.text.split('\n') if line]
    return [one for one in found if _meets(one, low, high, notstarted)]
