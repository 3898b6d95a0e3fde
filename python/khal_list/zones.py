"""Time zones by a zone file or a VTIMEZONE, and the bytes of the zones of `zoneinfo`."""
from __future__ import annotations

import functools
import os
import zoneinfo
from datetime import datetime, timedelta, timezone, tzinfo

from . import _library
from ._library import EPOCH, ZoneError

_CALENDAR = b'BEGIN:VCALENDAR\r\nVERSION:2.0\r\nPRODID:khal_list\r\n%s\r\nEND:VCALENDAR\r\n'
_DAY = 86_400


class Zone(tzinfo):
    """The zone of a zone file's bytes (RFC 9636), of the text of a VTIMEZONE, or of the first VTIMEZONE of a calendar.

    ZoneError if the bytes are none of these. `name` is what `tzname` gives."""

    def __init__(self, data: bytes | str, name: str | None = None):
        data = data.encode() if isinstance(data, str) else data
        if data.lstrip()[:15].upper() == b'BEGIN:VTIMEZONE':
            data = _CALENDAR % data.strip()
        self.data, self.name = data, name
        _library.zone_instants(data, [EPOCH])

    def __repr__(self) -> str:
        return f'Zone({self.name!r})' if self.name else f'Zone({len(self.data)} bytes)'

    def __reduce__(self):
        return Zone, (self.data, self.name)

    def _offset(self, instant: int) -> int:
        return _library.zone_locals(self.data, [instant])[0] - EPOCH - instant

    def utcoffset(self, moment: datetime | None) -> timedelta | None:
        """How far the clock is ahead of UTC. `fold` picks one of two instants, or the offset about a gap, as PEP 495 says."""
        if moment is None:
            return None
        shown = _library.number(moment)
        first = _library.zone_instants(self.data, [shown])[0]
        offset = shown - EPOCH - first
        return timedelta(0, self._second(shown, first, offset) if moment.fold else offset)

    def _second(self, shown: int, first: int, offset: int) -> int:
        """The offset of a local's second reading, if it has one: that after a gap, or after a fold."""
        now = self._offset(first)
        if now != offset:
            return now
        after = self._offset(first + _DAY)
        return after if after < offset and self._offset(shown - EPOCH - after) == after else offset

    def dst(self, moment: datetime | None) -> timedelta | None:
        """Not known: the zone says offsets alone."""
        return None

    def tzname(self, moment: datetime | None) -> str | None:
        return self.name

    def fromutc(self, moment: datetime) -> datetime:
        """The datetime that the clock shows at an instant of UTC, with `fold` set where it shows it the second time."""
        instant = _library.number(moment) - EPOCH
        shown = _library.zone_locals(self.data, [instant])[0]
        again = _library.zone_instants(self.data, [shown])[0] != instant
        return _library.local(shown).replace(microsecond=moment.microsecond, tzinfo=self, fold=int(again))


@functools.lru_cache(maxsize=None)
def _bytes_of_key(key: str) -> bytes | None:
    for folder in zoneinfo.TZPATH:
        path = os.path.join(folder, *key.split('/'))
        if os.path.isfile(path):
            with open(path, 'rb') as file:
                return file.read()
    try:
        import importlib.resources

        *package, name = key.split('/')
        return importlib.resources.files('.'.join(['tzdata.zoneinfo', *package])).joinpath(name).read_bytes()
    except (ImportError, FileNotFoundError):
        return None


def is_utc(zone: tzinfo | None) -> bool:
    return zone is timezone.utc or isinstance(zone, zoneinfo.ZoneInfo) and zone.key == 'UTC'


def zone_bytes(zone: tzinfo | None) -> bytes | None:
    """The bytes of a zone, if it is a Zone or one of `zoneinfo` whose file is found."""
    if isinstance(zone, Zone):
        return zone.data
    if isinstance(zone, zoneinfo.ZoneInfo) and zone.key:
        return _bytes_of_key(zone.key)
    return None


__all__ = ['Zone', 'ZoneError']
