"""The functions of libkhal_list.so.0, and the numbers that they use."""
from __future__ import annotations

import ctypes
import enum
import os
from datetime import datetime, timedelta
from typing import Iterable, Sequence

_BESIDE = os.path.join(os.path.dirname(os.path.abspath(__file__)), 'libkhal_list.so.0')

# The local 1970-01-01T00:00:00, and 9801-01-01T00:00:00, where rules end, in seconds from 0000-01-01T00:00:00.
EPOCH = 62_167_219_200
RULES_END = 309_289_708_800
# The local 0001-01-01T00:00:00, from which datetimes count.
YEAR_1 = 366 * 86_400

# A start in UTC and one without a zone have no bytes of a zone.
NO_ZONE = b''


class Fault(enum.IntEnum):
    """Why a call gave nothing."""

    BadRule = 1
    NumberTooLarge = 2
    BadStamp = 3
    YearRange = 4
    NoUntil = 5
    BadZone = 6
    Memory = 7


class LibraryError(ValueError):
    """Why a call gave nothing: `fault` has its name."""

    def __init__(self, fault: Fault | str):
        self.fault = fault.name if isinstance(fault, Fault) else fault
        super().__init__(self.fault)


class RuleError(LibraryError):
    """The text is no rule, or the start is out of the years 0001 to 9899."""


class ZoneError(LibraryError):
    """The bytes are no zone, or a time is out of bounds."""


class RequestError(LibraryError):
    """The words are no request. `text` says why, as the program khal-list does."""

    def __init__(self, fault: str, text: str):
        super().__init__(fault)
        self.text = text
        self.args = (text,)


class _Times(ctypes.Structure):
    _fields_ = [('count', ctypes.c_size_t), ('fault', ctypes.c_uint32)]


class _Word(ctypes.Structure):
    _fields_ = [('at', ctypes.c_char_p), ('length', ctypes.c_size_t)]


class _File(ctypes.Structure):
    _fields_ = [('name', _Word), ('bytes', _Word)]


class _Listed(ctypes.Structure):
    _fields_ = [('out', ctypes.c_size_t), ('err', ctypes.c_size_t), ('status', ctypes.c_uint32)]


def _load() -> ctypes.CDLL:
    """The library: the one that KHAL_LIST names, or that of the package, or the system's."""
    named = os.environ.get('KHAL_LIST')
    library = ctypes.CDLL(named or (_BESIDE if os.path.exists(_BESIDE) else 'libkhal_list.so.0'))
    text, array = [ctypes.c_char_p, ctypes.c_size_t], [ctypes.c_void_p, ctypes.c_size_t]
    library.khal_rule_times.restype = _Times
    library.khal_rule_times.argtypes = [*text, *text, *text, ctypes.c_uint64, ctypes.c_uint64, *array]
    library.khal_rule_until.restype = ctypes.c_uint32
    library.khal_rule_until.argtypes = [*text, *text, ctypes.POINTER(ctypes.c_int64)]
    for convert in (library.khal_zone_instants, library.khal_zone_locals):
        convert.restype = _Times
        convert.argtypes = [*text, *array, *array]
    library.khal_list.restype = _Listed
    library.khal_list.argtypes = [*array, *array, *array, *text, ctypes.c_int64, *array, *array]
    return library


_LIBRARY = _load()


def number(moment: datetime) -> int:
    """The local of a datetime, its zone and its microseconds left off."""
    since = moment.replace(tzinfo=None, fold=0) - datetime.min
    return since.days * 86_400 + since.seconds + YEAR_1


def local(value: int) -> datetime:
    """The datetime of a local of the years 0001 to 9999."""
    return datetime.min + timedelta(0, value - YEAR_1)


def rule_times(rule: bytes, start: bytes, zone: bytes, begin: int, end: int, times: ctypes.Array) -> int:
    """Writes the instances of a rule from one local on and before another, and says how many these are."""
    got = _LIBRARY.khal_rule_times(
        rule, len(rule), start, len(start), zone, len(zone), max(begin, 0), max(end, 0), ctypes.addressof(times), len(times))
    if got.fault == Fault.Memory:
        raise MemoryError
    if got.fault == Fault.BadZone:
        raise ZoneError(Fault.BadZone)
    if got.fault:
        raise RuleError(Fault(got.fault))
    return got.count


def rule_until(rule: bytes, start: bytes) -> int | None:
    """UNTIL in seconds since 1970, if it is in UTC and the start has a time."""
    until = ctypes.c_int64()
    fault = _LIBRARY.khal_rule_until(rule, len(rule), start, len(start), until)
    if fault == Fault.NoUntil:
        return None
    if fault:
        raise RuleError(Fault(fault))
    return until.value


def _convert(convert, zone: bytes, asked: ctypes.Array, answers: ctypes.Array) -> list[int]:
    got = convert(zone, len(zone), ctypes.addressof(asked), len(asked), ctypes.addressof(answers), len(answers))
    if got.fault == Fault.Memory:
        raise MemoryError
    if got.fault:
        raise ZoneError(Fault(got.fault))
    return list(answers)


def zone_instants(zone: bytes, locals_: Sequence[int]) -> list[int]:
    """The instants of locals in a zone, in seconds since 1970."""
    count = len(locals_)
    return _convert(_LIBRARY.khal_zone_instants, zone, (ctypes.c_uint64 * count)(*locals_), (ctypes.c_int64 * count)()) if count else []


def zone_locals(zone: bytes, instants: Sequence[int]) -> list[int]:
    """The locals that the clock of a zone shows at instants."""
    count = len(instants)
    return _convert(_LIBRARY.khal_zone_locals, zone, (ctypes.c_int64 * count)(*instants), (ctypes.c_uint64 * count)()) if count else []


def run(
        words: Iterable[str | bytes], files: Iterable[tuple[str | bytes, bytes]], zones: Iterable[tuple[str | bytes, bytes]] = (), zone_file: bytes = b'',
        now: int = 0) -> tuple[int, bytes, bytes]:
    """The status and the two texts of `khal-list WORDS` over files and zone files, each a pair of a name and bytes."""
    kept = []

    def word(text):
        kept.append(text if isinstance(text, bytes) else text.encode('utf-8', 'surrogateescape'))
        return _Word(kept[-1], len(kept[-1]))

    def array(kind, values):
        made = (kind * max(len(values), 1))(*values)
        kept.append(made)
        return ctypes.addressof(made), len(values)

    given = [array(_Word, [word(text) for text in words])]
    given += [array(_File, [_File(word(name), word(data)) for name, data in them]) for them in (files, zones)]
    room = [65_536, 4_096]
    while True:
        out, err = (ctypes.create_string_buffer(size) for size in room)
        got = _LIBRARY.khal_list(
            *given[0], *given[1], *given[2], zone_file, len(zone_file), now, ctypes.addressof(out), room[0], ctypes.addressof(err), room[1])
        if got.out <= room[0] and got.err <= room[1]:
            return got.status, out.raw[:got.out], err.raw[:got.err]
        room = [max(got.out, room[0]), max(got.err, room[1])]
