"""The folders that measure what time zones cost, those of hostile files among them."""
import os
import struct
from datetime import datetime, timedelta, timezone

from folders import NEW_YORK, calendar, event, events, recurring, zoned

EACH = ','.join(str(number) for number in range(60))
EACH_SECOND = 'FREQ=DAILY;BYHOUR=%s;BYMINUTE=%s;BYSECOND=%s' % (','.join(str(hour) for hour in range(24)), EACH, EACH)


def part(name, start, before, after, *more):
    """An observance: when it begins, and the offsets before and after."""
    return ['BEGIN:' + name, 'DTSTART:' + start, 'TZOFFSETFROM:' + before, 'TZOFFSETTO:' + after, *more, 'END:' + name]


def zone(name, *parts):
    return ['BEGIN:VTIMEZONE', 'TZID:' + name, *(line for lines in parts for line in lines), 'END:VTIMEZONE']


def stamps(count, step):
    """Local times of 2024 in their order, so many seconds apart."""
    return [(datetime(2024, 1, 1) + timedelta(seconds=step * number)).strftime('%Y%m%dT%H%M%S') for number in range(count)]


def dense(start):
    """A time zone that changes its offset at every second."""
    return zone('dense', part('STANDARD', start, '+0000', '+0100', 'RRULE:' + EACH_SECOND))


def daily(count):
    """So many time zones that change daily since the year 0001."""
    return [line for number in range(count)
            for line in zone('Z%d' % number, part('STANDARD', '00010101T000000', '+0000', '+0100', 'RRULE:FREQ=DAILY'))]


# New York as Exchange writes it
EXCHANGE = zone('NY', part('STANDARD', '16010101T020000', '-0400', '-0500', 'RRULE:FREQ=YEARLY;INTERVAL=1;BYDAY=1SU;BYMONTH=11'),
                part('DAYLIGHT', '16010101T020000', '-0500', '-0400', 'RRULE:FREQ=YEARLY;INTERVAL=1;BYDAY=2SU;BYMONTH=3'))


def many(count, own):
    """Files of one event, each with a time zone of its own."""
    rest = '\r\n'.join(NEW_YORK).encode()
    for number in range(count):
        yield '%05d.ics' % number, zoned([number]).replace(rest, '\r\n'.join(own).encode())


def in_one_zone(count, observances):
    """So many events that name one time zone of so many observances."""
    large = zone('NY', *(part('STANDARD', '%04d1025T030000' % (1600 + number), '+0200', '+0100') for number in range(observances)))
    return zoned(range(count)).replace('\r\n'.join(NEW_YORK).encode(), '\r\n'.join(large).encode())


def locals_in(name, times):
    """An event that begins at each of these local times of a time zone."""
    lines = ['BEGIN:VEVENT', 'UID:locals@example.org', 'DTSTART;TZID=%s:%s' % (name, times[0]), 'SUMMARY:Locals']
    lines += ['RDATE;TZID=%s:%s' % (name, ','.join(times[at:at + 100])) for at in range(0, len(times), 100)]
    return [*lines, 'END:VEVENT']


def listed(count):
    """So many onsets by RDATE within two days, every other one of daylight time, and as many local times among them."""
    onsets = stamps(count, 172_800 // count)
    parts = [part(name, '20231231T%02d0000' % hour, before, after, 'RDATE:' + ','.join(onsets[first::2]))
             for name, hour, before, after, first in (('STANDARD', 0, '+0100', '+0000', 0), ('DAYLIGHT', 1, '+0000', '+0100', 1))]
    return calendar([*zone('listed', *parts), *locals_in('listed', onsets)])


def dense_locals(count):
    return calendar([*dense('20230101T000000'), *locals_in('dense', stamps(count, 61))])


def overridden(count):
    """A time zone with a gap behind onsets at every second, each of which another observance overrides, and locals in the gap."""
    own = zone('overridden', part('STANDARD', '20230101T000000', '+0000', '+2300', 'RRULE:' + EACH_SECOND),
               part('STANDARD', '20230101T000000', '+0000', '-2300', 'RRULE:%s;UNTIL=20240110T115959Z' % EACH_SECOND),
               part('STANDARD', '20240110T120000', '+0000', '+0100'))
    times = [(datetime(2024, 1, 9, 14) + timedelta(seconds=7 * number)).strftime('%Y%m%dT%H%M%S') for number in range(count)]
    return calendar([*own, *locals_in('overridden', times)])


def sliced(count, more=''):
    """The same gap behind 48 observances: 24 have the onsets of an hour each, and 24 override them."""
    def slices(after, more):
        return [part('STANDARD', '20240101T%02d0000' % hour, '-1200', after,
                     'RRULE:FREQ=DAILY;BYHOUR=%d;BYMINUTE=%s;BYSECOND=%s%s' % (hour, EACH, EACH, more)) for hour in range(24)]
    own = zone('sliced', *slices('+1200', more), *slices('-1200', ''), part('DAYLIGHT', '20240106T000000', '-1200', '+1200'))
    times = [(datetime(2024, 1, 6) + timedelta(seconds=7 * number)).strftime('%Y%m%dT%H%M%S') for number in range(count)]
    return calendar([*own, *locals_in('sliced', times)])


def apart(count):
    """Events ten years apart, in a time zone that changes daily since the year 0001 so many times as COUNT says."""
    own = zone('counted', part('STANDARD', '00010101T000000', '+0000', '+0100', 'RRULE:FREQ=DAILY;COUNT=3000000'))
    lines = []
    for number in range(count):
        lines += ['BEGIN:VEVENT', 'UID:%d@example.org' % number, 'DTSTART;TZID=counted:%04d0105T120000' % (7 + 10 * number),
                  'SUMMARY:Event %d' % number, 'END:VEVENT']
    return calendar([*own, *lines])


HERE = os.path.dirname(os.path.abspath(__file__))
ZONE_FILES = os.path.join(HERE, 'data', 'zone-files')
BERLIN = os.path.join(HERE, '..', 'examples', 'zoneinfo', 'Europe', 'Berlin')
SKIPPED = os.path.join(ZONE_FILES, 'Skipped')
APIA = os.path.join(ZONE_FILES, 'Apia')
REPEATED = os.path.join(ZONE_FILES, 'Repeated')


def zone_file(name, rule, kinds, changes=()):
    """Writes a zone file: offset, daylight time and name of each kind of time, at which instants which kind begins, and the
    rule that goes on. Gives the path."""
    names = b''.join(kind[2] + b'\0' for kind in kinds)
    types = b''.join(struct.pack('>iBB', offset, is_daylight, names.index(word + b'\0')) for offset, is_daylight, word in kinds)
    before = b'TZif2' + bytes(15) + struct.pack('>6I', 0, 0, 0, 0, 1, len(names)) + types[:6] + names
    table = b''.join(struct.pack('>q', at) for at, _ in changes) + bytes(kind for _, kind in changes)
    path = os.path.join(ZONE_FILES, name)
    os.makedirs(os.path.dirname(path), exist_ok=True)
    with open(path, 'wb') as file:
        file.write(before + b'TZif2' + bytes(15) + struct.pack('>6I', 0, 0, 0, len(changes), len(kinds), len(names)) + table + types + names)
        file.write(b'\n' + rule + b'\n')
    return path


def skipped_files():
    """Writes two zone files whose clocks once skipped a day: as that of Manila did, and as that of Apia did, among more offsets. A third whose clock
    once went back by a day, as that of Juneau did."""
    zone_file('Apia', b'WST-13', [(-41_400, 0, b'SST'), (-36_000, 1, b'SDT'), (50_400, 1, b'WDT'), (46_800, 0, b'WST')],
              [(1_316_872_800, 1), (1_325_239_200, 2), (1_333_202_400, 3)])
    zone_file('Skipped', b'PST-8', [(-57_360, 0, b'LMT'), (28_800, 0, b'PST')], [(-3_944_621_040, 1)])
    zone_file('Repeated', b'AKST9', [(54_000, 0, b'LMT'), (-32_400, 0, b'AKST')], [(-3_225_225_600, 1)])


def zone_files():
    """A folder of zone files: that of New York, in which the last year's rule goes on."""
    zone_file('America/New_York', b'EST5EDT,M3.2.0,M11.1.0', [(-18_000, 0, b'EST')])
    return ZONE_FILES


LONDON = 'GMT0BST,M3.5.0/1,M10.5.0'


def london():
    """A zone file of London, whose table goes from 1996 to 2037: both changes of a year are at 01:00 UTC on a last Sunday."""
    changes = []
    for year in range(1996, 2038):
        for month, kind in ((3, 1), (10, 0)):
            end = datetime(year, month, 31, 1, tzinfo=timezone.utc)
            changes.append((int((end - timedelta(days=end.isoweekday() % 7)).timestamp()), kind))
    return zone_file('Europe/London', LONDON.encode(), [(0, 0, b'GMT'), (3_600, 1, b'BST')], changes)


def one_each(count, start):
    """Files of one event, whose start is written so."""
    for number in range(count):
        stamp = '%04d%02d%02dT%02d%02d00' % (2024, number // 28 % 12 + 1, number % 28 + 1, number // 60 % 24, number % 60)
        yield '%05d.ics' % number, calendar(['BEGIN:VEVENT', 'UID:%d@example.org' % number, start % stamp, 'DURATION:PT1H',
                                             'SUMMARY:Event %d' % number, 'END:VEVENT'])


# what is measured: a name, the files, and the words after the folder
ROWS = [
    ('a dense zone that nothing names', lambda: [('a.ics', calendar([*dense('20220823T000000'), *event(0)]))],
     ['2024-01-05', '1d']),
    ('200 daily zones since 0001', lambda: [('a.ics', calendar([*daily(200), *event(0)]))], ['2024-01-05', '1d']),
    ('10,000 files with a zone since 1997', lambda: many(10_000, NEW_YORK), ['2024-01-05', '1d']),
    ('10,000 files of one event in UTC', lambda: one_each(10_000, 'DTSTART:%sZ'), ['2024-01-05', '1d']),
    ('10,000 files of one event, a zone file', lambda: one_each(10_000, 'DTSTART;TZID=America/New_York:%s'),
     ['2024-01-05', '1d', '--zones', zone_files()]),
    ('10,000 files as Exchange writes them', lambda: many(10_000, EXCHANGE), ['2024-01-05', '1d']),
    ('100 files of New York, a window in 9700', lambda: many(100, NEW_YORK), ['9700-01-05', '1d']),
    ('20,000 onsets by RDATE, as many locals', lambda: [('a.ics', listed(20_000))], ['2024-01-01', '3d']),
    ('1,000 locals of a dense zone', lambda: [('a.ics', dense_locals(1_000))], ['2024-01-01', '3d']),
    ('10,000 locals of a dense zone', lambda: [('a.ics', dense_locals(10_000))], ['2024-01-01', '9d']),
    ('1,000 locals in a gap behind overridden onsets', lambda: [('a.ics', overridden(1_000))], ['2024-01-08', '4d']),
    ('800 locals in a gap behind 48 observances', lambda: [('a.ics', sliced(800))], ['2024-01-05', '5d']),
    ('the same, half of them with COUNT', lambda: [('a.ics', sliced(800, ';COUNT=100000'))], ['2024-01-05', '5d']),
    ('245 events ten years apart, COUNT', lambda: [('a.ics', apart(245))], ['2024-01-05', '1d']),
]

# what is measured beside another listing: a name, the files, the words after the folder, those that differ in the one and in the
# other, and in how many runs of each
PAIRS = [
    ('a year of 366,027 entries, a zone file', lambda: [('a.ics', recurring(1_000, '200001%02dT%02d%02d00Z', 'FREQ=DAILY'))],
     ['2024-01-01', '2024-12-31'], ['--zone-file', london()], ['--zone', LONDON], 10),
    ('a small listing, a zone file', lambda: [('a.ics', events(range(3)))], ['2024-01-01', '1d'], ['--zone-file', BERLIN],
     ['--zone', 'CET-1CEST,M3.5.0,M10.5.0/3'], 500),
    ('100,000 events, --keep-going', lambda: [('a.ics', events(range(100_000)))], ['2024-01-05', '1d'], ['--keep-going'], [], 10),
    ('the same in one large zone, --keep-going', lambda: [('a.ics', in_one_zone(100_000, 400))], ['2024-01-05', '1d'], ['--keep-going'], [], 10),
]
