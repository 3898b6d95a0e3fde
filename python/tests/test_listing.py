"""Listings and occurrences of calendar files."""
import unittest
from datetime import date, datetime, timedelta, timezone
from zoneinfo import ZoneInfo

from khal_list import CalendarFault, RequestError, Zone, listing, occurrences
from khal_list.zones import zone_bytes
from tests.test_rules import VTIMEZONE

BERLIN = ZoneInfo('Europe/Berlin')
UTC = timezone.utc
EVENTS = '''BEGIN:VCALENDAR
VERSION:2.0
PRODID:x
BEGIN:VEVENT
UID:standup
DTSTART:20240102T100000
DURATION:PT15M
RRULE:FREQ=DAILY;COUNT=3
SUMMARY:Stand-up\\, daily
LOCATION:Room 4
END:VEVENT
BEGIN:VEVENT
UID:standup
RECURRENCE-ID:20240103T100000
DTSTART:20240103T110000
DURATION:PT15M
SUMMARY:Moved
STATUS:CANCELLED
END:VEVENT
BEGIN:VEVENT
UID:fair
DTSTART:20240103
DTEND:20240105
SUMMARY:Fair
END:VEVENT
END:VCALENDAR
'''.replace('\n', '\r\n').encode()
TEAM = ('team.ics', EVENTS)
BAD = ('bad.ics', b'BEGIN:VCALENDAR\r\nSUMMARY\r\n')
WORDS = ['list', '.', '2024-01-02', '1d']


class Listings(unittest.TestCase):
    def test_text(self):
        got = listing(WORDS, [TEAM], now=0)
        self.assertEqual(got.text, 'Tuesday, 2024-01-02\n10:00-10:15 Stand-up, daily\n')
        self.assertEqual((got.faults, got.more), ([], None))

    def test_faults(self):
        got = listing(WORDS, [BAD, TEAM], now=0)
        self.assertEqual(got.faults, [CalendarFault('bad.ics', 2, 'BadLine')])
        self.assertIn('Stand-up', got.text)

    def test_pages(self):
        first = listing(['list', '.', '2024-01-02', '3d', '--limit', '1'], [TEAM], now=0)
        rest = listing(['list', '.', '2024-01-02', '3d', '--after', first.more], [TEAM], now=0)
        self.assertEqual(first.text.count('\n') + rest.text.count('\n'), listing(['list', '.', '2024-01-02', '3d'], [TEAM], now=0).text.count('\n'))

    def test_clock(self):
        self.assertIn('2024-01-02', listing(['list', '.'], [TEAM], now=datetime(2024, 1, 2, 12, tzinfo=UTC)).text)

    def test_display_zone(self):
        got = listing([*WORDS, '--zone-file', 'any'], [TEAM], zone_file=zone_bytes(BERLIN), now=0)
        self.assertIn('10:00-10:15', got.text)

    def test_long(self):
        """A listing that is larger than the first room."""
        got = listing(['list', '.', '2024-01-01', '3650d'], [('a.ics', EVENTS.replace(b'COUNT=3', b'INTERVAL=1'))], now=0)
        self.assertGreater(len(got.text), 65_536)

    def test_refused(self):
        for words, fault in ((['list', '.', '2024-13-01'], 'BadWindow'), ([*WORDS, '--zone', 'X'], 'BadZone'), ([*WORDS, '--zone-file', 'x'], 'BadZone'),
                             ([*WORDS, '--format', '{'], 'BadFormat'), ([*WORDS, '--after', 'K'], 'BadToken'), ([], 'Usage'), (['--help'], 'Usage')):
            with self.assertRaises(RequestError) as caught:
                listing(words, [TEAM], now=0)
            self.assertEqual(caught.exception.fault, fault)
        with self.assertRaises(RequestError) as caught:
            listing([b'\xff'], [TEAM], now=0)
        self.assertEqual(caught.exception.fault, 'NotText')


class Occurrences(unittest.TestCase):
    def test_fields(self):
        first, fair, moved, last = occurrences([TEAM], date(2024, 1, 2), date(2024, 1, 5), zone=BERLIN)
        self.assertEqual((first.start, first.end), (datetime(2024, 1, 2, 10, tzinfo=BERLIN), datetime(2024, 1, 2, 10, 15, tzinfo=BERLIN)))
        self.assertEqual((first.uid, first.title, first.location), ('standup', 'Stand-up, daily', 'Room 4'))
        self.assertEqual((first.all_day, first.cancelled, first.recurrence), (False, False, first.start))
        self.assertEqual((fair.start, fair.end, fair.all_day), (datetime(2024, 1, 3, tzinfo=BERLIN), datetime(2024, 1, 5, tzinfo=BERLIN), True))
        self.assertEqual((moved.title, moved.cancelled), ('Moved', True))
        self.assertEqual((moved.start, moved.recurrence), (datetime(2024, 1, 3, 11, tzinfo=BERLIN), datetime(2024, 1, 3, 10, tzinfo=BERLIN)))
        self.assertEqual(last.start, datetime(2024, 1, 4, 10, tzinfo=BERLIN))

    def test_token(self):
        first, *rest = occurrences([TEAM], date(2024, 1, 2), date(2024, 1, 5))
        words = ['list', '.', '2024-01-02', '3d', '--day-format', '', '--format', '{token}']
        self.assertEqual([line for line in listing(words + ['--after', first.token], [TEAM], now=0).text.splitlines() if line], [one.token for one in rest])

    def test_window(self):
        start = datetime(2024, 1, 2, 10, 15, tzinfo=UTC)
        self.assertEqual(occurrences([TEAM], start, start + timedelta(hours=1)), [])
        self.assertEqual(len(occurrences([TEAM], start - timedelta(seconds=1), start + timedelta(hours=1))), 1)
        self.assertEqual(len(occurrences([TEAM], start - timedelta(seconds=1), start + timedelta(hours=1), notstarted=True)), 0)
        self.assertEqual(occurrences([TEAM], start - timedelta(hours=1), start - timedelta(minutes=15)), [])

    def test_zones(self):
        for zone in (UTC, BERLIN, timezone(timedelta(hours=-5)), Zone(zone_bytes(BERLIN))):
            self.assertEqual(occurrences([TEAM], date(2024, 1, 2), date(2024, 1, 3), zone=zone)[0].start, datetime(2024, 1, 2, 10, tzinfo=zone))
        with self.assertRaises(ValueError):
            occurrences([TEAM], date(2024, 1, 2), date(2024, 1, 3), zone=Zone(VTIMEZONE))

    def test_zone_files(self):
        named = EVENTS.replace(b'DTSTART:20240102T', b'DTSTART;TZID=Europe/Berlin:20240102T').replace(b'RECURRENCE-ID:', b'RECURRENCE-ID;TZID=Europe/Berlin:')
        found = occurrences([('a.ics', named)], date(2024, 1, 2), date(2024, 1, 3), zones=[('Europe/Berlin', zone_bytes(BERLIN))])
        self.assertEqual(found[0].start, datetime(2024, 1, 2, 9, tzinfo=UTC))

    def test_faults(self):
        with self.assertRaisesRegex(ValueError, 'bad.ics: line 2: BadLine'):
            occurrences([BAD, TEAM], date(2024, 1, 2), date(2024, 1, 5))
        faults = []
        self.assertEqual(len(occurrences([BAD, TEAM], date(2024, 1, 2), date(2024, 1, 5), faults=faults)), 4)
        self.assertEqual(faults, [CalendarFault('bad.ics', 2, 'BadLine')])

    def test_keep_going(self):
        name, text = TEAM
        broken = (name, text.replace(b'END:VCALENDAR', b'BEGIN:VEVENT\r\nUID:no-start\r\nEND:VEVENT\r\nEND:VCALENDAR'))
        window = date(2024, 1, 2), date(2024, 1, 5)
        whole, faults = occurrences([TEAM], *window), []
        self.assertEqual(occurrences([broken], *window, keep_going=True, faults=faults), whole)
        self.assertEqual([(fault.name, fault.kind) for fault in faults], [(name, 'MissingStart')])
        self.assertEqual(occurrences([broken], *window, faults=faults), [])
        with self.assertRaises(ValueError):
            occurrences([broken], *window, keep_going=True)


if __name__ == '__main__':
    unittest.main()
