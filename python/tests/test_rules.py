"""Rules and sets: what they give, against dateutil where it is installed, and what is refused."""
import itertools
import random
import unittest
from datetime import date, datetime, timedelta, timezone
from zoneinfo import ZoneInfo

from khal_list import RuleError, Zone, rrule, rruleset

try:
    from dateutil import rrule as dateutil
except ImportError:
    dateutil = None

BERLIN = ZoneInfo('Europe/Berlin')
VTIMEZONE = '''BEGIN:VTIMEZONE
TZID:Berlin
BEGIN:STANDARD
DTSTART:19701025T030000
TZOFFSETFROM:+0200
TZOFFSETTO:+0100
RRULE:FREQ=YEARLY;BYMONTH=10;BYDAY=-1SU
END:STANDARD
BEGIN:DAYLIGHT
DTSTART:19700329T020000
TZOFFSETFROM:+0100
TZOFFSETTO:+0200
RRULE:FREQ=YEARLY;BYMONTH=3;BYDAY=-1SU
END:DAYLIGHT
END:VTIMEZONE
'''.replace('\n', '\r\n')


def days(*numbers, hour=9, zone=None):
    return [datetime(2024, 1, number, hour, tzinfo=zone) for number in numbers]


class Rules(unittest.TestCase):
    def test_between(self):
        rule = rrule('FREQ=DAILY', datetime(2024, 1, 1, 9))
        self.assertEqual(rule.between(datetime(2024, 1, 2, 9), datetime(2024, 1, 5, 9)), days(3, 4))
        self.assertEqual(rule.between(datetime(2024, 1, 2, 9), datetime(2024, 1, 5, 9), inc=True), days(2, 3, 4, 5))

    def test_after_and_before(self):
        rule = rrule('RRULE:FREQ=WEEKLY;COUNT=3', datetime(2024, 1, 1, 9))
        self.assertEqual(rule.after(datetime(2024, 1, 1, 9)), datetime(2024, 1, 8, 9))
        self.assertEqual(rule.after(datetime(2024, 1, 1, 9), inc=True), datetime(2024, 1, 1, 9))
        self.assertIsNone(rule.after(datetime(2024, 1, 15, 9)))
        self.assertEqual(rule.before(datetime(2030, 1, 1)), datetime(2024, 1, 15, 9))
        self.assertEqual(rule.before(datetime(2024, 1, 8, 9)), datetime(2024, 1, 1, 9))
        self.assertEqual(rule.before(datetime(2024, 1, 8, 9), inc=True), datetime(2024, 1, 8, 9))
        self.assertIsNone(rule.before(datetime(2024, 1, 1, 9)))

    def test_before_of_rare_instances(self):
        rule = rrule('FREQ=SECONDLY;BYMONTH=2;BYMONTHDAY=29;BYHOUR=12;BYMINUTE=0;BYSECOND=0', datetime(2024, 2, 29, 12))
        self.assertEqual(rule.before(datetime(2096, 1, 1)), datetime(2092, 2, 29, 12))

    def test_sequence(self):
        rule = rrule('FREQ=DAILY;COUNT=5', datetime(2024, 1, 1, 9))
        self.assertEqual(list(rule), days(1, 2, 3, 4, 5))
        self.assertEqual(rule.count(), 5)
        self.assertEqual(rule[1], datetime(2024, 1, 2, 9))
        self.assertEqual(rule[-1], datetime(2024, 1, 5, 9))
        self.assertEqual(rule[1:4:2], days(2, 4))
        self.assertEqual(rule[-2:], days(4, 5))
        self.assertIn(datetime(2024, 1, 3, 9), rule)
        self.assertNotIn(datetime(2024, 1, 3, 10), rule)
        self.assertEqual(list(rule.xafter(datetime(2024, 1, 2, 9), count=2)), days(3, 4))
        with self.assertRaises(IndexError):
            rule[5]

    def test_dates(self):
        rule = rrule('FREQ=MONTHLY;COUNT=2', date(2024, 1, 31))
        self.assertEqual(list(rule), [datetime(2024, 1, 31), datetime(2024, 3, 31)])

    def test_early_years(self):
        self.assertEqual(rrule('FREQ=YEARLY', datetime(1, 1, 1)).after(datetime(1, 1, 1)), datetime(2, 1, 1))

    def test_ends_in_9801(self):
        rule = rrule('FREQ=YEARLY;INTERVAL=7776', datetime(2024, 1, 1))
        self.assertEqual(list(rule), [datetime(2024, 1, 1), datetime(9800, 1, 1)])

    def test_refused(self):
        for text, fault in (('FREQ=NO', 'BadRule'), ('', 'BadRule'), ('FREQ=DAILY;COUNT=9999999999', 'NumberTooLarge'), ('FREQ=DAILY;\u00e4', 'BadRule')):
            with self.assertRaises(RuleError) as caught:
                rrule(text, datetime(2024, 1, 1))
            self.assertEqual(caught.exception.fault, fault)
        with self.assertRaises(RuleError) as caught:
            rrule('FREQ=DAILY', datetime(9900, 1, 1))
        self.assertEqual(caught.exception.fault, 'YearRange')

    def test_mixed_moments(self):
        with self.assertRaises(TypeError):
            rrule('FREQ=DAILY', datetime(2024, 1, 1)).after(datetime(2024, 1, 1, tzinfo=timezone.utc))
        with self.assertRaises(TypeError):
            rrule('FREQ=DAILY', datetime(2024, 1, 1, tzinfo=timezone.utc)).after(datetime(2024, 1, 1))


class Until(unittest.TestCase):
    """UNTIL in UTC bounds instants."""

    text = 'FREQ=DAILY;UNTIL=20240103T080000Z'

    def test_utc(self):
        rule = rrule('FREQ=DAILY;UNTIL=20240103T090000Z', datetime(2024, 1, 1, 9, tzinfo=timezone.utc))
        self.assertEqual(list(rule), days(1, 2, 3, zone=timezone.utc))
        self.assertEqual(list(rrule(self.text, datetime(2024, 1, 1, 9, tzinfo=timezone.utc))), days(1, 2, zone=timezone.utc))

    def test_zones(self):
        # 9:00 in Berlin is 8:00 in UTC
        for zone in (BERLIN, Zone(VTIMEZONE), timezone(timedelta(hours=1))):
            self.assertEqual(list(rrule(self.text, datetime(2024, 1, 1, 9, tzinfo=zone))), days(1, 2, 3, zone=zone))
            self.assertEqual(list(rrule(self.text, datetime(2024, 1, 1, 9, 1, tzinfo=zone))), [at + timedelta(minutes=1) for at in days(1, 2, zone=zone)])

    def test_start_stays(self):
        for zone in (BERLIN, timezone.utc, timezone(timedelta(hours=5))):
            start = datetime(2025, 1, 1, 9, tzinfo=zone)
            self.assertEqual(list(rrule(self.text, start)), [start])

    def test_without_zone(self):
        self.assertEqual(len(list(itertools.islice(rrule(self.text, datetime(2024, 1, 1, 9)), 10))), 10)


class Moments(unittest.TestCase):
    """Moments of another zone are compared as instants."""

    def test_other_zone(self):
        rule = rrule('FREQ=DAILY', datetime(2024, 1, 1, 9, tzinfo=BERLIN))
        utc = timezone.utc
        self.assertEqual(rule.after(datetime(2024, 1, 5, 8, tzinfo=utc)), datetime(2024, 1, 6, 9, tzinfo=BERLIN))
        self.assertEqual(rule.after(datetime(2024, 1, 5, 8, tzinfo=utc), inc=True), datetime(2024, 1, 5, 9, tzinfo=BERLIN))
        self.assertEqual(rule.before(datetime(2024, 1, 5, 8, tzinfo=utc)), datetime(2024, 1, 4, 9, tzinfo=BERLIN))
        self.assertEqual(rule.between(datetime(2024, 1, 1, tzinfo=utc), datetime(2024, 1, 3, tzinfo=utc)), days(1, 2, zone=BERLIN))


class Sets(unittest.TestCase):
    def set(self):
        made = rruleset()
        made.rrule(rrule('FREQ=DAILY;COUNT=4', datetime(2024, 1, 1, 9)))
        made.rdate(datetime(2024, 1, 10, 9))
        made.rdate(datetime(2024, 1, 2, 9))
        made.exdate(datetime(2024, 1, 3, 9))
        return made

    def test_members(self):
        made = self.set()
        self.assertEqual(list(made), days(1, 2, 4, 10))
        self.assertEqual(made.count(), 4)
        self.assertEqual(made.after(datetime(2024, 1, 2, 9)), datetime(2024, 1, 4, 9))
        self.assertEqual(made.before(datetime(2024, 1, 4, 9)), datetime(2024, 1, 2, 9))
        self.assertEqual(made.before(datetime(2025, 1, 1)), datetime(2024, 1, 10, 9))
        self.assertEqual(made.between(datetime(2024, 1, 2, 9), datetime(2024, 1, 10, 9), inc=True), days(2, 4, 10))

    def test_empty(self):
        self.assertEqual(list(rruleset()), [])
        self.assertIsNone(rruleset().before(datetime(2024, 1, 1)))


def random_rule(chance):
    """A rule, and a start that dateutil and the library read alike: it has no part of which they differ by name."""
    frequency = chance.choice(['YEARLY', 'MONTHLY', 'WEEKLY', 'DAILY', 'HOURLY', 'MINUTELY'])
    parts = [f'FREQ={frequency}']
    if chance.random() < 0.4:
        parts.append(f'INTERVAL={chance.randint(1, 5)}')
    if chance.random() < 0.4:
        parts.append(f'BYMONTH={",".join(map(str, sorted(chance.sample(range(1, 13), chance.randint(1, 4)))))}')
    days_ = chance.random()
    weekdays = sorted(chance.sample(['MO', 'TU', 'WE', 'TH', 'FR', 'SA', 'SU'], chance.randint(1, 3)))
    if frequency in ('MONTHLY', 'YEARLY') and days_ < 0.25:
        parts.append(f'BYDAY={",".join(chance.choice(["1", "2", "-1", "-2"]) + day for day in weekdays)}')
    elif days_ < 0.5:
        parts.append(f'BYDAY={",".join(weekdays)}')
    elif frequency != 'WEEKLY' and days_ < 0.75:
        parts.append(f'BYMONTHDAY={",".join(map(str, chance.sample([1, 5, 13, 15, 28, 29, 30, 31, -1, -2], chance.randint(1, 3))))}')
    if frequency in ('HOURLY', 'MINUTELY') and chance.random() < 0.7 or chance.random() < 0.15:
        parts.append(f'BYHOUR={",".join(map(str, sorted(chance.sample(range(24), chance.randint(1, 3)))))}')
    if chance.random() < 0.3:
        parts.append(f'WKST={chance.choice(["MO", "SU", "WE"])}')
    if frequency in ('MONTHLY', 'YEARLY') and chance.random() < 0.2 and len(parts) > 2:
        parts.append(f'BYSETPOS={chance.choice([1, -1, 2, -2])}')
    if chance.random() < 0.3:
        parts.append(f'COUNT={chance.randint(1, 40)}')
    elif chance.random() < 0.2:
        parts.append(f'UNTIL={chance.randint(2024, 2030)}0615T120000')
    near = datetime(2024, 1, 1) + timedelta(minutes=chance.randrange(366 * 24 * 60))
    return ';'.join(parts), near


@unittest.skipUnless(dateutil, 'dateutil is not installed')
class AgainstDateutil(unittest.TestCase):
    """Random rules whose start fits, so that both have it."""

    def first_of(self, text, near):
        """The first local from a moment on that dateutil's rule gives, which fits the rule."""
        without = ';'.join(part for part in text.split(';') if part.split('=')[0] not in ('COUNT', 'UNTIL', 'INTERVAL', 'BYSETPOS'))
        return next(iter(dateutil.rrulestr(without, dtstart=near.replace(second=0))), None)

    def test_random_rules(self):
        chance = random.Random(5545)
        tried = 0
        while tried < 2_000:
            text, near = random_rule(chance)
            start = self.first_of(text, near)
            if start is None:
                continue
            theirs = list(itertools.islice(dateutil.rrulestr(text, dtstart=start), 30))
            if theirs[:1] != [start]:
                continue
            tried += 1
            ours = rrule(text, start)
            self.assertEqual(list(itertools.islice(ours, 30)), theirs, (text, start))
            window = theirs[len(theirs) // 3], theirs[-1]
            self.assertEqual(ours.between(*window, inc=True), [at for at in theirs if window[0] <= at <= window[1]], (text, start, window))
            self.assertEqual(ours.before(theirs[-1]), theirs[-2] if len(theirs) > 1 else None, (text, start))


if __name__ == '__main__':
    unittest.main()
