"""Zones by zone files and VTIMEZONEs."""
import copy
import pickle
import unittest
from datetime import datetime, timedelta, timezone
from zoneinfo import ZoneInfo

from khal_list import Zone, ZoneError
from khal_list.zones import zone_bytes
from tests.test_rules import VTIMEZONE

BERLIN = ZoneInfo('Europe/Berlin')


class Zones(unittest.TestCase):
    def zones(self):
        return Zone(zone_bytes(BERLIN)), Zone(VTIMEZONE, 'Berlin')

    def test_offsets(self):
        for zone in self.zones():
            for month, hours in ((1, 1), (7, 2)):
                moment = datetime(2024, month, 1, 12, tzinfo=zone)
                self.assertEqual(moment.utcoffset(), timedelta(hours=hours))
                self.assertEqual(moment.astimezone(timezone.utc), datetime(2024, month, 1, 12 - hours, tzinfo=timezone.utc))

    def test_as_zoneinfo(self):
        """At each quarter of an hour about the changes of the clock the zones answer as zoneinfo does."""
        for zone in self.zones():
            for day in (datetime(2024, 3, 31), datetime(2024, 10, 27), datetime(2024, 6, 1)):
                for quarter in range(96):
                    shown = day + timedelta(minutes=15 * quarter)
                    for fold in (0, 1):
                        self.assertEqual(
                            shown.replace(tzinfo=zone, fold=fold).utcoffset(), shown.replace(tzinfo=BERLIN, fold=fold).utcoffset(), (shown, fold))
                    instant = shown.replace(tzinfo=timezone.utc)
                    ours, theirs = instant.astimezone(zone), instant.astimezone(BERLIN)
                    self.assertEqual((ours.replace(tzinfo=None), ours.fold), (theirs.replace(tzinfo=None), theirs.fold))

    def test_calendar(self):
        zone = Zone(f'BEGIN:VCALENDAR\r\n{VTIMEZONE}END:VCALENDAR\r\n'.encode())
        self.assertEqual(datetime(2024, 7, 1, tzinfo=zone).utcoffset(), timedelta(hours=2))

    def test_names_and_copies(self):
        zone = Zone(VTIMEZONE, 'Berlin')
        self.assertEqual(zone.tzname(None), 'Berlin')
        for other in (copy.copy(zone), pickle.loads(pickle.dumps(zone))):
            self.assertEqual((other.data, other.name), (zone.data, zone.name))

    def test_refused(self):
        for data in (b'', b'no zone', b'BEGIN:VCALENDAR\r\nEND:VCALENDAR\r\n', 'BEGIN:VTIMEZONE\r\nEND:VTIMEZONE\r\n'):
            with self.assertRaises(ZoneError) as caught:
                Zone(data)
            self.assertEqual(caught.exception.fault, 'BadZone')


if __name__ == '__main__':
    unittest.main()
