"""Recurrence rules (RFC 5545), time zones and event listings, by the verified library khal_list.

    >>> from datetime import datetime
    >>> rrule("FREQ=WEEKLY;BYDAY=TU", datetime(2024, 1, 2, 10)).between(datetime(2024, 1, 1), datetime(2024, 1, 10))
    [datetime.datetime(2024, 1, 2, 10, 0), datetime.datetime(2024, 1, 9, 10, 0)]
"""
from ._library import Fault, LibraryError, RequestError, RuleError, ZoneError
from .listing import CalendarFault, Listing, Occurrence, listing, occurrences
from .rules import rrule, rruleset
from .zones import Zone

__all__ = [
    'CalendarFault', 'Fault', 'LibraryError', 'Listing', 'Occurrence', 'RequestError', 'RuleError', 'Zone', 'ZoneError', 'listing', 'occurrences', 'rrule',
    'rruleset']
