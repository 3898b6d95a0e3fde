"""How long the first instances of a rule take, or those of a window: by the library, and by python-dateutil where it is installed.

    rules.py

The package khal_list is that of python/, over the library that KHAL_LIST names."""
import itertools
import os
import sys
import time
from datetime import datetime

sys.path.insert(0, os.path.join(os.path.dirname(os.path.abspath(__file__)), '..', 'python'))
import khal_list  # noqa: E402

try:
    from dateutil.rrule import rrulestr
except ImportError:
    rrulestr = None

JANUARY = datetime(2026, 1, 1), datetime(2026, 2, 1)
# What is measured: a name, DTSTART, RRULE, and how many instances or which window.
CASES = [
    ('daily', '20240101T090000', 'FREQ=DAILY', 1_000),
    ('weekdays', '20240101T090000', 'FREQ=WEEKLY;BYDAY=MO,TU,WE,TH,FR', 1_000),
    ('each other week', '20240102T090000', 'FREQ=WEEKLY;INTERVAL=2;BYDAY=TU,TH;WKST=SU', 1_000),
    ('second Tuesday', '20240109T090000', 'FREQ=MONTHLY;BYDAY=2TU', 1_000),
    ('last workday', '20240131T090000', 'FREQ=MONTHLY;BYDAY=MO,TU,WE,TH,FR;BYSETPOS=-1', 1_000),
    ('29 February', '20240229T090000', 'FREQ=YEARLY', 1_000),
    ('last Sunday of October', '20241027T020000', 'FREQ=YEARLY;BYMONTH=10;BYDAY=-1SU', 1_000),
    ('hourly by day', '20240101T090000', 'FREQ=HOURLY;BYHOUR=9,10,11,12,13,14,15,16,17', 1_000),
    ('January 2026 from 1970', '19700101T090000', 'FREQ=DAILY', JANUARY),
    ('the same with COUNT=30000', '19700101T090000', 'FREQ=DAILY;COUNT=30000', JANUARY),
    ('noon by seconds', '20240101T120000', 'FREQ=SECONDLY;BYHOUR=12;BYMINUTE=0;BYSECOND=0', 5)]


def instances(rule, asked):
    return rule.between(*asked) if isinstance(asked, tuple) else list(itertools.islice(rule, asked))


def measured(make, asked):
    """The instances, and the least microseconds of some calls that take a quarter of a second or are one."""
    found, least, spent = None, None, 0.0
    while least is None or spent < 0.25:
        begun = time.perf_counter()
        found = instances(make(), asked)
        took = time.perf_counter() - begun
        least, spent = min(took, least or took), spent + took
    return found, least * 1e6


def main():
    ratios = []
    print(f'{"rule":28} {"found":>6} {"khal_list":>12} {"dateutil":>12} {"ratio":>8}')
    for name, start, rule, asked in CASES:
        first = datetime.strptime(start, '%Y%m%dT%H%M%S')
        found, ours = measured(lambda: khal_list.rrule(rule, first), asked)
        row = f'{name:28} {len(found):6} {ours:9.1f} us'
        if rrulestr:
            other, theirs = measured(lambda: rrulestr(rule, dtstart=first), asked)
            row += f' {theirs:9.1f} us {theirs / ours:8.1f}' + ('' if found == other else '  other instances')
            ratios.append(theirs / ours)
        print(row, flush=True)
    if ratios:
        print(f'From Python, khal_list takes these rules {min(ratios):.1f} to {max(ratios):.1f} times as fast as dateutil.')
    else:
        print('Not measured, because it is not installed: dateutil.')


main()
