"""Writes the folders that `make bench` measures, each once, below bench/data."""
import datetime
import os

LIMIT = 16 * 1024 * 1024


def calendar(lines):
    return '\r\n'.join(['BEGIN:VCALENDAR', 'VERSION:2.0', *lines, 'END:VCALENDAR', '']).encode()


def event(number, *more):
    """An event of an hour, one after another from 2024-01-01 on, some two hundred a day."""
    day, minute = divmod(number, 200)
    month, day = divmod(day, 28)
    year, month = divmod(month, 12)
    stamp = '%04d%02d%02dT%02d%02d' % (2024 + year, month + 1, day + 1, minute // 10, minute % 10 * 5)
    return ['BEGIN:VEVENT', 'UID:%d@example.org' % number, 'DTSTAMP:20240101T000000Z',
            'DTSTART:%s00Z' % stamp, 'DURATION:PT1H', 'SUMMARY:Event %d' % number, *more, 'END:VEVENT']


def events(numbers):
    return calendar([line for number in numbers for line in event(number)])


NEW_YORK = ['BEGIN:VTIMEZONE', 'TZID:NY', 'BEGIN:STANDARD', 'DTSTART:19971026T020000', 'TZOFFSETFROM:-0400',
            'TZOFFSETTO:-0500', 'RRULE:FREQ=YEARLY;BYMONTH=11;BYDAY=1SU', 'END:STANDARD', 'BEGIN:DAYLIGHT',
            'DTSTART:19970406T020000', 'TZOFFSETFROM:-0500', 'TZOFFSETTO:-0400', 'RRULE:FREQ=YEARLY;BYMONTH=3;BYDAY=2SU',
            'END:DAYLIGHT', 'END:VTIMEZONE']


def recurring(count, start, rule, zone=(), name=''):
    """A calendar of events that begin at a moment and recur by a rule, each on a day and at a time of its own."""
    lines = [*zone]
    for number in range(count):
        stamp = start % (number % 28 + 1, number // 28 % 24, number % 60)
        lines += ['BEGIN:VEVENT', 'UID:%d@example.org' % number, 'DTSTART%s:%s' % (name, stamp), 'DURATION:PT1H',
                  'RRULE:' + rule, 'SUMMARY:Event %d' % number, 'END:VEVENT']
    return calendar(lines)


def lasting(count, start, rule, length):
    """The same, of another length."""
    return recurring(count, start, rule).replace(b'DURATION:PT1H', b'DURATION:' + length.encode())


def once(count, length):
    """Events that start once in January 2000, of one length."""
    lines = []
    for number in range(count):
        lines += ['BEGIN:VEVENT', 'UID:%d@example.org' % number, 'DTSTAMP:20000101T000000Z',
                  'DTSTART:200001%02dT%02d%02d00Z' % (number % 28 + 1, number // 28 % 24, number % 60),
                  'DURATION:' + length, 'SUMMARY:Event %d' % number, 'END:VEVENT']
    return calendar(lines)


def spaced(count, apart, length):
    """Events of dates that start once, the first on 2024-01-01, so many days apart and of one length."""
    lines = []
    for number in range(count):
        day = datetime.date(2024, 1, 1) + datetime.timedelta(number * apart)
        lines += ['BEGIN:VEVENT', 'UID:%d@example.org' % number, 'DTSTAMP:20240101T000000Z',
                  'DTSTART;VALUE=DATE:' + day.strftime('%Y%m%d'), 'DURATION:' + length, 'SUMMARY:Event %d' % number, 'END:VEVENT']
    return calendar(lines)


def day_stamp(number, hour):
    """A time of a day of 2000 or later, one day after another, each month with 28."""
    return '%04d%02d%02dT%02d0000Z' % (2000 + number // 336, number // 28 % 12 + 1, number % 28 + 1, hour)


def dates(count):
    """An event with so many further dates, and as many exceptions, every other one of a further date."""
    lines = ['BEGIN:VEVENT', 'UID:dates@example.org', 'DTSTART:19991231T100000Z', 'DURATION:PT1H', 'SUMMARY:Dates']
    lines += ['RDATE:' + day_stamp(number, 10) for number in range(count)]
    lines += ['EXDATE:' + day_stamp(number, 10 + number % 2) for number in range(count)]
    return calendar([*lines, 'END:VEVENT'])


def moved(count):
    """A daily event with so many overrides, each an hour late."""
    lines = event(0, 'RRULE:FREQ=DAILY')
    for number in range(count):
        lines += ['BEGIN:VEVENT', 'UID:0@example.org', 'RECURRENCE-ID:' + day_stamp(number, 0),
                  'DTSTART:' + day_stamp(number, 1), 'DURATION:PT1H', 'SUMMARY:Moved %d' % number, 'END:VEVENT']
    return calendar([line.replace('DTSTART:2024', 'DTSTART:2000') for line in lines])


def long_uids(size):
    """Two events that recur each second, whose UIDs are so many bytes long and differ in the last."""
    text = recurring(2, '200001%02dT%02d%02d00Z', 'FREQ=SECONDLY')
    return text.replace(b'UID:', b'UID:' + b'u' * size)


def filled(line):
    """A calendar of one event, with copies of a line in it up to the size that a file may have."""
    start, end = calendar(event(0)).split(b'END:VEVENT')
    count = (LIMIT - len(start) - len(end) - 10) // len(line)
    return start + line * count + b'END:VEVENT' + end


def unknown(count):
    return calendar(['BEGIN:X-NOTES', *('X-NOTE;X-KIND="a;b:c":line %d' % n for n in range(count)), 'END:X-NOTES'])


def weekly(count):
    return [('a.ics', recurring(count, '200001%02dT%02d%02d00Z', 'FREQ=WEEKLY'))]


def zoned_weekly(count):
    return [('a.ics', recurring(count, '200001%02dT%02d%02d00', 'FREQ=WEEKLY', NEW_YORK, ';TZID=NY'))]


def zoned(numbers):
    """A calendar of events of an hour in a time zone."""
    lines = [*NEW_YORK]
    for number in numbers:
        lines += [line.replace('DTSTART:', 'DTSTART;TZID=NY:').replace('00Z', '00') if line.startswith('DTSTART') else line
                  for line in event(number)]
    return calendar(lines)


def many(count, bad=0):
    for number in range(count):
        text = events([number])
        yield '%05d.ics' % number, text[:-20] if bad and number % bad == 0 else text


def many_weekly(count):
    for number in range(count):
        text = recurring(1, '200001%02dT%02d%02d00', 'FREQ=WEEKLY', NEW_YORK, ';TZID=NY')
        yield '%05d.ics' % number, text.replace(b'UID:0', b'UID:%d' % number)


def described(files, count):
    """So many files, each with so many events that have a DESCRIPTION, of 16 MB if it has 10,000."""
    for number in range(files):
        text = [line for at in range(count) for line in event(number * count + at, 'DESCRIPTION:' + 'text ' * 290)]
        yield '%02d.ics' % number, calendar(text)


def many_zoned(count):
    for number in range(count):
        yield '%05d.ics' % number, zoned([number])


# what is measured: a name, the files, and the words after the folder
ROWS = [
    ('an empty folder', lambda: [], ['2024-01-05', '1d']),
    ('10,000 events in one file', lambda: [('a.ics', events(range(10_000)))], ['2024-01-05', '1d']),
    ('the same, all listed', lambda: [('a.ics', events(range(10_000)))], ['2024-01-01', '2026-12-31']),
    ('10,000 files of one event', lambda: many(10_000), ['2024-01-05', '1d']),
    ('the same, one of ten bad', lambda: many(10_000, 10), ['2024-01-05', '1d']),
    ('200,000 events in 320 MB', lambda: described(20, 10_000), ['2024-01-05', '1d']),
    ('16 MiB without folds', lambda: [('a.ics', filled(b'X-NOTE;X-KIND=a:' + b'text ' * 11 + b'\r\n'))],
     ['2024-01-01', '1d']),
    ('16 MiB, a fold in each line', lambda: [('a.ics', filled(b'X-NOTE;X-KIND=a:' + b'text ' * 5 + b'\r\n '
                                                              + b'text ' * 5 + b'\r\n'))], ['2024-01-01', '1d']),
    ('400,000 lines of an unknown component', lambda: [('a.ics', unknown(400_000))], ['2024-01-05', '1d']),
    ('100,000 events in one file', lambda: [('a.ics', events(range(100_000)))], ['2024-01-05', '1d']),
    ('the same, one faulty, --keep-going', lambda: [('a.ics', events(range(100_000)).replace(b'UID:99999@', b'RRULE:x\r\nUID:99999@'))],
     ['2024-01-05', '1d', '--keep-going']),
    ('1,000 weekly rules since 2000', lambda: weekly(1_000), ['2024-01-05', '7d']),
    ('weekly rules, a window in 2500', lambda: weekly(1_000), ['2500-01-05', '7d']),
    ('5,000 weekly rules since 2000', lambda: weekly(5_000), ['2024-01-05', '7d']),
    ('1,000 zoned weekly rules since 2000', lambda: zoned_weekly(1_000), ['2024-01-05', '7d']),
    ('zoned weekly rules, a window in 2500', lambda: zoned_weekly(1_000), ['2500-01-05', '7d']),
    ('100 zones, a window in 2500', lambda: many_weekly(100), ['2500-01-05', '7d']),
    ('10,000 zoned events in one file', lambda: [('a.ics', zoned(range(10_000)))], ['2024-01-05', '1d']),
    ('2,000 files with a zone of their own', lambda: many_zoned(2_000), ['2024-01-05', '1d']),
    ('2,000 files without one', lambda: many(2_000), ['2024-01-05', '1d']),
    ('366,000 entries of 1,000 daily rules', lambda: [('a.ics', recurring(1_000, '200001%02dT%02d%02d00Z', 'FREQ=DAILY'))],
     ['2024-01-01', '366d']),
    ('the same, with a limit', lambda: [('a.ics', recurring(1_000, '200001%02dT%02d%02d00Z', 'FREQ=DAILY'))],
     ['2024-01-01', '366d', '--limit', '366000']),
    ('one minutely rule since 2000', lambda: [('a.ics', recurring(1, '200001%02dT%02d%02d00Z', 'FREQ=MINUTELY'))],
     ['2024-01-05', '1d']),
    ('a minutely rule, a window in 2500', lambda: [('a.ics', recurring(1, '200001%02dT%02d%02d00Z', 'FREQ=MINUTELY'))],
     ['2500-01-05', '1d']),
    ('two lines of a minutely rule to 9799', lambda: [('a.ics', recurring(1, '200001%02dT%02d%02d00Z', 'FREQ=MINUTELY'))],
     ['2024-01-05', '9799-12-31', '--limit', '2']),
    ('5,000 further dates and exceptions', lambda: [('a.ics', dates(5_000))], ['2014-01-05', '1d']),
    ('10,000 overrides of one event', lambda: [('a.ics', moved(10_000))], ['2014-01-05', '7d']),
    ('1,000 rules that never match', lambda: [('a.ics', recurring(1_000, '200001%02dT%02d%02d00Z',
                                                                  'FREQ=YEARLY;BYMONTH=2;BYMONTHDAY=30'))],
     ['2024-01-05', '1d']),
    ('1,000 daily rules with COUNT', lambda: [('a.ics', recurring(1_000, '200001%02dT%02d%02d00Z',
                                                                  'FREQ=DAILY;COUNT=100000'))],
     ['2024-01-05', '1d']),
    ('1,000 weekly rules with COUNT', lambda: [('a.ics', recurring(1_000, '200001%02dT%02d%02d00Z',
                                                                   'FREQ=WEEKLY;BYDAY=MO,WE,FR;COUNT=100000'))],
     ['2024-01-05', '7d']),
    ('a secondly rule at noon', lambda: [('a.ics', recurring(1, '200001%02dT%02d%02d00Z',
                                                             'FREQ=SECONDLY;BYHOUR=12;BYMINUTE=0;BYSECOND=0'))],
     ['2024-01-05', '7d']),
    ('a secondly rule that never matches', lambda: [('a.ics', recurring(1, '197001%02dT%02d%02d00Z',
                                                                        'FREQ=SECONDLY;BYMONTH=2;BYMONTHDAY=30;COUNT=2'))],
     ['2024-01-05', '1d']),
    ('places that no period has', lambda: [('a.ics', recurring(1, '192801%02dT%02d%02d00Z',
                                                               'FREQ=HOURLY;BYSETPOS=2;COUNT=2'))],
     ['2024-01-05', '1d']),
    ('a place in each second, COUNT', lambda: [('a.ics', recurring(1, '200001%02dT%02d%02d00Z',
        'FREQ=SECONDLY;BYSETPOS=1;COUNT=4000000000'))],
     ['2024-01-05T10:00', '2024-01-05T10:01']),
    ('seconds of January, COUNT', lambda: [('a.ics', recurring(1, '197001%02dT%02d%02d00Z',
        'FREQ=SECONDLY;BYMONTH=1;COUNT=2000000000'))],
     ['2024-03-05', '1d']),
    ('every 7th second of January, COUNT', lambda: [('a.ics', recurring(1, '197001%02dT%02d%02d00Z',
        'FREQ=SECONDLY;INTERVAL=7;BYMONTH=1;COUNT=2000000000'))],
     ['2024-03-05', '1d']),
    ('minutes of Friday the 13th, COUNT', lambda: [('a.ics', recurring(1, '197001%02dT%02d%02d00Z',
        'FREQ=MINUTELY;BYMONTHDAY=13;BYDAY=FR;COUNT=100000000'))],
     ['2024-01-05', '1d']),
    ('days of January, COUNT', lambda: [('a.ics', recurring(1, '197001%02dT%02d%02d00Z',
        'FREQ=DAILY;BYMONTH=1;COUNT=100000'))],
     ['2024-01-05', '1d']),
    ('last Fridays, COUNT', lambda: [('a.ics', recurring(1, '197001%02dT%02d%02d00Z',
        'FREQ=MONTHLY;BYDAY=-1FR;COUNT=100000'))],
     ['2024-01-05', '1d']),
    ('one that never matches, of 360 days', lambda: [('a.ics', recurring(1, '197001%02dT%02d%02d00Z',
        'FREQ=SECONDLY;BYMONTH=2;BYMONTHDAY=30').replace(b'PT1H', b'P360D'))],
     ['2024-01-05', '1d']),
    ('two secondly rules, UIDs of 2 MB', lambda: [('a.ics', long_uids(2_000_000))],
     ['2024-01-05T10:00', '2024-01-05T12:00']),
    ('1,000 rules of a Sunday in March', lambda: [('a.ics', recurring(1_000, '197001%02dT%02d%02d00Z',
        'FREQ=YEARLY;BYMONTH=3;BYDAY=2SU;COUNT=100000'))],
     ['2024-01-05', '1d']),
    ('1,000 rules of a last Friday', lambda: [('a.ics', recurring(1_000, '197001%02dT%02d%02d00Z',
        'FREQ=YEARLY;BYDAY=-1FR;COUNT=100000'))],
     ['2024-01-05', '1d']),
    ('1,000 rules of a numbered week', lambda: [('a.ics', recurring(1_000, '197001%02dT%02d%02d00Z',
        'FREQ=YEARLY;BYWEEKNO=20;COUNT=100000'))],
     ['2024-01-05', '1d']),
    ('1,000 rules of a Tuesday a month', lambda: [('a.ics', recurring(1_000, '197001%02dT%02d%02d00Z',
        'FREQ=MONTHLY;BYDAY=2TU;COUNT=100000'))],
     ['2024-01-05', '1d']),
    ('second Sundays in 9000, COUNT', lambda: [('a.ics', recurring(1, '197001%02dT%02d%02d00Z',
        'FREQ=MONTHLY;BYDAY=2SU;COUNT=100000'))],
     ['9000-01-05', '31d']),
    ('last Fridays of 9000, COUNT', lambda: [('a.ics', recurring(1, '197001%02dT%02d%02d00Z',
        'FREQ=YEARLY;BYDAY=-1FR;COUNT=100000'))],
     ['9000-12-05', '31d']),
    ('weeks of May in 9000, COUNT', lambda: [('a.ics', recurring(1, '197001%02dT%02d%02d00Z',
        'FREQ=WEEKLY;BYMONTH=5;COUNT=100000'))],
     ['9000-05-05', '31d']),
    ('29 February in 9000, COUNT', lambda: [('a.ics', recurring(1, '197001%02dT%02d%02d00Z',
        'FREQ=DAILY;BYMONTH=2;BYMONTHDAY=29;COUNT=100000'))],
     ['9000-01-05', '10000d']),
    ('seconds of a 31st in 9000, COUNT', lambda: [('a.ics', recurring(1, '197001%02dT%02d%02d00Z',
        'FREQ=SECONDLY;BYMONTHDAY=31;COUNT=4294967295'))],
     ['9000-01-31T10:00', '9000-01-31T10:01']),
    ('a secondly rule that never matches, in 9000', lambda: [('a.ics', recurring(1, '197001%02dT%02d%02d00Z',
        'FREQ=SECONDLY;BYMONTH=2;BYMONTHDAY=30;COUNT=2'))],
     ['9000-01-05', '1d']),
    ('hours until 1997, to 9799', lambda: [('a.ics', recurring(1, '199709%02dT%02d%02d00Z',
        'FREQ=HOURLY;INTERVAL=3;UNTIL=19970902T170000Z'))],
     ['1997-01-05', '9799-01-05']),
    ('seconds of the year 1, of 36,525 days', lambda: [('a.ics', lasting(1, '000101%02dT%02d%02d00Z',
        'FREQ=SECONDLY;UNTIL=00010102T000000Z', 'P36525D'))],
     ['2024-01-05', '1d']),
    ('seconds of 36,525 days, not started', lambda: [('a.ics', lasting(1, '000101%02dT%02d%02d00Z',
        'FREQ=SECONDLY', 'P36525D'))],
     ['2024-01-05', '1d', '--notstarted', '--limit', '1']),
    ('10,000 events, each day of a year', lambda: [('a.ics', events(range(10_000)))],
     ['2024-01-01', '366d', '--every-day']),
    ('the same, each day of ten years', lambda: [('a.ics', events(range(10_000)))],
     ['2024-01-01', '2033-12-31', '--every-day']),
    ('the same, of a hundred years', lambda: [('a.ics', events(range(10_000)))],
     ['2024-01-01', '2123-12-31', '--every-day']),
    ('the same, of a thousand years', lambda: [('a.ics', events(range(10_000)))],
     ['2024-01-01', '3023-12-31', '--every-day']),
    ('a hundred years under each day', lambda: [('a.ics', once(1, 'P36525D'))],
     ['2000-01-01', '2099-12-31', '--every-day']),
    ('1,000 of them, under a year of days', lambda: [('a.ics', once(1_000, 'P36525D'))],
     ['2024-01-01', '366d', '--every-day']),
    ('10,000 events of 30 days, 20 days apart', lambda: [('a.ics', spaced(10_000, 20, 'P30D'))],
     ['2024-01-01', '200000d', '--every-day']),
    ('10,000 events a day apart, 300,000 days', lambda: [('a.ics', spaced(10_000, 1, 'P1D'))],
     ['2024-01-01', '300000d', '--every-day']),
    ('200 weekly rules, each day of a year', lambda: weekly(200),
     ['2024-01-01', '366d', '--every-day']),
    ('the same with COUNT', lambda: [('a.ics', recurring(200, '192801%02dT%02d%02d00Z', 'FREQ=WEEKLY;COUNT=10000'))],
     ['2024-01-01', '366d', '--every-day']),
    ('200 monthly rules with COUNT, each day', lambda: [('a.ics', recurring(200, '192801%02dT%02d%02d00Z',
                                                                            'FREQ=MONTHLY;BYDAY=2TU;COUNT=100000'))],
     ['2024-01-01', '366d', '--every-day']),
    ('200 last workdays with COUNT, each day', lambda: [('a.ics', recurring(200, '192801%02dT%02d%02d00Z',
        'FREQ=MONTHLY;BYDAY=MO,TU,WE,TH,FR;BYSETPOS=-1;COUNT=100000'))],
     ['2024-01-01', '366d', '--every-day']),
    ('a yearly rule, each day of 1,000 years', lambda: [('a.ics', recurring(1, '200001%02dT%02d%02d00Z', 'FREQ=YEARLY'))],
     ['2024-01-01', '3023-12-31', '--every-day']),
]


def write(folder, files):
    """Writes the files, unless the folder is there from an earlier run."""
    if os.path.isdir(folder):
        return
    os.makedirs(folder + '.new')
    for name, text in files:
        with open(os.path.join(folder + '.new', name), 'wb') as file:
            file.write(text)
    os.rename(folder + '.new', folder)
