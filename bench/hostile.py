"""Small files that a stranger could send, each with the most that it may cost: so many times a loop that is measured in the same run, and so many MiB."""
import datetime
import os
import resource
import time

from folders import calendar
from zones import APIA, BERLIN, REPEATED, SKIPPED, part, stamps, zone

ODD = ','.join(str(number) for number in range(1, 60, 2))
MONTHS = ','.join(str(month) for month in range(1, 13))
HOURS = ','.join(str(hour) for hour in range(24))
# The first week of a year has no day of these months.
LATE = 'BYWEEKNO=1;BYMONTH=' + ','.join(str(month) for month in range(3, 12))
WEEK = 'MO,TU,WE,TH,FR,SA,SU'
DAY = ['2024-07-01', '1d']
NEW_YORK = ['--zone', 'EST5EDT,M3.2.0,M11.1.0']


def rules(count, rule, *more, end='Z'):
    """So many events since the year 0001 that recur by a rule. Their times end so."""
    lines = []
    for number in range(count):
        lines += ['BEGIN:VEVENT', 'UID:%d@example.org' % number, 'DTSTART:00010101T%02d%02d00%s' % (number // 60, number % 60, end),
                  'RRULE:' + rule, *more, 'END:VEVENT']
    return calendar(lines)


def in_zone(parts, start, *more):
    """An event in a time zone of these observances."""
    return calendar([*zone('odd', *parts), 'BEGIN:VEVENT', 'UID:0@example.org', 'DTSTART;TZID=odd:' + start, *more, 'END:VEVENT'])


def ruled(count, rule):
    """So many observances since the year 0001 that begin by a rule."""
    return [part('STANDARD', '0001%02d%02dT000000' % (number // 28 + 1, number % 28 + 1), '+0000', '+%02d%02d' % (number % 24, number // 24),
                 'RRULE:' + rule) for number in range(count)]


def skipped(rule):
    """A day that the clock skips, behind hourly onsets that another observance overrides."""
    return [part('STANDARD', '00010101T000000', '+0000', after, 'RRULE:FREQ=DAILY;BYHOUR=%s;%s' % (HOURS, rule)) for after in ('+2359', '+0000')] + [
        part('DAYLIGHT', '20240701T000000', '+0000', '+2359')]


def offset(number):
    """One of some 14,400 offsets."""
    return '%+03d%02d%02d' % (number % 24 - 12, number // 24 % 60, number // 1_440 % 10)


def many(count, onsets):
    """So many observances with an offset each and so many onsets in two days, and an event at the local of each onset."""
    at = stamps(onsets, 172_800 // onsets)
    parts = [part('STANDARD', '20230101T000000', '+0000', offset(number), 'RDATE:' + ','.join(at[number::count])) for number in range(count)]
    return in_zone(parts, '20231231T120000', 'RDATE;TZID=odd:' + ','.join(at))


def of_year(count):
    """An event at so many local times of a year."""
    return '20231231T120000', 'RDATE;TZID=odd:' + ','.join(stamps(count, 366 * 86_400 // count))


def each_day(count, before):
    """So many observances with an offset each that begin once a day, behind one offset."""
    return [part('STANDARD', '2023' + at[4:], before, offset(number), 'RRULE:FREQ=DAILY') for number, at in enumerate(stamps(count, 86_400 // count))]


def daily(count, locals_of_year):
    """So many observances with an offset each that begin once a day, and an event at so many locals of a year."""
    return in_zone(each_day(count, '+0000'), *of_year(locals_of_year))


def early(count, locals_before):
    """So many observances with an offset each that begin once a day, and an event that leaves out so many locals before all of them."""
    at = ['2020' + at[4:] for at in stamps(locals_before, 300 * 86_400 // locals_before)]
    return in_zone(each_day(count, '-2359'), '20240101T120000', 'EXDATE;TZID=odd:' + ','.join(at))


def yearly(count, locals_of_year):
    """So many observances with an offset each that begin once a year, and an event at so many locals of a year."""
    parts = [part('STANDARD', '1972' + at[4:], '+0000', offset(number), 'RRULE:FREQ=YEARLY')
             for number, at in enumerate(stamps(count, 366 * 86_400 // count))]
    return in_zone(parts, *of_year(locals_of_year))


def seconds(count, end, *more, since='20240701', name=''):
    """Lines of so many events that recur each second since a day, in the time zone of this name or in none. Their times end so."""
    start = 'DTSTART%s:%sT000000%s' % (name and ';TZID=' + name, since, end)
    return [line for number in range(count) for line in ('BEGIN:VEVENT', 'UID:%d' % number, start, 'RRULE:FREQ=SECONDLY', *more, 'END:VEVENT')]


def excluded(count, end, *before, since='20240701'):
    """So many events that recur each second since a day, of which one day is taken out, behind other lines. Their times end so."""
    return calendar([*before, *seconds(count, end, 'EXDATE;VALUE=DATE:20240701', since=since)])


def hourly(count):
    """So many observances that begin once a day, in one hour after the other."""
    return [part('STANDARD', '000101%02dT%02d0000' % (number + 1, number), '+0000', '+%02d00' % (number % 12), 'RRULE:FREQ=DAILY')
            for number in range(count)]


def once(day):
    """Two events in the morning of a day."""
    return [line for hour in ('09', '10') for line in ('BEGIN:VEVENT', 'UID:at ' + hour, 'DTSTART:%sT%s0000Z' % (day, hour), 'END:VEVENT')]


def once_each(count, *more):
    """So many events in the time zone that is called odd."""
    return [line for number in range(count) for line in ('BEGIN:VEVENT', 'UID:%d' % number, 'DTSTART;TZID=odd:19500701T000000', *more, 'END:VEVENT')]


def named_thrice(parts, *more):
    """Six events in one of three time zones of the same observances."""
    return calendar([*zone('even', *parts), *zone('odd', *parts), *zone('prime', *parts), *once_each(6, *more)])


def replaced():
    """An event with a PERIOD of ages, and what replaces it behind them."""
    return calendar(['BEGIN:VEVENT', 'UID:0', 'DTSTART:00010101T000000Z', 'RDATE;VALUE=PERIOD:00010102T000000Z/97900101T000000Z', 'END:VEVENT',
                     'BEGIN:VEVENT', 'UID:0', 'RECURRENCE-ID:00010102T000000Z', 'DTSTART:97900101T000000Z', 'END:VEVENT'])


def forward(after):
    """The clock goes forward to this offset, and back two days later."""
    return [part('STANDARD', '00010101T000000', '+0000', '+0000'), part('DAYLIGHT', '20240630T000000', '+0000', after),
            part('STANDARD', '20240702T000000', after, '+0000')]


def swung(*parts):
    """A time zone whose clock goes two days forward on the second day of the year 0001, or that of these observances."""
    return zone('odd', *(parts or (part('STANDARD', '00010101T000000', '-2359', '-2359'), part('DAYLIGHT', '00010102T000000', '-2359', '+2359'))))


def forth_and_back(frequency, forward, back):
    """The clock goes two days forward and back, each by a rule since a day of the year 0001."""
    return [part('DAYLIGHT', '000101' + forward, '-2359', '+2359', 'RRULE:FREQ=' + frequency),
            part('STANDARD', '000101' + back, '+2359', '-2359', 'RRULE:FREQ=' + frequency)]


def periods(count, zoned, *before):
    """Seconds since the year 0001 and so many PERIODs of a hundred years among them, behind other lines, in the time zone of these lines or in none."""
    first = datetime.date(1990, 1, 1)
    at = [(first + datetime.timedelta(days=9_000 * number // count)).strftime('%Y%m%dT000000') for number in range(count)]
    name = ';TZID=odd' if zoned else ''
    return calendar([*before, 'BEGIN:VEVENT', 'UID:0@example.org', 'DTSTART%s:00010101T000000' % name, 'RRULE:FREQ=SECONDLY',
                     'RDATE%s;VALUE=PERIOD:%s' % (name, ','.join(each + '/P36525D' for each in at)), 'END:VEVENT'])


def six_offsets(hours):
    """Three observances since the year 0001, ten minutes apart in these hours of each day, before and after each of which stands an offset of its own."""
    return [part('STANDARD', '00010101T00%d000' % number, '+%s' % offset, '-%s' % offset, 'RRULE:FREQ=DAILY;BYHOUR=' + hours)
            for number, offset in enumerate(('2359', '2300', '2200'))]


def turning(first, second, *rules):
    """A clock that goes from one offset to another at what the first rule gives, and back at what the second gives, each day."""
    return [part('STANDARD', '00010101T000000', before, after, 'RRULE:FREQ=DAILY;' + rule)
            for before, after, rule in zip((first, second), (second, first), rules)]


def listed(numbers):
    """The numbers as a part lists them."""
    return ','.join(map(str, numbers))


def by(hours, minutes, *seconds):
    """The parts of a rule for these hours, minutes and, if they are said, seconds."""
    return 'BYHOUR=%s;BYMINUTE=%s' % (hours, minutes) + ''.join(';BYSECOND=' + each for each in seconds)


def since_0001(count, parts, *more):
    """So many events of seconds since the year 0001 in a time zone of these observances."""
    return calendar([*swung(*parts), *seconds(count, '', *more, since='00010101', name='odd')])


def removed(count, rule):
    """An event that recurs by a rule from 1 July 2024 on, of which so many days are removed."""
    days = ','.join((datetime.date(2024, 7, 1) + datetime.timedelta(days=number)).strftime('%Y%m%d') for number in range(count))
    return calendar(['BEGIN:VEVENT', 'UID:0@example.org', 'DTSTART:20240701T000000Z', 'RRULE:' + rule, 'EXDATE;VALUE=DATE:' + days, 'END:VEVENT'])


def running(count, name, *more):
    """A start in 2018, a PERIOD of a hundred years two days later, and so many more, five minutes apart, from 1 January 2019 on."""
    starts = ['20180103T000000', *('2019' + at[4:] for at in stamps(count, 300))]
    return ['20180101T000000', 'RDATE%s;VALUE=PERIOD:' % name + ','.join(at + '/P36525D' for at in starts), *more]


def once_in(start, *more):
    """An event at this local."""
    return calendar(['BEGIN:VEVENT', 'UID:0@example.org', 'DTSTART:' + start, *more, 'END:VEVENT'])


def removed_periods(duration='P1D'):
    """Days since 1900 that last so long, and 230 PERIODs of a hundred years, 25 days apart, that EXDATEs remove."""
    at = [(datetime.date(1990, 1, 1) + datetime.timedelta(25 * number)).strftime('%Y%m%dT000000') for number in range(230)]
    return once_in('19000101T000000', 'RRULE:FREQ=DAILY', 'DURATION:' + duration, 'RDATE;VALUE=PERIOD:' + ','.join(each + '/P36525D' for each in at),
                   'EXDATE:' + ','.join(at))


def begun_periods(count, parts):
    """Days since 2020 in a time zone of these observances, and so many PERIODs of a hundred years that begin there in December 2023."""
    at = ','.join('202312%02dT%02d%02d00/P5217W' % (number % 28 + 1, number % 24, number % 60) for number in range(count))
    return calendar([*zone('odd', *parts), 'BEGIN:VEVENT', 'UID:0@example.org', 'DTSTART;TZID=odd:20200101T120000', 'RRULE:FREQ=DAILY',
                     'RDATE;VALUE=PERIOD;TZID=odd:' + at, 'END:VEVENT'])


def yearly_since(count, parts):
    """So many yearly events, from the years 2 and later on, in a time zone of these observances."""
    lines = zone('odd', *parts)
    for year in range(2, 2 + count):
        lines += ['BEGIN:VEVENT', 'UID:%d' % year, 'DTSTART;TZID=odd:%04d0701T000000' % year, 'RRULE:FREQ=YEARLY', 'END:VEVENT']
    return calendar(lines)


def in_alike(count, names, parts, *more):
    """So many events since the year 0001 in the last of time zones of the same observances, one of each name."""
    lines = [line for name in names for line in zone(name, *parts)]
    for number in range(count):
        lines += ['BEGIN:VEVENT', 'UID:%d' % number, 'DTSTART;TZID=%s:00010701T000000' % names[-1], *more, 'END:VEVENT']
    return calendar(lines)


def apart(count, rule):
    """So many observances since the year 0001, a minute apart, with an offset each, that begin by a rule."""
    return [part('STANDARD', '00010101T00%02d00' % number, '+%02d00' % (number % 23), '+%02d00' % ((number + 1) % 23), 'RRULE:' + rule)
            for number in range(count)]


def offset_each(count, gap):
    """So many observances since 1971, so many minutes apart, that begin each day, with an offset each."""
    return [part('STANDARD', '19710101T%02d%02d00' % divmod(number * gap, 60), '+0000', '+%02d%02d' % divmod(number + 1, 60), 'RRULE:FREQ=DAILY')
            for number in range(count)]


def in_turn(parts, count):
    """So many events of 36,525 days in a time zone of these observances, one an hour."""
    lines = zone('odd', *parts)
    for number in range(count):
        lines += ['BEGIN:VEVENT', 'UID:%d' % number, 'DTSTART;TZID=odd:202401%02dT%02d0000' % (number // 24 + 1, number % 24), LONG, 'END:VEVENT']
    return calendar(lines)


def together(first, second, rule):
    """Two observances since the year 0001 with an offset each that begin at the same instants by a rule."""
    return [part('STANDARD', '00010101T000000', '-0100', first, 'RRULE:' + rule), part('DAYLIGHT', '00010101T020000', '+0100', second, 'RRULE:' + rule)]


def monthly_last(count):
    """So many monthly events that count the last of some weekdays, in a time zone whose clock goes back by two days each month."""
    lines = zone('odd', part('STANDARD', '20230701T090000', '-0100', '-0400'), part('DAYLIGHT', '20250228T090000', '+2359', '-2359', 'RRULE:FREQ=MONTHLY'))
    for number in range(count):
        lines += ['BEGIN:VEVENT', 'UID:%d' % number, 'DTSTART;TZID=odd:00010101T000000',
                  'RRULE:FREQ=MONTHLY;BYDAY=1FR,1WE,-1TH,TU,5SU,MO,5SA;BYSETPOS=-1;COUNT=4294967295', 'END:VEVENT']
    return calendar(lines)


def far_apart(zones, count):
    """So many daily events a hundred years apart in each of so many time zones of two hourly observances that fall together."""
    lines = []
    for number in range(zones):
        parts = [part('STANDARD', '00010101T000000', before, after, 'RRULE:FREQ=DAILY;BYHOUR=' + HOURS)
                 for before, after in (('-0%d00' % number, '+0%d00' % (number + 1)), ('+0%d00' % (number + 1), '-0%d00' % number))]
        lines += zone('odd%d' % number, *parts)
        for year in range(count):
            lines += ['BEGIN:VEVENT', 'UID:%d-%d' % (number, year), 'DTSTART;TZID=odd%d:%04d0701T000000' % (number, 2 + 97 * year), 'RRULE:FREQ=DAILY',
                      'END:VEVENT']
    return calendar(lines)


def faulty(count):
    """So many events without a start."""
    return calendar([line for number in range(count) for line in ('BEGIN:VEVENT', 'UID:%d' % number, 'END:VEVENT')])


LONG = 'DURATION:P36525D'
PAST = 'UNTIL=00010102T000000Z'
YESTERDAY = 'RRULE:FREQ=SECONDLY;UNTIL=20240602T000000Z'
ODD_SECONDS = 'FREQ=SECONDLY;INTERVAL=2;BYSECOND=%s;BYMONTH=%s' % (ODD, MONTHS)
EACH = ','.join(str(number) for number in range(60))
EVEN = ','.join(str(number) for number in range(0, 60, 2))
FIFTEEN = HOURS[:HOURS.index(',15')]
SIX_HOURLY = six_offsets('0,6,12,18')
EACH_OTHER_SECOND = turning('+2359', '-2359', by(FIFTEEN, EACH, EVEN), by(FIFTEEN, EACH, ODD))
EACH_OTHER_MINUTE = [part('STANDARD', '00010101T000000', '+0000', after, 'RRULE:FREQ=DAILY;' + by(HOURS, minutes))
                     for after, minutes in (('+2359', EACH), ('-2359', EVEN))]
HOURS_OF_MONDAY = [part('STANDARD', '00010101T000000', '-2359', '+2359', 'RRULE:FREQ=YEARLY;BYDAY=MO;BYHOUR=0,1,2;BYSECOND=' + EACH)]
SELDOM = 'FREQ=DAILY;COUNT=4294967295;INTERVAL=1009;BYWEEKNO=1'
# Times of a day of which few steps of a multiple of seven seconds have one.
SEVENTHS = 'BYHOUR=%s;BYMINUTE=5,%s;BYSECOND=%s' % tuple(
    listed(n for n in range(size) if n % 7 in rests and n != 5) for size, rests in ((24, (0, 3)), (60, (0, 2)), (60, (1, 2))))
AGES = ['0001-01-05', '3570000d', '--every-day', '--limit', '1']
QUARTER = ['2024-07-01', '92d', '--limit', '1']
EXCLUDED = 'EXDATE;VALUE=DATE:' + ','.join('2024%02d%02d' % (month, day) for month in (7, 8, 9) for day in range(1, 32 - month // 9))
LEAP_MONDAY = [part('STANDARD', '00010101T000000', '-2359', '+2359', 'RRULE:FREQ=YEARLY;BYYEARDAY=366;BYDAY=MO')]
# The last day of a leap year.
LEAP_END = [part('STANDARD', '0001010%dT0000%02d' % (number + 1, number), '-2359', '+%02d00' % (number * 23), 'RRULE:FREQ=YEARLY;BYDAY=%s;BYSETPOS=366' % WEEK)
            for number in range(2)]
LONG_AGO = 'RDATE;VALUE=DATE:' + ','.join('1000%02d%02d' % (month, day) for month in range(1, 11) for day in range(1, 21, 2))
RARE = ','.join((datetime.date(1024, 1, 1) + datetime.timedelta(36 * number)).strftime('%Y%m%dT120000Z') for number in range(10_000))
THIRTY = 'EXDATE;TZID=odd:' + ','.join('%04d0701T000000' % year for year in range(1600, 2200, 20))
FAR = 'RDATE;TZID=odd:' + ','.join('%04d0701T120000' % year for year in range(2100, 8100, 150))
# A month has one first Monday, and no week has two of these days.
NO_MONDAY = 'FREQ=MONTHLY;BYDAY=1MO;BYSETPOS=2'
NO_WEEK = 'FREQ=WEEKLY;BYMONTHDAY=1,8,15,22;BYDAY=%s;BYSETPOS=2' % WEEK
# Steps of seven seconds, none of which is at these times on these days of the week.
NO_SECOND = 'FREQ=SECONDLY;INTERVAL=7;BYDAY=SA,SU;%s;BYYEARDAY=%s' % (
    by(*(','.join(str(number) for number in range(count) if number % 7 in rests) for count, rests in ((24, (0, 1, 4)), (60, (0, 2, 4)), (60, (0,))))),
    ','.join(str(day) for day in range(1, 151)))
PLACES = 'FREQ=MINUTELY;BYSECOND=%s;BYSETPOS=%s;COUNT=4294967295' % (EACH, EACH[2:] + ',60')

# name, file, words, how many loops it may take, and how many MiB
ROWS = [
    ('seconds of the year 1, 36,525 days long', lambda: rules(1, 'FREQ=SECONDLY;' + PAST, LONG), DAY, 1, 32),
    ('minutes of it', lambda: rules(1, 'FREQ=MINUTELY;' + PAST, LONG), DAY, 1, 32),
    ('seconds of it by 8 clocks of New York', lambda: rules(8, 'FREQ=SECONDLY;' + PAST, end=''), [*DAY, *NEW_YORK], 1, 32),
    ('seconds of it, each day of a year', lambda: rules(1, 'FREQ=SECONDLY;' + PAST), ['2024-01-01', '366d', '--every-day'], 1, 32),
    ('seconds of it beside a long PERIOD', lambda: rules(1, 'FREQ=SECONDLY;' + PAST, 'RDATE;VALUE=PERIOD:00010101T000000Z/20240801T000000Z'), DAY, 1, 32),
    ('seconds without an end beside it, limit 1', lambda: rules(1, 'FREQ=SECONDLY', 'RDATE;VALUE=PERIOD:00010101T000000Z/20240801T000000Z'),
     [*DAY, '--limit', '1'], 1, 32),
    ('seconds that have not started, limit 1', lambda: rules(1, 'FREQ=SECONDLY', LONG), [*DAY, '--notstarted', '--limit', '1'], 1, 32),
    ('two events before millions of days', lambda: calendar(once('00010102')), AGES, 1, 32),
    ('two events at their end', lambda: calendar(once('97980102')), AGES, 1, 32),
    ('an event and a further date behind millions of days',
     lambda: calendar(['BEGIN:VEVENT', 'UID:0@example.org', 'DTSTART:97000101T000000Z', 'RDATE:97010701T120000Z', 'END:VEVENT']), AGES, 1, 32),
    ('minutes of a hundred years, each day, limit 1', lambda: rules(1, 'FREQ=MINUTELY', LONG), [*DAY, '--every-day', '--limit', '1'], 1, 32),
    ('the same in New York', lambda: rules(1, 'FREQ=MINUTELY', LONG), [*DAY, '--every-day', '--limit', '1', *NEW_YORK], 1, 32),
    ('minutes that have not started, each day', lambda: rules(1, 'FREQ=MINUTELY', LONG), [*DAY, '--every-day', '--notstarted'], 1, 32),
    ('odd seconds of even steps', lambda: rules(1, ODD_SECONDS, LONG), DAY, 1, 32),
    ('the same with COUNT', lambda: rules(1, ODD_SECONDS + ';COUNT=9', LONG), DAY, 1, 32),
    ('8 in no week of their months', lambda: rules(8, 'FREQ=DAILY;' + LATE), ['0001-01-02', '9700-01-01'], 1, 32),
    ('80 in no week of their months', lambda: rules(80, 'FREQ=DAILY;' + LATE), ['0001-01-02', '9700-01-01'], 8, 32),
    ('seconds that never match beside 3 starts of 36,525 days, under COUNT, each day', lambda: rules(3, ODD_SECONDS + ';COUNT=9', LONG),
     ['0001-01-03', '36600d', '--every-day'], 1, 32),
    ('2 of all days of all weeks beside an RDATE, each of 366,000 days',
     lambda: rules(2, 'FREQ=YEARLY;BYWEEKNO=%s;BYDAY=%s' % (','.join(str(week) for week in range(1, 54)), WEEK), 'RDATE:20000509T000000Z'),
     ['2024-01-01', '366000d', '--every-day'], 8, 32),
    ('8 on the 1st and a fifth Monday, each day', lambda: rules(8, 'FREQ=MONTHLY;BYMONTHDAY=1;BYDAY=5MO'), AGES, 8, 32),
    ('6 at one second in 86,399 days, each day', lambda: rules(6, 'FREQ=SECONDLY;INTERVAL=86399;BYMONTHDAY=1;' + by('1', '1', '1')), AGES, 8, 32),
    ('one second in seven days, 36,525 days long, each day', lambda: rules(1, 'FREQ=SECONDLY;INTERVAL=604799;BYDAY=TU;' + by('1', '1', '1'), LONG),
     ['0201-01-01', '3490000d', '--every-day', '--limit', '1'], 1, 32),
    ('a PERIOD of ages that an override replaces, each day', replaced, AGES, 1, 32),
    ('one in 1,009 days, COUNT, each day', lambda: rules(1, SELDOM.replace('4294967295', '9')), ['2024-01-01', '366d', '--every-day'], 1, 32),
    ('82 on leap days in steps of 59 seconds, COUNT, in 9700',
     lambda: rules(82, 'FREQ=SECONDLY;INTERVAL=59;BYYEARDAY=366;BYHOUR=1;COUNT=999999'), ['9700-01-01', '1d', '--limit', '1'], 8, 32),
    ('81 in three weeks in steps of 1,031 seconds, COUNT, in 9700',
     lambda: rules(81, 'FREQ=SECONDLY;INTERVAL=1031;BYWEEKNO=1,9,19;COUNT=9999999'), ['9700-01-01', '1d', '--limit', '1'], 16, 32),
    ('8 observances that never begin', lambda: in_zone(ruled(8, 'FREQ=DAILY;' + LATE), '20240101T120000', FAR), DAY, 1, 32),
    ('an observance with COUNT', lambda: in_zone(ruled(1, SELDOM), '20240701T120000'), DAY, 1, 32),
    ('the same in 9700', lambda: in_zone(ruled(1, SELDOM), '97000701T120000'), ['9700-07-01', '1d'], 1, 32),
    ('minutes by it', lambda: in_zone(ruled(1, SELDOM), '20240630T120000', 'RRULE:FREQ=MINUTELY'), DAY, 1, 32),
    ('a skipped day behind hours with COUNT', lambda: in_zone(skipped('COUNT=17737609'), '20240701T000000', 'RRULE:FREQ=MINUTELY;COUNT=60'),
     ['2024-06-30', '4d'], 1, 32),
    ('8 daily observances, seconds long past', lambda: in_zone(hourly(8), '20240601T000000', YESTERDAY), DAY, 1, 32),
    ('16 daily observances, seconds long past', lambda: in_zone(hourly(16), '20240601T000000', YESTERDAY), DAY, 1, 32),
    ('8 observances that COUNT ends', lambda: in_zone(ruled(8, 'FREQ=DAILY;COUNT=12345;BYWEEKNO=1'), '20240701T120000'), DAY, 4, 32),
    ('80 observances that COUNT ends', lambda: in_zone(ruled(80, 'FREQ=DAILY;COUNT=12345;BYWEEKNO=1'), '20240701T120000'), DAY, 8, 32),
    ('1,200 observances, 4,800 locals', lambda: many(1_200, 4_800), ['2023-12-31', '4d'], 1, 32),
    ('4,800 observances, 19,200 locals', lambda: many(4_800, 19_200), ['2023-12-31', '4d'], 1, 32),
    ('600 daily observances, 2,400 locals', lambda: daily(600, 2_400), ['2024-01-01', '366d'], 4, 32),
    ('the same, a day of December', lambda: daily(600, 2_400), ['2024-12-30', '1d'], 2, 32),
    ('1,200 daily observances, 4,800 locals, a day of December', lambda: daily(1_200, 4_800), ['2024-12-30', '1d'], 4, 32),
    ('480 locals before 120 daily observances', lambda: early(120, 480), ['2024-12-30', '1d'], 1, 32),
    ('1,200 yearly observances, 4,800 locals', lambda: yearly(1_200, 4_800), ['2024-01-01', '366d'], 1, 32),
    ('seconds of a day that is skipped', lambda: in_zone(skipped('UNTIL=20240630T235900Z'), '20240701T000000', 'RRULE:FREQ=SECONDLY;COUNT=86400'),
     ['2024-06-30', '4d'], 1, 32),
    ('seconds beside a day that is skipped', lambda: in_zone(forward('+2359'), '20240629T000000', 'RRULE:FREQ=SECONDLY'), DAY, 8, 32),
    ('odd seconds behind even ones', lambda: in_zone(forward('+235901'), '20240629T000000', 'RRULE:FREQ=SECONDLY;INTERVAL=2'), DAY, 8, 32),
    ('seconds of 2 rules, limit 1', lambda: calendar(seconds(2, 'Z')), [*DAY, '--limit', '1'], 1, 32),
    ('seconds of an excluded day, 4 rules', lambda: excluded(4, 'Z'), DAY, 4, 24),
    ('seconds of 8 rules, limit 1', lambda: excluded(8, 'Z'), ['2024-07-01', '10d', '--limit', '1'], 4, 32),
    ('the same by the clock of New York', lambda: excluded(8, ''), ['2024-07-01', '10d', '--limit', '1', *NEW_YORK], 1, 32),
    ('an excluded day by the clock of New York', lambda: excluded(64, ''), [*DAY, *NEW_YORK], 4, 24),
    ('the same of rules since 2020', lambda: excluded(64, '', since='20200101'), [*DAY, *NEW_YORK], 4, 24),
    ('the same by the zone file of Berlin', lambda: excluded(64, '', since='20200101'), [*DAY, '--zone-file', BERLIN], 8, 24),
    ('92 excluded days by it, limit 1', lambda: rules(1, 'FREQ=SECONDLY', EXCLUDED, end=''),
     ['2024-07-01', '92d', '--limit', '1', '--zone-file', BERLIN], 4, 24),
    ('92 excluded days by it, each day', lambda: rules(1, 'FREQ=SECONDLY', EXCLUDED, end=''), [*QUARTER, '--every-day', '--zone-file', BERLIN], 1, 32),
    ('92 excluded days by the clock of New York, each day', lambda: rules(1, 'FREQ=SECONDLY', EXCLUDED, end=''), [*QUARTER, '--every-day', *NEW_YORK], 1, 32),
    ('92 excluded days by a clock that skipped a day', lambda: rules(1, 'FREQ=SECONDLY', EXCLUDED, end=''), [*QUARTER, '--zone-file', SKIPPED], 1, 32),
    ('92 excluded days by such a clock, each day', lambda: rules(1, 'FREQ=SECONDLY', EXCLUDED, end=''),
     [*QUARTER, '--every-day', '--zone-file', SKIPPED], 1, 32),
    ('12 rules by a clock that skipped a day', lambda: rules(12, 'FREQ=SECONDLY', end=''),
     [*DAY, '--every-day', '--limit', '1', '--zone-file', SKIPPED], 4, 32),
    ('sixty onsets once a year, seconds 36,525 days long',
     lambda: in_zone([part('STANDARD', '00010101T000000', '+0000', '+0000', 'RRULE:FREQ=YEARLY;BYSECOND=' + EACH)], '00010101T000000', 'RRULE:FREQ=SECONDLY',
                     LONG), [*DAY, '--limit', '1'], 4, 32),
    ('200 PERIODs by a clock that skipped two days', lambda: periods(200, True, *swung()), DAY, 4, 32),
    ('200 PERIODs by a clock that skipped a day', lambda: periods(200, False), [*DAY, '--zone-file', SKIPPED], 4, 32),
    ('25 PERIODs by a clock that goes forth and back daily', lambda: periods(25, True, *swung(*forth_and_back('DAILY', '01T120000', '01T000000'))), DAY, 4, 32),
    ('25 PERIODs by a clock that skips two days a week', lambda: periods(25, True, *swung(*forth_and_back('WEEKLY', '04T000000', '01T000000'))), DAY, 4, 32),
    ('92 excluded days by a clock that skips two days a week',
     lambda: in_zone(forth_and_back('WEEKLY', '04T000000', '01T000000'), '20240101T000000', 'RRULE:FREQ=SECONDLY', EXCLUDED), [*QUARTER, '--every-day'], 8, 32),
    ('18 PERIODs by a clock of six offsets', lambda: periods(18, True, *swung(*SIX_HOURLY)), DAY, 4, 32),
    ('24 excluded days by it, each day',
     lambda: in_zone(SIX_HOURLY, '20240701T000000', 'RRULE:FREQ=SECONDLY', EXCLUDED[:EXCLUDED.index(',20240725')]),
     ['2024-07-01', '24d', '--limit', '1', '--every-day'], 4, 32),
    ('3 rules of 36,525 days by it', lambda: since_0001(3, six_offsets(HOURS), LONG), [*DAY, '--limit', '1'], 4, 32),
    ('100 rules of two days by the clock of New York', lambda: rules(100, 'FREQ=SECONDLY', 'DURATION:P2D', end=''), [*DAY, '--limit', '1', *NEW_YORK], 4, 32),
    ('5,000 days by a clock that turns in three hours of a Monday', lambda: since_0001(1, HOURS_OF_MONDAY, 'DURATION:P5000D'), [*DAY, '--limit', '1'], 4, 32),
    ('seconds by a clock that turns each second', lambda: since_0001(1, EACH_OTHER_SECOND), [*DAY, '--limit', '1'], 8, 32),
    ('12 events of seconds by it', lambda: since_0001(12, EACH_OTHER_SECOND), [*DAY, '--limit', '1'], 8, 32),
    ('a second each by a clock that turns each minute', lambda: since_0001(1, EACH_OTHER_MINUTE, 'DURATION:PT1S'), [*DAY, '--limit', '1'], 4, 32),
    ('90 events of a second by a clock that turns each second', lambda: since_0001(90, EACH_OTHER_SECOND, 'DURATION:PT1S'), [*DAY, '--limit', '1'], 40, 256),
    ('seconds with DTEND by a clock that turns on a Monday at a leap year\'s end',
     lambda: in_zone(LEAP_MONDAY, '19500701T000000', 'DTEND;TZID=odd:19500701T000001', 'RRULE:FREQ=SECONDLY'), [*DAY, '--limit', '1000'], 1, 32),
    ('days of 36,525 days by it', lambda: in_zone(LEAP_MONDAY, '00010701T000000', 'RRULE:FREQ=DAILY', LONG), [*DAY, '--limit', '1000'], 1, 32),
    ('30 excluded instants by it, each day of a hundred years', lambda: in_zone(LEAP_MONDAY, '00010101T000000', 'RRULE:FREQ=DAILY', THIRTY),
     ['2024-01-01', '36525d', '--every-day'], 2, 32),
    ('6 events of 36,525 days by it, each day', lambda: calendar([*swung(*LEAP_MONDAY), *once_each(6, LONG)]),
     ['1960-01-01', '30000d', '--every-day', '--notstarted', '--limit', '1'], 1, 32),
    ('the same beside two time zones like it', lambda: named_thrice(LEAP_MONDAY, LONG),
     ['1960-01-01', '30000d', '--every-day', '--notstarted', '--limit', '1'], 1, 32),
    ('days of 36,525 days by a clock that turns as leap years end', lambda: in_zone(LEAP_END, '00010701T000000', 'RRULE:FREQ=DAILY', LONG), DAY, 1, 32),
    ('the same by 65 clocks that turn on a Monday at a leap year\'s end',
     lambda: in_zone(ruled(65, 'FREQ=YEARLY;BYYEARDAY=366;BYDAY=MO'), '00010701T000000', 'RRULE:FREQ=DAILY', LONG), DAY, 4, 32),
    ('days and 100 further dates of the year 1000, each day of ages by the clock of New York',
     lambda: calendar(['BEGIN:VEVENT', 'UID:0@example.org', 'DTSTART;VALUE=DATE:00010101', 'RRULE:FREQ=DAILY', LONG_AGO, 'END:VEVENT']),
     ['2024-01-01', '200000d', '--every-day', *NEW_YORK], 8, 32),
    ('12 rules behind a day that the clock skipped, each day',
     lambda: calendar(seconds(12, '', since='18441221')), ['1845-01-01', '9d', '--limit', '1', '--every-day', '--notstarted', '--zone-file', SKIPPED], 8, 64),
    ('127 rules since the day that the clock of Apia skipped, each day',
     lambda: calendar(seconds(127, '', since='20111230')), ['2011-12-29', '9d', '--limit', '1', '--every-day', '--zone-file', APIA], 20, 256),
    ('127 rules since the day behind it, each day',
     lambda: calendar(seconds(127, '', since='20111231')), ['2011-12-29', '9d', '--limit', '1', '--every-day', '--zone-file', APIA], 1, 32),
    ('77 rules of a day behind the day that a clock showed twice, each day',
     lambda: calendar(seconds(77, '', 'DURATION:P1D', 'EXDATE;VALUE=DATE:18671018,18671019', since='18671018')),
     ['1867-10-17', '9d', '--limit', '1', '--every-day', '--zone-file', REPEATED], 1, 32),
    ('64 rules behind what is listed, limit 1', lambda: excluded(64, '', *once('20240628')),
     ['2024-06-28', '10d', '--limit', '1', *NEW_YORK], 1, 32),
    ('125 rules before their first day, each day', lambda: calendar(seconds(125, 'Z')), ['2024-06-29', '9d', '--limit', '1', '--every-day'], 1, 32),
    ('100 rules of a day before it by the clock of New York, each day', lambda: calendar(seconds(100, '', 'DURATION:P1D')),
     ['2024-06-29', '9d', '--limit', '1', '--every-day', *NEW_YORK], 4, 32),
    ('dates under COUNT by a rule of seconds, a hundred years',
     lambda: calendar(['BEGIN:VEVENT', 'UID:0@example.org', 'DTSTART;VALUE=DATE:20230101', 'RRULE:FREQ=SECONDLY;COUNT=4294967295', 'END:VEVENT']),
     ['2024-01-01', '36525d'], 2, 32),
    ('a second of each day under COUNT, 4 rules, each day of ten years',
     lambda: rules(4, 'FREQ=SECONDLY;BYHOUR=7;BYMINUTE=3;BYSECOND=0;COUNT=4294967295'), ['2024-01-01', '3660d', '--every-day'], 4, 32),
    ('months without a day, 36,525 days long, each day of a hundred years', lambda: rules(1, NO_MONDAY, LONG, 'RDATE:20240101T000000Z'),
     ['2024-01-02', '36500d', '--every-day'], 2, 32),
    ('5 rules of weeks without a day, 36,525 days long, COUNT, each day of a year', lambda: rules(5, NO_WEEK + ';COUNT=9999', LONG, 'RDATE:20240101T000000Z'),
     ['2024-01-02', '366d', '--every-day'], 2, 32),
    ('weeks without a day beside a PERIOD of ages, each day of a hundred years',
     lambda: rules(1, NO_WEEK, 'RDATE;VALUE=PERIOD:00010102T000000Z/97900101T000000Z'), ['2024-01-02', '36500d', '--every-day'], 4, 32),
    ('6 rules of seconds that seldom match, 31 days long, each day of a hundred years',
     lambda: rules(6, 'FREQ=SECONDLY;INTERVAL=1637;BYMINUTE=7,37;BYSECOND=0', 'DURATION:P31D'), ['2024-01-02', '36525d', '--every-day'], 8, 32),
    ('places of each minute under COUNT, 55 removed days, each day', lambda: removed(55, PLACES), ['2024-07-01', '55d', '--limit', '1', '--every-day'], 1, 32),
    ('seconds under COUNT, 94 removed days, each day', lambda: removed(94, 'FREQ=SECONDLY;COUNT=4294967295'),
     ['2024-07-01', '94d', '--limit', '1', '--every-day'], 1, 32),
    ('15 PERIODs of a hundred years on a removed day, by two clocks that turn as leap years end, each day of ten years',
     lambda: in_zone(LEAP_END, *running(15, ';TZID=odd', 'EXDATE;VALUE=DATE:20190101')), ['2024-01-01', '3660d', '--every-day'], 4, 32),
    ('220 PERIODs of a hundred years and as many exceptions at them, by the clock of New York, each day of ten years',
     lambda: once_in(*running(220, '', 'EXDATE:' + ','.join('2019' + at[4:] for at in stamps(220, 300)))),
     ['2024-01-01', '3660d', '--every-day', *NEW_YORK], 8, 32),
    ('230 PERIODs of a hundred years that exceptions remove from days since 1900, each day of a hundred years by the clock of New York', removed_periods,
     ['2024-01-01', '36525d', '--every-day', *NEW_YORK], 37, 32),
    ('230 PERIODs of a hundred years that exceptions remove from days of 25 hours, each day of a thousand years', lambda: removed_periods('P1DT1H'),
     ['1924-06-01', '366000d', '--every-day'], 8, 32),
    ('150 PERIODs of a hundred years that have begun in a time zone of 60 daily observances, left out of each day of a hundred years',
     lambda: begun_periods(150, offset_each(60, 24)), ['2024-01-02', '36525d', '--every-day', '--notstarted'], 24, 32),
    ('450 further dates since 1700 behind a PERIOD of ages, each day of a hundred years by the clock of New York',
     lambda: once_in('16990101T000000', 'RDATE;VALUE=PERIOD:16990102T000000/97900101T000000',
                     'RDATE:' + ','.join('%d%02d01T120000' % (year, month) for year in range(1700, 2000, 8) for month in range(1, 13))),
     ['2024-01-01', '36525d', '--every-day', *NEW_YORK], 8, 32),
    ('days of 36,525 days by two clocks that turn each second of a 29 February that is a Monday',
     lambda: in_zone(ruled(2, 'FREQ=MONTHLY;BYMONTHDAY=29;BYMONTH=2;BYDAY=MO;' + by(HOURS, EACH, EACH)), '00010701T000000', 'RRULE:FREQ=DAILY', LONG),
     DAY, 2, 32),
    ('56 events since the year 2 in a zone of 26 observances by places in a year, a window of ages, limit 1',
     lambda: yearly_since(56, ruled(26, 'FREQ=YEARLY;BYDAY=%s;BYSETPOS=%s' % (WEEK, ','.join(str(day) for day in range(1, 362, 30))))),
     AGES[:2] + AGES[3:], 24, 32),
    ('7 rules of seconds that seldom are at three times of a day, a window of ages',
     lambda: rules(7, 'FREQ=SECONDLY;INTERVAL=28001;BYHOUR=1,9,17;BYMINUTE=0;BYSECOND=0'), AGES[:2], 1, 32),
    ('seconds that seldom are at three minutes of an hour, a window of ages',
     lambda: rules(1, 'FREQ=SECONDLY;INTERVAL=1009;BYMINUTE=7,27,47;BYSECOND=0'), AGES[:2], 8, 32),
    ('seconds that never match beside days of the year, a window of ages', lambda: rules(1, NO_SECOND), AGES[:2], 1, 32),
    ('the same under COUNT', lambda: rules(1, NO_SECOND + ';COUNT=9'), AGES[:2], 1, 32),
    ('55 observances of weeks without a day under COUNT', lambda: in_zone(ruled(55, NO_WEEK + ';COUNT=9'), '20240701T000000'), DAY, 8, 32),
    ('590 further dates about the start of a PERIOD of ages, each day of a hundred years by the clock of New York',
     lambda: once_in('20200101T000000', 'RDATE;VALUE=PERIOD:20190103T000000/97900101T000000', 'RDATE:' + ','.join('2019' + at[4:] for at in stamps(590, 180))),
     ['2024-01-01', '36525d', '--every-day', *NEW_YORK], 12, 32),
    ('20 PERIODs of a hundred years in a time zone of its own by places in a year, DTSTART in UTC, each day of ten years',
     lambda: calendar([*zone('odd', *ruled(1, 'FREQ=YEARLY;BYDAY=%s;BYSETPOS=366' % WEEK)), 'BEGIN:VEVENT', 'UID:0@example.org', 'DTSTART:19500101T000000Z',
                       'RDATE;TZID=odd;VALUE=PERIOD:' + ','.join('%d0105T000000/P36525D' % year for year in range(1950, 1970)), 'END:VEVENT']),
     ['2024-01-02', '3660d', '--every-day'], 2, 32),
    ('2 events of 36,525 days in one of three time zones alike that turn each minute of half an hour, three days a year',
     lambda: in_alike(2, ['even', 'odd', 'prime'], [part('STANDARD', '00010101T000000', '-0100', '+0100', 'RRULE:FREQ=YEARLY;BYMONTHDAY=1,2,3;BYMINUTE='
                      + ','.join(str(minute) for minute in range(30)))], LONG, 'RRULE:FREQ=DAILY'), DAY, 2, 32),
    ('4 events of a hundred years since the year 1 in a time zone of its own by 52 places in a year of hours, a window of ages',
     lambda: in_alike(4, ['odd'], ruled(1, 'FREQ=YEARLY;BYDAY=%s;BYHOUR=%s;BYSETPOS=%s' % (WEEK, HOURS, ','.join(str(hour) for hour in range(7, 366, 7)))),
                      LONG, 'RRULE:FREQ=YEARLY'), AGES[:2], 4, 32),
    ('8 events a hundred years apart in each of 9 time zones of hourly observances, a window of ages, limit 1', lambda: far_apart(9, 8),
     AGES[:2] + AGES[3:], 24, 32),
    ('seconds by sevens that seldom match on three weekdays, a window of ages',
     lambda: rules(1, 'FREQ=SECONDLY;INTERVAL=7063;BYDAY=FR,SA,SU;' + SEVENTHS), AGES[:2], 4, 32),
    ('3 such rules, each day of a hundred years', lambda: rules(3, 'FREQ=SECONDLY;INTERVAL=707;BYDAY=FR,SA,SU;' + SEVENTHS),
     ['2024-07-01', '36525d', '--every-day'], 2, 32),
    ('7 rules of seconds that seldom are at the beginning of a minute of five hours, a window of ages',
     lambda: rules(7, 'FREQ=SECONDLY;INTERVAL=28001;BYHOUR=1,6,11,16,21;BYSECOND=0'), AGES[:2], 4, 32),
    ('7 rules of minutes that seldom are at a full hour, a window of ages', lambda: rules(7, 'FREQ=MINUTELY;INTERVAL=719;BYHOUR=3,15;BYMINUTE=0'),
     AGES[:2], 1, 32),
    ('6 rules of seconds that seldom match in a month, under COUNT, each day of a thousand years',
     lambda: rules(6, 'FREQ=SECONDLY;INTERVAL=773;BYMONTH=11;BYMINUTE=2;BYSECOND=27;COUNT=1000'), ['0001-01-05', '366000d', '--every-day'], 1, 32),
    ('7 rules of seconds that seldom match on the first day of a year, under COUNT, each day of a thousand years',
     lambda: rules(7, 'FREQ=SECONDLY;INTERVAL=343;BYYEARDAY=1;BYSECOND=58;COUNT=4294967295'), ['0001-01-05', '366000d', '--every-day'], 2, 32),
    ('6 rules of seconds that seldom are in a minute of an hour on the first day of a month, a window of ages',
     lambda: rules(6, 'FREQ=SECONDLY;INTERVAL=8401;BYDAY=MO,TU,WE,TH,FR,SA;BYMINUTE=8;BYMONTHDAY=1'), AGES[:2], 8, 32),
    ('seconds of twenty minutes of three hours on a Monday, a window of ages',
     lambda: rules(1, 'FREQ=SECONDLY;INTERVAL=3607;BYDAY=MO;BYHOUR=0,1,2;BYMINUTE=' + listed(range(0, 60, 3))), AGES[:2], 4, 32),
    ('3 events of 36,525 days in a time zone of 4 observances that each begin each day of a year',
     lambda: in_alike(3, ['odd'], apart(4, 'FREQ=YEARLY;BYDAY=' + WEEK), LONG, 'RRULE:FREQ=DAILY'), DAY, 4, 32),
    ('each tenth day in that zone, a window of ages', lambda: in_alike(1, ['odd'], apart(4, 'FREQ=YEARLY;BYDAY=' + WEEK), 'RRULE:FREQ=DAILY;INTERVAL=10'),
     AGES[:2], 6, 32),
    ('2 events of 36,525 days in a time zone of 4 observances that each begin on the odd days of a month',
     lambda: in_alike(2, ['odd'], apart(4, 'FREQ=YEARLY;BYMONTHDAY=' + listed(range(1, 32, 2))), LONG, 'RRULE:FREQ=DAILY'), DAY, 4, 32),
    ('each tenth day in a time zone of 7 daily observances, a window of ages',
     lambda: in_alike(1, ['odd'], apart(7, 'FREQ=DAILY'), 'RRULE:FREQ=DAILY;INTERVAL=10'), AGES[:2], 8, 32),
    ('10 events of 36,525 days in a time zone of 20 daily observances', lambda: in_alike(10, ['odd'], apart(20, 'FREQ=DAILY'), LONG, 'RRULE:FREQ=DAILY'),
     DAY, 20, 32),
    ('5 events of 36,525 days in a time zone of two observances that begin together on each day of ten weeks of a year',
     lambda: in_alike(5, ['odd'], together('-1200', '-2359', 'FREQ=YEARLY;BYWEEKNO=1,3,18,19,22,36,48,49,50,53;BYDAY=' + WEEK), LONG, 'RRULE:FREQ=DAILY'),
     DAY, 4, 32),
    ('4 yearly events in a time zone that begins each second of twenty minutes of some Thursdays, a window of ages',
     lambda: in_alike(4, ['odd'], apart(1, 'FREQ=YEARLY;BYMONTHDAY=-31,-12,6,8,19;BYWEEKNO=-6,9,13,16,24,25,37,42,47,52;BYDAY=TH;' + by(
         '0', listed(range(20)), EACH)), LONG, 'RRULE:FREQ=YEARLY'), AGES[:2], 4, 32),
    ('an event each nine years in a time zone of two observances that begin together each hour of all weeks of a year',
     lambda: in_alike(1, ['odd'], together('+0100', '-0100', 'FREQ=YEARLY;BYWEEKNO=%s;BYDAY=%s;BYHOUR=%s;BYMINUTE=0,30' % (
         listed(range(1, 54)), WEEK, HOURS)), 'RRULE:FREQ=YEARLY;INTERVAL=9'), ['2024-01-01', '36525d'], 8, 32),
    ('6 yearly events in a time zone that begins on some Wednesdays that end a month, a window of ages',
     lambda: in_alike(6, ['odd'], apart(1, 'FREQ=DAILY;INTERVAL=29;BYMONTHDAY=31;BYDAY=WE'), LONG, 'RRULE:FREQ=YEARLY'), AGES[:2], 4, 32),
    ('3 rules of all days of all weeks of a year, each day of a hundred years',
     lambda: rules(3, 'FREQ=YEARLY;BYWEEKNO=%s;BYDAY=%s' % (listed(range(1, 54)), WEEK)), ['2024-01-01', '36525d', '--every-day'], 4, 32),
    ('3 rules of four of these days, each day of ages, what began by each day left out',
     lambda: rules(3, 'FREQ=YEARLY;BYWEEKNO=%s;BYDAY=%s;BYSETPOS=1,100,200,300' % (listed(range(1, 54)), WEEK)),
     [*AGES[:3], '--notstarted'], 16, 32),
    ('7 rules of seconds by thousands, a minute of each hour in two months, under COUNT, a day of 9700',
     lambda: rules(7, 'FREQ=SECONDLY;INTERVAL=7025;BYMONTH=8,9;BYMINUTE=26;COUNT=4294967295'), ['9700-07-01', '1d'], 4, 32),
    ('7 rules of even seconds that name an odd one and all weekdays, each day of a thousand years',
     lambda: rules(7, 'FREQ=SECONDLY;INTERVAL=298;BYDAY=%s;BYSECOND=1' % WEEK), ['0001-01-05', '366000d', '--every-day'], 1, 32),
    ('7 rules of seconds at odd hours whose steps are at even ones, each day of ages',
     lambda: rules(7, 'FREQ=SECONDLY;INTERVAL=7200;BYDAY=%s;BYHOUR=1,3,5,7,9' % WEEK), AGES[:3], 1, 32),
    ('43 rules of one in all days of a year since 0001, under COUNT, a day of 9700',
     lambda: rules(43, 'FREQ=YEARLY;BYMONTHDAY=%s;BYDAY=%s;BYSETPOS=10;COUNT=4294967295' % (listed(range(1, 32)), WEEK)), ['9700-07-01', '1d'], 8, 32),
    ('73 rules of each 65,015th second in seven months, under COUNT, a day of 9700',
     lambda: rules(73, 'FREQ=SECONDLY;INTERVAL=65015;BYMONTH=1,3,5,7,8,10,12;COUNT=4294967295'), ['9700-07-01', '1d'], 8, 32),
    ('89 rules of each 25th hour in February, under COUNT, each day of a month of 9700',
     lambda: rules(89, 'FREQ=HOURLY;INTERVAL=25;BYMONTH=2;COUNT=4294967295'), ['9700-01-01', '30d', '--every-day', '--notstarted'], 4, 32),
    ('8 rules of each 22,284th second at an hour of the day, under COUNT, a day of 9700',
     lambda: rules(8, 'FREQ=SECONDLY;INTERVAL=22284;BYHOUR=19;COUNT=4294967295'), ['9700-07-01', '1d'], 4, 32),
    ('53 rules of each 16,975th second at an hour of two weekdays, under COUNT, a day of 9700',
     lambda: rules(53, 'FREQ=SECONDLY;INTERVAL=16975;BYMONTH=1,2,3,4,5,6,7,8,10,11,12;BYDAY=MO,TU;BYHOUR=7;COUNT=4294967295'), ['9700-07-01', '1d'], 8, 32),
    ('a daily event of 36,525 days in a time zone of 80 daily observances, each day of a year',
     lambda: in_zone(offset_each(80, 15), '20230101T000000', LONG, 'RRULE:FREQ=DAILY'), ['2024-01-01', '366d', '--every-day'], 6, 32),
    ('400 events of 36,525 days in a time zone of 400 daily observances, each day of a month',
     lambda: in_turn(offset_each(400, 3), 400), ['2024-01-01', '30d', '--every-day'], 4, 32),
    ('an event of each minute that lasts 119 days in a time zone of 80 daily observances',
     lambda: in_zone(offset_each(80, 15), '20240101T000000', 'DURATION:P119D', 'RRULE:FREQ=MINUTELY'), DAY, 8, 32),
    ('4 each 30 days in a time zone of 3 observances on all days, each of 3,570,000 days',
     lambda: calendar([*zone('odd', *ruled(3, 'FREQ=YEARLY;BYDAY=' + WEEK)), *(line for number in range(4) for line in (
         'BEGIN:VEVENT', 'UID:%d@example.org' % number, 'DTSTART;TZID=odd:00010701T000000', 'RRULE:FREQ=DAILY;INTERVAL=30', 'END:VEVENT'))]),
     ['0001-01-05', '3570000d', '--every-day'], 8, 32),
    ('an hourly event of 36,525 days since 1971 in a time zone of 87 daily observances',
     lambda: in_zone(offset_each(87, 15), '19710101T000000', LONG, 'RRULE:FREQ=HOURLY'), DAY, 12, 32),
    ('an hourly event of 36,525 days in a time zone of 20 daily observances and two of each 15 seconds',
     lambda: in_zone(offset_each(20, 15) + apart(2, 'FREQ=DAILY;' + by(HOURS, EACH, '0,15,30,45')), '20230110T000000', LONG, 'RRULE:FREQ=HOURLY'),
     DAY, 2, 32),
    ('7 rules of each 25,200th second whose hours fall on a weekday each, another one named, each day of ages',
     lambda: rules(7, 'FREQ=SECONDLY;INTERVAL=25200;BYDAY=TU,WE,TH,FR,SA,SU;BYHOUR=0,7,14,21'), AGES[:3], 1, 32),
    ('77 rules of a second each two weeks on another weekday than its own, each day of ages',
     lambda: rules(77, 'FREQ=SECONDLY;INTERVAL=1209600;BYMONTHDAY=-31;BYDAY=TU,WE,TH,FR,SA,SU'), AGES[:3], 1, 32),
    ('70 hourly starts that last 36,525 days in a time zone of two daily observances and two dense ones, each day',
     lambda: in_zone(offset_each(2, 900) + apart(2, 'FREQ=DAILY;' + by(HOURS, ','.join(map(str, range(30))), '0,7,14,21,28,35,42')), '20230110T000000', LONG,
                     'RRULE:FREQ=HOURLY;COUNT=70'), ['2024-07-01', '800d', '--every-day'], 1, 32),
    ('10,000 RDATEs of a thousand years, each day', lambda: once_in('10200701T120000Z', 'RDATE:' + RARE), ['1024-01-01', '366000d', '--every-day'], 1, 32),
    ('10,000 RDATEs of a thousand years that EXDATEs remove, each day',
     lambda: once_in('10200701T120000Z', 'RDATE:' + RARE, 'EXDATE:' + RARE), ['1024-01-01', '366000d', '--every-day'], 1, 32),
    ('a monthly rule and 10,000 EXDATEs of a thousand years, each day',
     lambda: once_in('10200701T120000Z', 'RRULE:FREQ=MONTHLY', 'EXDATE:' + RARE), ['1024-01-01', '366000d', '--every-day'], 1, 32),
    ('150 places from the end of all hours of a month, under COUNT, each day of a hundred years',
     lambda: rules(1, 'FREQ=MONTHLY;BYDAY=%s;BYHOUR=%s;BYSETPOS=%s;COUNT=4294967295' % (WEEK, HOURS, ','.join('-%d' % place for place in range(1, 300, 2)))),
     ['0001-01-05', '36600d', '--every-day'], 6, 32),
    ('5 months\' last of some weekdays under COUNT in a time zone that goes back by two days each month, each day of a thousand years',
     lambda: monthly_last(5), ['2024-01-01', '366000d', '--every-day'], 1.5, 32),
    ('two starts an hour apart each week in a time zone of two daily observances a minute apart, each day of a thousand years',
     lambda: in_zone([part('STANDARD', '20000101T000000', '+0000', '+0100', 'RRULE:FREQ=DAILY'),
                      part('STANDARD', '20000101T000100', '+0000', '+0000', 'RRULE:FREQ=DAILY')],
                     '00010701T000000', 'RRULE:FREQ=WEEKLY;BYHOUR=0,1'), ['2024-01-01', '366000d', '--every-day'], 4, 32),
    ('400,000 faulty events, --keep-going', lambda: faulty(400_000), [*DAY, '--keep-going'], 12, 256),
]


def loop():
    """Processor seconds of the loop."""
    began = time.process_time()
    total = 0
    for number in range(4_000_000):
        total += number & 7
    return time.process_time() - began


def measure(words):
    """Runs the words once, for some time at most: processor seconds, peak memory in MiB, and status."""
    child = os.fork()
    if child == 0:
        resource.setrlimit(resource.RLIMIT_CPU, (30, 30))
        nothing = os.open(os.devnull, os.O_WRONLY)
        os.dup2(nothing, 1)
        os.dup2(nothing, 2)
        os.execv(words[0], words)
    _, status, usage = os.wait4(child, 0)
    return usage.ru_utime + usage.ru_stime, usage.ru_maxrss / 1024, os.waitstatus_to_exitcode(status)
