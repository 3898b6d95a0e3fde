#!/usr/bin/env python3
"""Prints the entries of a listing as JSON, an object a line, for jq and other programs:

    entries.py FOLDER [START [END]]

In the environment ZONE_FILE is the zone file of the time zone, by default /etc/localtime if it is there, and ZONE what
--zone takes, in its place; ZONES is a folder of zone files, by default none; KHAL_LIST is the program. The status is
khal-list's, and 3 too if the folder has no calendar. Other scripts import what stands here: `listed` reads the lines of
khal-list, whose columns are separated by tabs. No title or place breaks a line, since khal-list prints control characters
as spaces. But Python's splitlines() would find line ends of Unicode in them.
"""
import glob
import json
import os
import subprocess
import sys
import tempfile
import time

FIELDS = ['start-unix', 'end-unix', 'start-date', 'start-time', 'end-date', 'end-time', 'token', 'uid', 'location', 'title']


def listed(folder, *window):
    """The entries of the window, each a dict by FIELDS, and khal-list's status, 0 or 1. Ends the script if there is no listing."""
    command = [os.environ.get('KHAL_LIST') or 'khal-list', 'list', folder, *window, *zone_words()]
    form = ['--day-format', '', '--format', '\t'.join('{%s}' % field for field in FIELDS)]
    try:
        done = subprocess.run(command + form, stdout=subprocess.PIPE)
    except OSError as error:
        fail('%s: %s' % (command[0], error.strerror), 127)
    if done.returncode not in (0, 1):
        sys.exit(abs(done.returncode))
    if not glob.glob(os.path.join(glob.escape(folder), '*.ics')):
        fail('no .ics file in ' + folder, 3)
    rows = [line.split('\t') for line in done.stdout.decode('utf-8', 'replace').split('\n')]
    entries = [dict(zip(FIELDS, row)) for row in rows if len(row) == len(FIELDS)]
    for entry in entries:
        entry['start-unix'], entry['end-unix'] = int(entry['start-unix']), int(entry['end-unix'])
    return entries, done.returncode


def zone_words():
    environment = os.environ.get
    if environment('ZONE'):
        zone = '--zone=' + environment('ZONE')
    elif environment('ZONE_FILE') or os.path.exists('/etc/localtime'):
        zone = '--zone-file=' + (environment('ZONE_FILE') or '/etc/localtime')
    else:
        zone = '--zone=UTC'
    return [zone] + ['--zones=' + folder for folder in [environment('ZONES')] if folder]


def asks_for_help():
    """Whether the first word is no folder, but an option such as --help."""
    return sys.argv[1].startswith('-')


def fail(message, status):
    print('%s: %s' % (os.path.basename(sys.argv[0]), message), file=sys.stderr)
    sys.exit(status)


def around_now(folder):
    """What is on now, what begins within a week, an entry that begins and ends now, and the status of the listing."""
    now = int(os.environ.get('NOW') or time.time())
    # From two days ago on: in no time zone is that later than now.
    window = time.strftime('%Y-%m-%d', time.gmtime(now - 172800)), '12d'
    entries, status = listed(folder, *window)
    on = [it for it in entries if it['start-unix'] <= now < max(it['end-unix'], it['start-unix'] + 1)]
    coming = [it for it in entries if now < it['start-unix'] <= now + 604800]
    with tempfile.TemporaryDirectory() as clock:
        with open(os.path.join(clock, 'now.ics'), 'w') as file:
            stamp = time.strftime('%Y%m%dT%H%M%SZ', time.gmtime(now))
            file.write('BEGIN:VCALENDAR\nBEGIN:VEVENT\nUID:now\nDTSTART:%s\nEND:VEVENT\nEND:VCALENDAR\n' % stamp)
        return on, coming, listed(clock, *window)[0][0], status


def on_one_line(text, most=60):
    """A text without what turns the direction of those beside it, on one line, and not longer than this."""
    shown = ''.join(' ' if c in '\x85\u2028\u2029' else c for c in text if c not in '\u061c\u200e\u200f\u202a\u202b\u202c\u202d\u202e\u2066\u2067\u2068\u2069')
    return shown if len(shown) <= most else shown[:most - 1].rstrip() + '\u2026'


if __name__ == '__main__':
    if not 2 <= len(sys.argv) <= 4 or asks_for_help():
        fail('usage: entries.py FOLDER [START [END]]', 2)
    entries, status = listed(*sys.argv[1:])
    for entry in entries:
        print(json.dumps(entry))
    sys.exit(status)
