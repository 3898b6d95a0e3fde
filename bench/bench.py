#!/usr/bin/env python3
"""Measures a khal-list over folders of a generator: `bench.py PROGRAM [RUNS]`.

Prints a line a folder: the least processor seconds and the greatest peak memory of several runs, the
program's status and how many lines it wrote; and beside it, by turns, the least processor seconds of a program
that only adds up the bytes of the files (`floor.c`, or `cat` where there is no C compiler), and how many times as long
the listing takes. Then a line for each listing by a zone file beside the same by the
rule of its zone, in runs by turns: the least seconds of both, how many times as long the first takes,
and how many milliseconds longer. Last a line for each hostile file: the processor seconds of one run, its
peak memory, and how many MiB and loops it may take and how many loops it takes. It fails if one takes more."""
import os
import shutil
import subprocess
import sys

import hostile
from folders import ROWS, write
from zones import PAIRS, ROWS as ZONES, skipped_files

HERE = os.path.dirname(os.path.abspath(__file__))


def measure(words):
    """Runs the words once: processor seconds, peak memory in MiB (at least Python's own), status, and lines of standard output."""
    output = os.path.join(HERE, 'data', 'output')
    child = os.posix_spawnp(words[0], words, os.environ, file_actions=[
        (os.POSIX_SPAWN_OPEN, 1, output, os.O_WRONLY | os.O_CREAT | os.O_TRUNC, 0o644),
        (os.POSIX_SPAWN_OPEN, 2, os.devnull, os.O_WRONLY, 0)])
    _, status, usage = os.wait4(child, 0)
    seconds = usage.ru_utime + usage.ru_stime
    with open(output, 'rb') as file:
        lines = file.read().count(b'\n')
    return seconds, usage.ru_maxrss / 1024, os.waitstatus_to_exitcode(status), lines


def folder_of(name, files):
    folder = os.path.join(HERE, 'data', name.replace(',', '').replace(' ', '-'))
    write(folder, files())
    return folder


def floor():
    """The words of a program that adds up the bytes of a folder's files, before and after the folder."""
    built = os.path.join(HERE, 'data', 'floor')
    compiler = shutil.which(os.environ.get('CC', 'cc'))
    if compiler and subprocess.run([compiler, '-O2', '-o', built, os.path.join(HERE, 'floor.c')]).returncode == 0:
        return [built], []
    return ['find'], ['-name', '*.ics', '-exec', 'cat', '{}', '+']


def main():
    program = os.path.abspath(sys.argv[1])
    runs = int(sys.argv[2]) if len(sys.argv) > 2 else 5
    os.makedirs(os.path.join(HERE, 'data'), exist_ok=True)
    before, after = floor()
    print('%-40s %9s %9s %7s %8s %9s %7s' % ('folder', 'seconds', 'MiB', 'status', 'lines', 'floor', 'times'))
    for name, files, words in [*ROWS, *ZONES]:
        folder = folder_of(name, files)
        pairs = [(measure([program, 'list', folder, *words]), measure([*before, folder, *after])) for _ in range(runs)]
        taken, floors = zip(*pairs)
        seconds, memory, least = min(t[0] for t in taken), max(t[1] for t in taken), min(t[0] for t in floors)
        print('%-40s %9.4f %9.1f %7d %8d %9.4f %7.2f' % (name, seconds, memory, *taken[0][2:], least, seconds / least))
    print('%-40s %9s %9s %7s %8s %8s' % ('beside other words', 'seconds', 'other', 'times', 'ms more', 'lines'))
    for name, files, words, one, other, turns in PAIRS:
        listing = [program, 'list', folder_of(name, files), *words]
        pairs = [(measure(listing + one), measure(listing + other)) for _ in range(turns)]
        said = {taken[2:] for pair in pairs for taken in pair}
        if len(said) != 1:
            sys.exit('%s: the listings differ, by status and lines: %s' % (name, sorted(said)))
        own, beside = (min(taken[0] for taken in column) for column in zip(*pairs))
        print('%-40s %9.4f %9.4f %7.2f %8.3f %8d' % (name, own, beside, own / beside, (own - beside) * 1000, said.pop()[1]))
    sys.exit(0 if holds(program) else 1)


def holds(program):
    """Measures the hostile files, each beside the loop, and tells whether each is within its limit."""
    print('%-40s %9s %9s %7s %8s %8s %8s' % ('hostile', 'seconds', 'MiB', 'status', 'limit', 'limit', 'loops'))
    within = True
    skipped_files()
    for name, text, words, limit, most in hostile.ROWS:
        folder = folder_of('hostile ' + name, lambda: [('a.ics', text())])
        loop = min(hostile.loop() for _ in range(3))
        seconds, memory, status = hostile.measure([program, 'list', folder, *words])
        within = within and status == int('--keep-going' in words) and seconds <= limit * loop and memory <= most
        print('%-40s %9.4f %9.1f %7d %8d %8.1f %8.2f' % (name, seconds, memory, status, most, limit, seconds / loop))
    return within


if __name__ == '__main__':
    main()
