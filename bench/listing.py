"""How long the command `skeptolyr ls` takes, beside grib_ls of ecCodes, on the same files, in turns: the wall time of whole processes.

  python3 -m bench.listing    this part of the benchmark alone
"""
import os
import re
import shutil
import statistics
import subprocess
import sys
import tempfile
import time

from samples import shapes
from tests.help import grib
from tools import TOP, archive, built, debian

ROUNDS = 7
COUNTS = (100, 1000, 8000)
ONE_MESSAGE, MESSAGES = '%d in one message', '%d messages'
# Where one run takes longer than so many seconds, the rounds are fewer.
LONG = 5
FEWEST_ROUNDS = 3


def say(what):
    print(what, file=sys.stderr, flush=True)


def small_field(k):
    """Sections 4 to 7 of a field of 2 x 2 points. No two of a file are of the same level."""
    return grib.instant(0, 0, 103, (0, 1 + k), 1, 1) + grib.section5(4, bytes(4), 0, 0, 8) + grib.section6(255) + grib.section7(range(4), 8)


def files():
    """The Agency's file of 92 fields; and small fields, all of one message, as in the Agency's files, and each a message of its own."""
    yield '92 large fields', 92, shapes.pressure_levels()
    head = grib.section1(grib.time(2017, 5, 15, 12, 0, 0)), shapes.area(2, 2, (36000000, 135000000), (35000000, 136000000))
    for count in COUNTS:
        yield ONE_MESSAGE % count, count, grib.message(*head, *map(small_field, range(count)))
    for count in COUNTS:
        yield MESSAGES % count, count, b''.join(grib.message(*head, small_field(k)) for k in range(count))


def command_of(code):
    """The command, compiled for this machine with this archive."""
    out = os.path.join(TOP, 'target', 'bench-skeptolyr')
    subprocess.run(['gcc', *archive.FLAGS, '-O2', *archive.command_sources(), code, '-lm', '-o', out], check=True)
    return out


def fields_listed(words):
    """How many fields a command lists: ls has a line a field that starts with its number, and grib_ls says at its end how many there are."""
    printed = subprocess.run(words, stdout=subprocess.PIPE, check=True).stdout.decode()
    said = re.search(r'(\d+) of \d+ total messages', printed)
    return int(said.group(1)) if said else len(re.findall(r'^ *\d+  \w', printed, re.M))


def seconds(words):
    start = time.perf_counter()
    subprocess.run(words, stdout=subprocess.DEVNULL, check=True)
    return time.perf_counter() - start


def timed(commands):
    """The median of the seconds of each command, which are run in turns."""
    took = [[seconds(words)] for words in commands]
    rounds = ROUNDS if max(map(max, took)) < LONG else FEWEST_ROUNDS
    for _ in range(rounds - 1):
        for words, found in zip(commands, took):
            found.append(seconds(words))
    return [statistics.median(found) for found in took]


def measured(commands, name, count):
    """The seconds of each command on a file of so many fields. A command that does not list them all is not timed: the benchmark ends."""
    for words in commands:
        if fields_listed(words) != count:
            raise SystemExit('%s: not all %d fields are listed by %s' % (name, count, words[0]))
    return timed(commands)


def tell_table(took):
    """Both times, their ratio, and the time a field, of each file; where there is no grib_ls, a dash."""
    rows = [['fields', 'skeptolyr ls', 'grib_ls', 'grib_ls/skeptolyr', 'skeptolyr a field', 'grib_ls a field']]
    for (name, count), (ours, *theirs) in took.items():
        times, shares = ([form % (scale * found) for found in (ours, *theirs)] + ['-'] for form, scale in (('%.1f ms', 1e3), ('%.1f us', 1e6 / count)))
        rows.append([name, *times[:2], '%.1f' % (theirs[0] / ours) if theirs else '-', *shares[:2]])
    for first, *rest in rows:
        print('  %-22s' % first + ''.join('%19s' % word for word in rest))


def tell_growth(took):
    """How many times as long the most fields take as the second most, of which there are an eighth as many."""
    for where in (ONE_MESSAGE, MESSAGES):
        fewer, more = (took[where % count, count] for count in COUNTS[-2:])
        grown = ', '.join('%s %.1f' % (name, b / a) for name, a, b in zip(('skeptolyr ls', 'grib_ls'), fewer, more))
        print('  %s: %d times as many fields take so many times as long: %s.' % (where % COUNTS[-1], COUNTS[-1] // COUNTS[-2], grown), flush=True)


def tell(code):
    """Times the command, compiled with this archive, and grib_ls, and prints both."""
    debian.install([] if shutil.which('grib_ls') else ['libeccodes-tools'])
    peer = [['grib_ls']] if shutil.which('grib_ls') else []
    program, took = command_of(code), {}
    with tempfile.TemporaryDirectory() as folder:
        path = os.path.join(folder, 'file.grib2')
        for name, count, octets in files():
            say('timing how a file is listed: ' + name)
            with open(path, 'wb') as out:
                out.write(octets)
            took[name, count] = measured([words + [path] for words in ([program, 'ls'], *peer)], name, count)
    print('\nThe command: skeptolyr ls beside grib_ls of ecCodes, medians of the wall time of whole processes.')
    if not peer:
        print('  grib_ls is left out: the package libeccodes-tools is not installed.')
    tell_table(took)
    tell_growth(took)


def main():
    tell(built.library('skeptolyr'))


if __name__ == '__main__':
    main()
