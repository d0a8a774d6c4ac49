"""The program `skeptolyr`: check, ls, show and values on every sample, against an independent reading of the files; and what it says, answers and leaves
behind where a file is refused, where it is called wrongly, and where the machine fails. It ends in 'N passed, M failed'.

SKEPTOLYR_COMMAND may name a ready program to be tested. Without it, command/*.c is compiled with the archive.
"""
import datetime
import fractions
import json
import os
import pty
import re
import resource
import shutil
import signal
import stat
import struct
import subprocess
import sys
import tempfile
import time

from samples import make
from tests import fields
from tests.help import grib, manual, reading, report, terminal
from tools import TOP, archive, debian

SUBCOMMANDS = ('check', 'ls', 'show', 'values', 'point', 'dump', 'draw', 'pgm')
SAMPLES = make.samples()
EXAMPLE = grib.two_fields()
FILE = 'field.grib2'
PATIENCE = 60


# ---- the program

class Command:
    """The program, in a folder of its own."""

    def __init__(self, program, folder):
        self.program, self.folder = program, folder

    def path(self, name):
        return os.path.join(self.folder, name)

    def put(self, octets, name=FILE):
        with open(self.path(name), 'wb') as out:
            out.write(octets)

    def get(self, name):
        """A file's octets, or None where there is none."""
        if not os.path.exists(self.path(name)):
            return None
        with open(self.path(name), 'rb') as given:
            return given.read()

    def start(self, *words, **more):
        given = {'stdin': subprocess.DEVNULL, 'stdout': subprocess.PIPE, 'stderr': subprocess.PIPE, 'cwd': self.folder}
        return subprocess.Popen([*self.program, *words], **{**given, **more})

    def run(self, *words, **more):
        """What the program answers, prints and says, the last two as text."""
        given = {'stdout': subprocess.PIPE, 'stderr': subprocess.PIPE, 'timeout': PATIENCE, 'cwd': self.folder}
        if 'input' not in more and 'stdin' not in more:
            more['stdin'] = subprocess.DEVNULL
        done = subprocess.run([*self.program, *words], **{**given, **more})
        return done.returncode, (done.stdout or b'').decode('utf-8', 'replace'), (done.stderr or b'').decode('utf-8', 'replace')

    def ended(self, status, *words, prints='', says='', **more):
        """In words, what is wrong if the program does not end so, printing exactly this, and saying what this pattern fits."""
        got, printed, said = self.run(*words, **more)
        if got != status:
            return '%s: it exits with %d, and not with %d: %r' % (words, got, status, said[-300:])
        if printed != prints:
            return '%s: it prints %r' % (words, printed[-300:])
        if not (re.search(says, said) if says else said == ''):
            return '%s: it says %r' % (words, said[-600:])
        return None


def put_samples(command):
    """Puts every sample into the folder. The answer is their names."""
    for name, octets in SAMPLES.items():
        os.makedirs(os.path.dirname(command.path(name)), exist_ok=True)
        command.put(octets, name)
    return list(SAMPLES)


def plural(count, word):
    return '%d %s%s' % (count, word, '' if count == 1 else 's')


def refusal_of(question, *words):
    """The refusal that the independent reading gives, or None."""
    try:
        question(*words)
    except reading.Refused as refused:
        return refused
    return None


def said_of(name, refused):
    """The pattern of the first line that is said of a refusal."""
    return r'\Askeptolyr: %s: %s\n' % (re.escape(name), re.escape(manual.refused(refused.number, refused.place)))


# ---- check

def is_checked(command):
    """check prints the messages and fields of each sample that is whole, and refuses each other one with its number, place and sentence."""
    for name in put_samples(command):
        refused = refusal_of(reading.messages, SAMPLES[name])
        if refused:
            yield command.ended(1, 'check', name, says=said_of(name, refused))
            continue
        told = '%s, %s' % (plural(len(reading.messages(SAMPLES[name])), 'message'), plural(len(reading.fields(SAMPLES[name])), 'field'))
        yield command.ended(0, 'check', name, prints='%s: %s\n' % (name, told))


def goes_on(command):
    """With several files it goes on after a refused one, and exits with 1 at the end."""
    put_samples(command)
    command.put(EXAMPLE * 3, 'three')
    names = ['two-fields.grib2', 'accident.grib2', 'refused/03-cut.grib2', 'three']
    yield command.ended(
        1, 'check', *names, prints='two-fields.grib2: 1 message, 2 fields\nthree: 3 messages, 6 fields\n',
        says=r'(?s)\Askeptolyr: accident.grib2: refused 7 at 0.*\nskeptolyr: refused/03-cut.grib2: refused 3 at 276')
    status, printed, said = command.run('ls', *names)
    if status != 1 or re.findall(r'^(\S+): ', printed, re.M) != ['two-fields.grib2', 'three'] or re.findall(r'refused (\d+) at', said) != ['7', '3']:
        yield 'ls exits with %d, prints %r and says %r' % (status, printed, said)
    yield command.ended(0, 'check', 'three', 'two-fields.grib2', prints='three: 3 messages, 6 fields\ntwo-fields.grib2: 1 message, 2 fields\n')


# ---- descriptions

def members_of_time(when):
    return dict(zip(('year', 'month', 'day', 'hour', 'minute', 'second'), reading.time_numbers(when) if when else [0] * 6))


def members_of_kind(grid):
    """The first point, and what a grid of one kind has alone. What the other kind has is None."""
    first, last = (dict(zip(('latitude', 'longitude'), grid[name])) for name in ('first', 'last'))
    if grid['template'] == reading.LAMBERT:
        return {'grid_template': 30, 'first': first, 'last': None, 'di': None, 'dj': None, 'lambert': grid['lambert']}
    return {'grid_template': 0, 'first': first, 'last': last, 'di': grid['di'], 'dj': grid['dj'], 'lambert': None}


def members_of(file, k):
    """The numbers of a description by the names of the header, from the independent reading; or the members of a refusal."""
    refused = refusal_of(reading.describe, file, k)
    if refused:
        text = manual.refusals()[refused.number - 1][3]
        return {'field': k, 'refused': {'number': refused.number, 'place': refused.place, 'text': text}}
    told = reading.describe(file, k)
    grid, (end, kind) = told['grid'], told['product'] or (None, 0)
    factor, scaled = told['level'] or (0, 0)
    return {
        'field': k, 'discipline': told['discipline'], 'status': told['status'], 'reference': members_of_time(told['reference']), 'earth': grid['earth'],
        'radius': grid['radius'], 'ni': grid['ni'], 'nj': grid['nj'], 'points': grid['ni'] * grid['nj'], **members_of_kind(grid),
        'category': told['category'], 'parameter': told['parameter'], 'process': told['process'], 'surface': told['surface'],
        'level': {'is_given': int(told['level'] is not None), 'factor': factor, 'scaled': scaled}, 'product_template': 8 if end else 0,
        'end': members_of_time(end), 'kind': kind, 'valid': members_of_time(told['valid']), 'present': told['n'], 'r': told['r'], 'e': told['e'],
        'd': told['d'], 'bits': told['bits'], 'data_template': told['template'], 'indicator': told['indicator'],
        'starts': {'section_%d' % number: start for number, start in zip((1, 3, 4, 5, 6, 7), told['starts'])}}


def members_of_file(name, file):
    refused = refusal_of(reading.messages, file)
    if refused:
        return {'file': name, 'refused': {'number': refused.number, 'place': refused.place, 'text': manual.refusals()[refused.number - 1][3]}}
    return {'file': name, 'messages': len(reading.messages(file)), 'fields': [members_of(file, k) for k in range(len(reading.fields(file)))]}


def json_of(command, *names):
    """What ls --json prints, as Python has it, without the words of each field; and the exit status."""
    with command.start('ls', '--json', *names, stderr=subprocess.DEVNULL) as run:
        printed = run.communicate(timeout=PATIENCE)[0]
    listed = json.loads(printed.decode('utf-8', 'strict'))
    for file in listed:
        for field in file.get('fields', []):
            field.pop('words', None)
    return run.returncode, listed


def is_listed_as_json(command):
    """ls --json has every number of every field, by the names of the header, of every sample and of files on either side of every rule."""
    put_samples(command)
    files = dict(SAMPLES)
    files.update(('rule%d' % i, file) for i, (_, file, _) in enumerate(fields.rules()))
    files.update(('later%d' % i, file) for i, (_, file, _, _) in enumerate(fields.later_fields()))
    files.update(on_sheets())
    files['three'] = EXAMPLE * 3
    files['refused in the second message'] = EXAMPLE + SAMPLES['refused/10-grid.grib2'] + EXAMPLE
    for name, octets in files.items():
        command.put(octets, name)
    status, listed = json_of(command, *files)
    if status != 1 or [file['file'] for file in listed] != list(files):
        yield 'it exits with %d, and has %d files, and not %d' % (status, len(listed), len(files))
    for told, (name, octets) in zip(listed, files.items()):
        wanted = members_of_file(name, octets)
        if told != wanted:
            yield '%s: it has %r, and not %r' % (name, told, wanted)
    for name in ('two-fields.grib2', 'lambert.grib2'):
        status, listed = json_of(command, name)
        if status != 0 or listed != [members_of_file(name, SAMPLES[name])]:
            yield 'of a good file it exits with %d and has %r' % (status, listed)


# Names of files as octets, and as JSON has to tell them. Where a part of a character is wrong, each of its octets is told as one that is none.
ODD_NAMES = [
    (b'two words', 'two words'), (b'a "quoted" \\ one', 'a "quoted" \\ one'), (b'tab\tand\nline', 'tab\tand\nline'), (b'bell\x07\x7f', 'bell\x07\x7f'),
    (b'\xc3\xa9t\xc3\xa9', '\u00e9t\u00e9'), (b'\xe6\xb5\xb7', '\u6d77'), (b'\xf0\x9f\x8c\x8a', '\U0001f30a'), (b'caf\xe9', 'caf\ufffd'), (b'\xff\xfe', '\ufffd' * 2),
    (b'\xc1\xbf', '\ufffd' * 2), (b'\xe0\x80\x80', '\ufffd' * 3), (b'\xed\xa0\x80', '\ufffd' * 3), (b'\xf0\x80\x80\x80', '\ufffd' * 4), (b'\xf4\x90\x80\x80', '\ufffd' * 4),
    (b'\xf5\x80\x80\x80', '\ufffd' * 4), (b'cut\xe3\x81', 'cut\ufffd\ufffd'), (b'\x80\xe3x', '\ufffd\ufffdx'),
]


def has_odd_names(command):
    """ls --json is JSON in UTF-8 also where the name of a file is no text, with U+FFFD for what is no character."""
    for name, wanted in ODD_NAMES:
        with open(os.path.join(os.fsencode(command.folder), name), 'wb') as out:
            out.write(EXAMPLE)
        try:
            status, listed = json_of(command, name)
        except ValueError as error:
            yield '%r: %s' % (name, error)
            continue
        if status != 0 or listed[0]['file'] != wanted:
            yield '%r is told as %r' % (name, listed[0]['file'])


# ---- the table

HEAD = ['field', 'what it is', 'numbers', 'level', 'reference (UTC)', 'valid (UTC)', 'grid', 'points present', 'packing']


def moment(when):
    return when.strftime('%Y-%m-%d %H:%M') + (when.strftime(':%S') if when.second else '')


def valid_time(told):
    """The instant, or the interval: the day of its end is left out where it is that of the start."""
    if told['product'] is None:
        return moment(told['valid'])
    end, kind = told['product']
    return '%s to %s, %s' % (moment(told['valid']), moment(end) if end.date() != told['valid'].date() else moment(end)[11:], ('mean', 'sum')[kind])


def cells_of(file, k):
    """The cells that a field has, from the independent reading, but for the names, which are None."""
    refused = refusal_of(reading.describe, file, k)
    if refused:
        return [str(k), str(refused)] + [''] * 7
    told = reading.describe(file, k)
    grid = told['grid']
    return [
        str(k), None, '%d.%d.%d' % (told['discipline'], told['category'], told['parameter']), None, moment(told['reference']), valid_time(told),
        '%d x %d%s' % (grid['ni'], grid['nj'], ', Lambert' * (grid['template'] == reading.LAMBERT)), '%d of %d' % (told['n'], grid['ni'] * grid['nj']),
        '%s, %s' % ('complex' if told['template'] else 'simple', plural(told['bits'], 'bit'))]


def cells_in(lines):
    """The cells of a table's lines, cut where the columns of its head start. The first column is set to the right."""
    starts = [match.start() for match in re.finditer(r'\S+(?: \S+)*', lines[0])]
    for line in lines:
        if any(line[start - 2:start].strip() for start in starts[1:]) or line != line.rstrip():
            yield ['not aligned: ' + line]
        else:
            yield [line[start:end].strip() for start, end in zip(starts, starts[1:] + [None])]


def tables(command, *names):
    """The tables that ls prints, by the names above them: the line above, and the cells of each line."""
    _, printed, _ = command.run('ls', *names)
    for part in printed.split('\n\n'):
        above, *lines = part.rstrip('\n').split('\n')
        yield above, list(cells_in(lines))


def is_listed_as_table(command):
    """ls prints a table with a head, aligned, and a line a field, each cell as an independent reading of the file has it; refused fields are lines too."""
    put_samples(command)
    files = {name: octets for name, octets in SAMPLES.items() if not refusal_of(reading.messages, octets)}
    files.update(('rule%d' % i, file) for i, (_, file, _) in enumerate(fields.rules()[::7]))
    files.update(('later%d' % i, file) for i, (_, file, _, _) in enumerate(fields.later_fields()) if not refusal_of(reading.messages, file))
    files.update(on_sheets())
    for name, octets in files.items():
        command.put(octets, name)
    found = list(tables(command, *files))
    if len(found) != len(files):
        yield '%d tables for %d files' % (len(found), len(files))
    for (above, cells), (name, octets) in zip(found, files.items()):
        count = len(reading.fields(octets))
        wanted = [HEAD] + [cells_of(octets, k) for k in range(count)]
        same = len(cells) == len(wanted) and all(len(a) == len(b) and all(y in (None, x) for x, y in zip(a, b)) for a, b in zip(cells, wanted))
        if not same or above != '%s: %s, %s' % (name, plural(len(reading.messages(octets)), 'message'), plural(count, 'field')):
            yield '%s: %r\n%r' % (name, above, cells)
    for name in ('two-fields.grib2', 'refused/12-scale.grib2'):
        status = command.run('ls', name)[0]
        if status != ('refused' in name):
            yield 'ls of %s exits with %d' % (name, status)


def one_of_each_refusal(command):
    """ls tells of each refusal once on standard error, however many fields have it."""
    command.put(grib.spliced(EXAMPLE * 3, 21, grib.number(7, 2)) + SAMPLES['refused/12-scale.grib2'] * 2)
    status, printed, said = command.run('ls', FILE)
    if status != 1 or len(re.findall(r'^ +\d  refused', printed, re.M)) != 4 or re.findall(r'field (\d+): refused (\d+) at (\d+)\. \w', said) != [('0', '9', '16'), ('6', '12', '971')]:
        yield 'it exits with %d, prints %r and says %r' % (status, printed, said)


# ---- names

# What the Agency's papers print: discipline, category, parameter; its name and unit by WMO's code tables.
PAPERS = {
    'on model levels': [
        (0, 0, 0, 'temperature [K]'), (0, 1, 0, 'specific humidity [kg kg-1]'), (0, 1, 65, 'rain precipitation rate [kg m-2 s-1]'),
        (0, 1, 66, 'snow precipitation rate [kg m-2 s-1]'), (0, 1, 68, 'ice pellets precipitation rate [kg m-2 s-1]'),
        (0, 1, 75, 'graupel (snow pellets) precipitation rate [kg m-2 s-1]'), (0, 1, 83, 'specific cloud liquid water content [kg kg-1]'),
        (0, 1, 84, 'specific cloud ice water content [kg kg-1]'), (0, 1, 85, 'specific rainwater content [kg kg-1]'),
        (0, 1, 86, 'specific snow water content [kg kg-1]'), (0, 1, 219, 'specific graupel content [kg kg-1]'), (0, 2, 2, 'u-component of wind [m s-1]'),
        (0, 2, 3, 'v-component of wind [m s-1]'), (0, 2, 9, 'vertical velocity (geometric) [m s-1]'), (0, 3, 0, 'pressure [Pa]'), (0, 3, 10, 'density [kg m-3]'),
        (0, 3, 33, 'geometric altitude above mean sea level [m]'), (0, 4, 7, 'downward short-wave radiation flux [W m-2]'),
        (0, 191, 1, 'geographical latitude [degree north]'), (0, 191, 2, 'geographical longitude [degree east]'),
        (2, 0, 0, 'land cover (0 is sea, 1 is land) [proportion]')],
    'on bitmaps and on solar radiation': [
        (0, 1, 1, 'relative humidity [%]'), (0, 1, 8, 'total precipitation [kg m-2]'), (0, 2, 8, 'vertical velocity (pressure) [Pa s-1]'),
        (0, 3, 1, 'pressure reduced to mean sea level [Pa]'), (0, 3, 5, 'geopotential height [gpm]'), (0, 6, 1, 'total cloud cover [%]'),
        (0, 6, 3, 'low cloud cover [%]'), (0, 6, 4, 'medium cloud cover [%]'), (0, 6, 5, 'high cloud cover [%]')],
    'on the seas': [
        (10, 3, 1, 'deviation of sea level from mean [m]'), (10, 4, 15, 'water temperature [K]'), (10, 4, 192, 'salinity (Practical Salinity Scale 1978)'),
        (10, 1, 2, 'u-component of current [m s-1]'), (10, 1, 3, 'v-component of current [m s-1]')],
    'next to them': [
        (10, 0, 3, 'significant height of combined wind waves and swell [m]'), (10, 2, 0, 'ice cover [proportion]'), (0, 7, 6, 'convective available potential energy [J kg-1]'),
        (0, 2, 4, 'stream function [m2 s-1]'), (0, 2, 12, 'relative vorticity [s-1]'), (0, 19, 0, 'visibility [m]'), (0, 5, 3, 'downward long-wave radiation flux [W m-2]')],
    'unknown': [(0, 0, 200, 'parameter 0.0.200'), (3, 0, 0, 'parameter 3.0.0'), (255, 255, 255, 'parameter 255.255.255'), (0, 1, 192, 'parameter 0.1.192'), (10, 4, 193, 'parameter 10.4.193')],
}

# Surfaces and levels of section 4, as (factor, scaled level) or None, and how each is told.
LEVELS = [
    (1, None, 'ground or water surface'), (101, None, 'mean sea level'), (103, (0, 10), '10 m above ground'), (103, (1, 15), '1.5 m above ground'),
    (103, (0, 2), '2 m above ground'), (103, None, 'height above ground'), (105, (0, 1), 'model level 1'), (105, (0, 96), 'model level 96'),
    (100, (-2, 1000), '1000 hPa'), (100, (-2, 975), '975 hPa'), (100, (0, 50000), '500 hPa'), (100, (-4, 5), '500 hPa'), (100, (0, 250), '2.5 hPa'),
    (100, (2, 1), '0.0001 hPa'), (100, (0, 0), '0 hPa'), (160, (1, 10), '1 m below sea level'), (160, (1, 10000), '1000 m below sea level'),
    (160, (1, 61500), '6150 m below sea level'), (160, (1, 15), '1.5 m below sea level'), (102, (-1, 300), '3000 m above mean sea level'),
    (106, (2, 10), '0.1 m below land surface'), (104, (4, 9950), 'sigma level 0.995'), (107, (0, 315), 'isentropic level at 315 K'),
    (200, None, 'surface 200'), (200, (1, 25), 'surface 200, level 2.5'), (0, (0, 7), 'surface 0, level 7'), (1, (0, 0), 'ground or water surface, level 0'),
    (11, (0, 900), 'cumulonimbus base, level 900 m'), (103, (126, 2147483647), '2147483647 x 10^-126 m above ground'),
    (103, (-126, 7), '7 x 10^126 m above ground'), (103, (-6, 2147483647), '2147483647000000 m above ground'), (103, (12, 1), '0.000000000001 m above ground'),
    (103, (127, 0), '0 m above ground'), (103, (12, 1000), '0.000000001 m above ground'),
]


def field_with(discipline, product):
    """A file of one field whose section 4 is this."""
    grid = grib.section3(2, 2, (36000000, 135000000), (35000000, 136000000), 1000000, 1000000)
    return grib.message(
        grib.section1(grib.time(2017, 5, 15, 12, 0, 0)), grid, product, grib.section5(4, bytes(4), 0, 0, 0), grib.section6(255), grib.section7([], 0), discipline=discipline)


def words_of(command, files):
    """The words of the first field of each file, by ls --json, and its cells, by ls."""
    for i, file in enumerate(files):
        command.put(file, 'file%d' % i)
    names = ['file%d' % i for i in range(len(files))]
    listed = json.loads(command.run('ls', '--json', *names)[1])
    return [(told['fields'][0]['words'], cells[1]) for told, (_, cells) in zip(listed, tables(command, *names))]


def parameters_are_named(command):
    """Every parameter that the Agency's papers print has the name and the unit of WMO's code table, and an unknown one its three numbers."""
    wanted = [row for rows in PAPERS.values() for row in rows]
    found = words_of(command, [field_with(row[0], grib.instant(row[1], row[2], 1, None, 1, 1)) for row in wanted])
    if len(found) != len(wanted):
        yield '%d answers for %d parameters' % (len(found), len(wanted))
    for (*numbers, name), (words, cells) in zip(wanted, found):
        known = not name.startswith('parameter ')
        bare, unit = (re.sub(r' \[.*', '', name), (re.findall(r'\[(.*)\]', name) or [''])[0]) if known else (None, None)
        if cells[1:3] != [name, '.'.join(map(str, numbers))] or (words['parameter'], words['unit']) != (bare, unit):
            yield '%s: %r in the table, %r and %r in JSON' % (numbers, cells[1], words['parameter'], words['unit'])


def levels_are_told(command):
    """Every surface and level that the Agency's papers print is told in words, exactly; isobaric ones in hPa; an unknown one by its number."""
    found = words_of(command, [field_with(0, grib.instant(0, 0, surface, level, 1, 1)) for surface, level, _ in LEVELS])
    if len(found) != len(LEVELS):
        yield '%d answers for %d levels' % (len(found), len(LEVELS))
    for (surface, level, name), (words, cells) in zip(LEVELS, found):
        if cells[3] != name or words['level'] != name:
            yield 'surface %d, level %s: %r in the table, %r in JSON, and not %r' % (surface, level, cells[3], words['level'], name)


def times_are_told(command):
    """Times and intervals are told as the papers give them: sums and means, over an hour, over days, over the end of a year, and with seconds."""
    sections = [
        grib.instant(0, 0, 1, None, 1, 84), grib.interval(grib.time(2017, 5, 15, 13, 0, 0), 1, 1, 1, 1, 8, 1, None, 1, 0),
        grib.interval(grib.time(2017, 5, 15, 14, 0, 0), 0, 1, 1, 4, 7, 1, None, 1, 1), grib.interval(grib.time(2017, 5, 19, 3, 0, 0), 0, 1, 3, 4, 7, 1, None, 1, 84),
        grib.interval(grib.time(2017, 5, 16, 12, 0, 0), 0, 2, 1, 4, 15, 160, (1, 10), 2, 0), grib.interval(grib.time(2018, 5, 15, 12, 0, 0), 1, 2, 365, 1, 8, 1, None, 2, 0)]
    wanted = [
        '2017-05-19 00:00', '2017-05-15 12:00 to 13:00, sum', '2017-05-15 13:00 to 14:00, mean', '2017-05-19 00:00 to 03:00, mean',
        '2017-05-15 12:00 to 2017-05-16 12:00, mean', '2017-05-15 12:00 to 2018-05-15 12:00, sum']
    files = [field_with(0, section) for section in sections] + [grib.spliced(field_with(0, grib.instant(0, 0, 1, None, 0, 90)), 16 + 12, grib.time(2016, 2, 28, 23, 0, 7))]
    for want, (words, cells) in zip(wanted + ['2016-02-29 00:30:07'], words_of(command, files)):
        if words['valid'] != want or cells[5] != want:
            yield '%r in the table, %r in JSON, and not %r' % (cells[5], words['valid'], want)


# ---- names, levels and times beside ecCodes

# The version of WMO's tables that is written into octet 10 of section 1. The papers have an older one there, in which ecCodes finds no newer parameters.
TABLES, TABLES_AT = 28, 16 + 9
BESIDE = 'the names, levels and times of ls beside those of ecCodes'
ECCODES_KEYS = [
    'discipline', 'parameterCategory', 'parameterNumber', 'parameterName', 'parameterUnits', 'typeOfFirstFixedSurface:i', 'nameOfFirstFixedSurface',
    'scaleFactorOfFirstFixedSurface:i', 'scaledValueOfFirstFixedSurface:i', 'dataDate', 'dataTime', 'validityDate', 'validityTime', 'startStep', 'stepType',
    'tablesVersionLatest']
# Where our wording is another one on purpose: ours, and that of ecCodes. Two local parameters of the Agency, and one that came into the tables later, have no
# name in ecCodes. A later ecCodes may have one, which must be ours then.
OTHER_NAMES = {
    'land cover (0 is sea, 1 is land)': 'land cover (0 = sea, 1 = land)', 'pressure reduced to mean sea level': 'pressure reduced to msl'}
OTHER_UNITS = {'degree north': 'deg n', 'degree east': 'deg e'}
WITHOUT_NAMES = {(0, 1, 219), (0, 3, 33), (10, 4, 192)}
# The surfaces that the papers print: what ecCodes calls each, how a level of it is told, and by what that is divided.
SURFACES = {
    1: ('Ground or water surface', 'ground or water surface', 1), 101: ('Mean sea level', 'mean sea level', 1),
    103: ('Specified height level above ground', '%s m above ground', 1), 105: ('Hybrid level', 'model level %s', 1), 100: ('Isobaric surface', '%s hPa', 100),
    160: ('Depth below sea level', '%s m below sea level', 1)}
PRESSURES = (1000, 975, 950, 925, 900, 850, 800, 700, 600, 500, 400, 300, 250, 200, 150, 100)
DEPTHS = (10, 10000, 11000, 61500)
NOON = datetime.datetime(2017, 5, 15, 12)
UNITS_OF_TIME = {0: datetime.timedelta(minutes=1), 1: datetime.timedelta(hours=1), 2: datetime.timedelta(days=1)}


def over(kind, unit, start, length, *words):
    """Section 4 of an interval that starts so long after noon and lasts so long, with its end."""
    end = NOON + (start + length) * UNITS_OF_TIME[unit]
    return grib.interval(grib.time(*end.timetuple()[:6]), kind, unit, length, *words, unit, start)


def on_model_levels():
    """What paper 000 lists: discipline and section 4."""
    rain, moist = [(1, 65), (1, 66), (1, 68), (1, 75)], [(1, 0), (1, 83), (1, 84), (1, 85), (1, 86), (1, 219)]
    for element in [(3, 0), (3, 33), (191, 1), (191, 2)]:
        yield 0, grib.instant(*element, 1, None, 1, 3)
    yield 2, grib.instant(0, 0, 1, None, 1, 3)
    for element, level in (((2, 2), (0, 10)), ((2, 3), (0, 10)), ((0, 0), (1, 15)), ((1, 0), (1, 15))):
        yield 0, grib.instant(*element, 103, level, 1, 3)
    for hours in (1, 2, 3):
        yield from ((0, over(1, 1, 0, hours, *element, 1, None)) for element in rain)
        yield 0, over(0, 1, hours - 1, 1, 4, 7, 1, None)
    for level in range(1, 97):
        yield from ((0, grib.instant(*element, 105, (0, level), 1, 78)) for element in [(3, 0), (2, 2), (2, 3), (0, 0), (2, 9), (3, 10), *moist])


def on_pressure_levels():
    """What papers 001 and 003 list. There the relative humidity goes up to 300 hPa, which makes 92 fields on 16 levels."""
    for element in [(3, 0), (6, 1), (6, 3), (6, 4), (6, 5)]:
        yield 0, grib.instant(*element, 1, None, 0, 30)
    yield 0, grib.instant(3, 1, 101, None, 1, 1)
    for element, level in (((2, 2), (0, 10)), ((2, 3), (0, 10)), ((0, 0), (1, 15)), ((1, 1), (1, 15)), ((0, 0), (0, 2)), ((1, 1), (0, 2))):
        yield 0, grib.instant(*element, 103, level, 1, 264)
    for unit, start, length in ((0, 0, 30), (0, 30, 30), (0, 60, 30), (1, 0, 1), (1, 1, 1), (1, 84, 3), (1, 90, 3)):
        yield 0, over(0, unit, start, length, 4, 7, 1, None)
        yield 0, over(1, unit, 0, start + length, 1, 8, 1, None)
    for pressure in PRESSURES:
        elements = [(3, 5), (2, 2), (2, 3), (0, 0), (2, 8)] + [(1, 1)] * (pressure >= 300)
        yield from ((0, grib.instant(*element, 100, (-2, pressure), 1, 9)) for element in elements)


def in_the_seas():
    """What paper 002 lists, by days. Of its 60 depths it prints the first and the last of each file."""
    for day in (0, 1, 30):
        yield 10, over(0, 2, day, 1, 3, 1, 1, None)
        yield from ((10, over(0, 2, day, 1, *element, 160, (1, depth))) for depth in DEPTHS for element in [(4, 15), (4, 192), (1, 2), (1, 3)])


def asked_of_eccodes(command, name, what, keys):
    """What ecCodes has of each message of a file, by its own keys. Steps are asked for in minutes, which all steps of the papers are."""
    if not shutil.which('grib_ls'):
        debian.install(['libeccodes-tools'])
    if not shutil.which('grib_ls'):
        raise report.Skipped(what, "Debian's package libeccodes-tools could not be installed")
    done = subprocess.run(['grib_ls', '-j', '-s', 'stepUnits=m', '-p', ','.join(keys), name], cwd=command.folder, stdout=subprocess.PIPE, check=True)
    found = json.loads(done.stdout)['messages']
    if found and found[0]['tablesVersionLatest'] < TABLES:
        raise report.Skipped(what, "this machine's ecCodes has version %d of WMO's tables, which is too old" % found[0]['tablesVersionLatest'])
    return found


def plain(text):
    """Words without capitals and blanks at their ends."""
    return ' '.join(str(text).lower().split())


def unit_of_eccodes(unit):
    """A unit by powers, as WMO writes it now: ecCodes has m/s, and for some parameters m s-1."""
    return re.sub(r' ?/([a-z]+)', r' \1-1', plain(unit)).strip()


def moment_of_eccodes(date, clock):
    return datetime.datetime.strptime('%08d%04d' % (date, clock), '%Y%m%d%H%M')


def level_by_eccodes(theirs):
    """The words of ls for a level, from the keys of ecCodes alone, where it calls the surface as it should."""
    name, words, divisor = SURFACES[theirs['typeOfFirstFixedSurface']]
    level, factor = theirs['scaledValueOfFirstFixedSurface'], theirs['scaleFactorOfFirstFixedSurface']
    if name != theirs['nameOfFirstFixedSurface'] or ('%s' in words) == ('MISSING' in (level, factor)):
        return 'a level that ecCodes calls %s' % theirs['nameOfFirstFixedSurface']
    return words % ('%g' % (fractions.Fraction(level) / fractions.Fraction(10) ** factor / divisor)) if '%s' in words else words


def times_by_eccodes(theirs):
    """The words of ls for the reference time and for the valid time or the interval, from the keys of ecCodes alone."""
    reference, end = moment_of_eccodes(theirs['dataDate'], theirs['dataTime']), moment_of_eccodes(theirs['validityDate'], theirs['validityTime'])
    start = reference + datetime.timedelta(minutes=theirs['startStep'])
    if theirs['stepType'] == 'instant':
        return moment(reference), moment(end)
    return moment(reference), valid_time({'valid': start, 'product': (end, {'avg': 0, 'accum': 1}[theirs['stepType']])})


def faults_beside_eccodes(ours, theirs):
    """What ls says otherwise of a field than ecCodes does."""
    numbers, words = (ours['discipline'], ours['category'], ours['parameter']), ours['words']
    if numbers != (theirs['discipline'], theirs['parameterCategory'], theirs['parameterNumber']) or ours['surface'] != theirs['typeOfFirstFixedSurface']:
        yield 'the numbers are %s, and surface %d' % (numbers, ours['surface'])
        return
    is_nameless = numbers in WITHOUT_NAMES and str(theirs['parameterName']) == str(numbers[2])
    name, unit = words['parameter'], words['unit']
    if not is_nameless and OTHER_NAMES.get(plain(name), plain(name)) != plain(theirs['parameterName']):
        yield 'it is %r, and for ecCodes %r' % (name, theirs['parameterName'])
    if not is_nameless and OTHER_UNITS.get(plain(unit), plain(unit)) != unit_of_eccodes(theirs['parameterUnits']):
        yield 'the unit is %r, and for ecCodes %r' % (unit, theirs['parameterUnits'])
    found, wanted = (words['level'], words['reference'], words['valid']), (level_by_eccodes(theirs), *times_by_eccodes(theirs))
    if found != wanted:
        yield 'level and times are %s, and for ecCodes %s' % (found, wanted)


def agrees_with_eccodes(command):
    """ls names the element, the level and the times of every field that the Agency's papers list as the keys of ecCodes have them."""
    asked = [*on_model_levels(), *on_pressure_levels(), *in_the_seas()]
    command.put(b''.join(grib.spliced(field_with(discipline, product), TABLES_AT, bytes([TABLES])) for discipline, product in asked))
    theirs = asked_of_eccodes(command, FILE, BESIDE, ECCODES_KEYS)
    ours = json.loads(command.run('ls', '--json', FILE)[1])[0].get('fields', [])
    listed = {(field['discipline'], field['category'], field['parameter']) for field in ours}
    missing = {row[:3] for paper in list(PAPERS)[:3] for row in PAPERS[paper]} - listed
    if missing or not len(asked) == len(ours) == len(theirs):
        yield '%d fields, of which ls has %d and ecCodes %d; the papers also print %s' % (len(asked), len(ours), len(theirs), sorted(missing))
    faults = ['field %d: %s' % (k, fault) for k, pair in enumerate(zip(ours, theirs)) for fault in faults_beside_eccodes(*pair)]
    yield from faults[:report.MOST_SHOWN]
    if len(faults) > report.MOST_SHOWN:
        yield 'and %d faults more' % (len(faults) - report.MOST_SHOWN)


# ---- Lambert grids

def on_sheets():
    """Files with Lambert grids: the smallest and the largest steps and numbers, the earth of code 6, and grids of both kinds in one message."""
    pole, longest = 90000000, 2147483647
    south = {'stated': -pole, 'upright': 359999999, 'cutting': (-1, -pole), 'radius': None}
    two, cone = grib.two_fields(), fields.two_lambert_fields()
    return {
        'small steps': fields.lambert(3, 2, dx=1, dy=999), 'long steps': fields.lambert(3, 4, first=(-pole, 359999999), dx=longest, dy=longest - 1, **south),
        'a point on a sheet': fields.lambert(1, 1, first=(0, 0), dx=1000, dy=1001, stated=0, upright=0, cutting=(pole, 0)),
        'both kinds': grib.message(two[16:272], cone[37:-4], two[37:272]), 'both kinds, apart': cone + two + cone}


def kinds_are_told(command):
    """The words of ls --json for a grid are those of the table: its size and, where it is a Lambert grid, that it is one."""
    wanted = [(fields.blank(3, 2), '3 x 2'), (fields.lambert(3, 2), '3 x 2, Lambert')]
    wanted += [(SAMPLES['lambert.grib2'], '82 x 67, Lambert'), (SAMPLES['islands.grib2'], '181 x 151')]
    for (_, want), (words, cells) in zip(wanted, words_of(command, [file for file, _ in wanted])):
        if words['grid'] != want or cells[HEAD.index('grid')] != want:
            yield '%r in the table, %r in JSON, and not %r' % (cells[HEAD.index('grid')], words['grid'], want)


# The keys of ecCodes for what a grid of either kind has, by our names. The steps have the same keys, Dx and Dy, on grids of both kinds.
ECCODES_GRIDS = {
    'earth': 'shapeOfTheEarth', 'grid_template': 'gridDefinitionTemplateNumber', 'ni': 'Ni', 'nj': 'Nj', 'points': 'numberOfDataPoints',
    'first.latitude': 'latitudeOfFirstGridPoint', 'first.longitude': 'longitudeOfFirstGridPoint', 'last.latitude': 'latitudeOfLastGridPoint',
    'last.longitude': 'longitudeOfLastGridPoint', 'lambert.stated_latitude': 'LaD', 'lambert.upright_meridian': 'LoV',
    'lambert.cutting_latitude_1': 'Latin1', 'lambert.cutting_latitude_2': 'Latin2'}
ECCODES_STEPS = {'lambert': {'lambert.dx': 'Dx', 'lambert.dy': 'Dy'}, 'regular_ll': {'di': 'Dx', 'dj': 'Dy'}}
BESIDE_GRIDS = 'the grids of ls beside those of ecCodes'


def number_at(field, path):
    """The number that a path such as 'lambert.dx' leads to in the JSON of a field, or None where the grid has no such number."""
    for name in path.split('.'):
        field = field and field[name]
    return field


def grids_agree_with_eccodes(command):
    """ls --json has every number of a Lambert grid and of a grid in degrees as the keys of ecCodes have it, and null where ecCodes has no such key."""
    files = [SAMPLES['lambert.grib2'], SAMPLES['islands.grib2'], grib.grouped()] + [file for name, file in on_sheets().items() if 'both' not in name]
    command.put(b''.join(files))
    theirs = asked_of_eccodes(command, FILE, BESIDE_GRIDS, [*ECCODES_GRIDS.values(), 'Dx', 'Dy', 'gridType', 'tablesVersionLatest'])
    ours = json.loads(command.run('ls', '--json', FILE)[1])[0].get('fields', [])
    if not len(files) == len(ours) == len(theirs):
        yield '%d files, of which ls has %d fields and ecCodes %d' % (len(files), len(ours), len(theirs))
    for k, (field, message) in enumerate(zip(ours, theirs)):
        if ('Lambert' in field['words']['grid']) != (message['gridType'] == 'lambert'):
            yield 'field %d is %s, and for ecCodes %s' % (k, field['words']['grid'], message['gridType'])
        for path, key in {**ECCODES_GRIDS, **ECCODES_STEPS[message['gridType']]}.items():
            their = None if message[key] == 'not_found' else message[key]
            if number_at(field, path) != their:
                yield 'field %d: %s is %s, and for ecCodes %s' % (k, path, number_at(field, path), their)


# ---- show

def lines_of_show(printed):
    """The lines of show: for each section where it starts, and its numbers by name, each as (number, meaning)."""
    found = {}
    for part in printed.split('\n\n')[1:]:
        above, *lines = part.rstrip('\n').split('\n')
        section, start = re.match(r'section (\d)(?:, at octet (\d+))?', above).groups()
        found[int(section)] = (start and int(start), {line[2:24].rstrip(): (line[24:38].rstrip(), line[38:]) for line in lines})
    return found


def millionths(number):
    return '%s%d.%06d' % ('-' if number < 0 else '', abs(number) // 1000000, abs(number) % 1000000)


def thousandths(number):
    return '%d.%03d' % divmod(number, 1000)


def shown_of_kind(grid):
    """The numbers that show is to print of a grid of one kind alone, by their names."""
    if grid['template'] == reading.DEGREES:
        return {
            'last latitude': millionths(grid['last'][0]), 'last longitude': millionths(grid['last'][1]), 'step east Di': millionths(grid['di']),
            'step south Dj': millionths(grid['dj'])}
    cone = grid['lambert']
    return {
        'stated latitude': millionths(cone['stated_latitude']), 'upright meridian': millionths(cone['upright_meridian']),
        'step right Dx': thousandths(cone['dx']), 'step down Dy': thousandths(cone['dy']),
        'cutting latitude 1': millionths(cone['cutting_latitude_1']), 'cutting latitude 2': millionths(cone['cutting_latitude_2'])}


def shown_of(told):
    """The numbers that show is to print of a field, by their names."""
    grid = told['grid']
    level = {'level': 'none'} if told['level'] is None else {"level's factor": told['level'][0], 'scaled level': told['level'][1]}
    kind = {'kind of interval': told['product'][1]} if told['product'] else {}
    return {
        'discipline': told['discipline'], 'status': told['status'], "earth's shape": grid['earth'], 'radius': grid['radius'], 'columns Ni': grid['ni'], 'rows Nj': grid['nj'],
        'points': grid['ni'] * grid['nj'], 'grid template': grid['template'], 'first latitude': millionths(grid['first'][0]),
        'first longitude': millionths(grid['first'][1]), **shown_of_kind(grid),
        'category': told['category'], 'parameter': told['parameter'], 'kind of process': told['process'], 'surface': told['surface'], **level,
        'product template': 8 if told['product'] else 0, **kind, 'N': told['n'], 'R': '0x%08X' % told['r'], 'E': told['e'], 'D': told['d'], 'bits': told['bits'],
        'data template': told['template'], 'bitmap indicator': told['indicator']}


def faults_of_show(command, name, file, k):
    told = reading.describe(file, k)
    status, printed, said = command.run('show', name, str(k))
    if status or said or not printed.startswith('%s, field %d: ' % (name, k)):
        yield '%s %d: it exits with %d, prints %r and says %r' % (name, k, status, printed[:200], said)
        return
    sections = lines_of_show(printed)
    starts = [sections[number][0] for number in (1, 3, 4, 5, 6, 7)]
    numbers = {line: value for _, lines in sections.values() for line, value in lines.items()}
    wrong = [line for line, number in shown_of(told).items() if numbers.get(line, ('',))[0] != str(number)]
    times = {'reference time': told['reference'], **({'start': told['valid'], 'end': told['product'][0]} if told['product'] else {'valid time': told['valid']})}
    wrong += [line for line, when in times.items() if not ''.join(numbers.get(line, ('',))).startswith(moment(when)[:14])]
    wrong += ['as text: ' + line for line, when in times.items() if '  %-22s%s UTC' % (line, moment(when)) not in printed]
    single = struct.unpack('>f', told['r'].to_bytes(4, 'big'))[0]
    wrong += ['the value of R'] * (float(numbers['R'][1].split(':')[0]) != float('%.9g' % single))
    if wrong or starts != told['starts'] or len(numbers) != len(shown_of(told)) + len(times):
        yield '%s %d: wrong or missing: %s; sections start at %s\n%s' % (name, k, wrong, starts, printed)


def is_shown(command):
    """show prints every number of a description with its meaning, section by section, as an independent reading has it."""
    files = {name: octets for name, octets in SAMPLES.items()}
    files.update(('rule%d' % i, file) for i, (_, file, _) in enumerate(fields.rules()[::9]))
    files['grouped'] = grib.grouped()
    files.update(on_sheets())
    put_samples(command)
    asked = 0
    for name, octets in files.items():
        command.put(octets, name)
        for k in range(0 if refusal_of(reading.messages, octets) else len(reading.fields(octets))):
            if not refusal_of(reading.describe, octets, k):
                asked += 1
                yield from faults_of_show(command, name, octets, k)
    if asked < 20:
        yield 'only %d fields were asked for' % asked
    printed = command.run('show', 'two-fields.grib2', '1')[1]
    for words in (
            'total precipitation [kg m-2]', 'meteorology', 'operational', 'moisture', 'forecast', 'ground or water surface', 'an interval', 'a sum',
            'an earlier bitmap', 'simple packing', 'a grid in degrees'):
        if words not in printed:
            yield 'of the rain it does not say %r' % words
    printed = command.run('show', 'lambert.grib2', '0')[1]
    for line in (
            '  grid template         30            a Lambert grid', '  radius                6371000       m', '  first latitude        44.137789     degrees',
            '  stated latitude       30.000000     degrees, LaD: where Dx and Dy are lengths on the earth',
            '  upright meridian      140.000000    degrees, LoV',
            '  step right Dx         50000.000     m', '  step down Dy          50000.000     m', '  cutting latitude 1    60.000000     degrees, Latin 1',
            '  cutting latitude 2    30.000000     degrees, Latin 2'):
        if line not in printed.split('\n'):
            yield 'of the Lambert grid it has no line %r' % line


# ---- values

def places_of(grid):
    """The head of the places, and the place of each point as values is to print it: in degrees, or on the sheet in metres."""
    points = range(grid['ni'] * grid['nj'])
    if grid['template'] == reading.DEGREES:
        return 'latitude longitude', ['%s %s' % tuple(map(millionths, reading.position(grid, n))) for n in points]
    dx, dy = grid['lambert']['dx'], grid['lambert']['dy']
    return 'metres_right metres_down', ['%s %s' % (thousandths(n % grid['ni'] * dx), thousandths(n // grid['ni'] * dy)) for n in points]


def lines_of_values(file, k):
    """What values is to print: the place of each point, and its double in 17 digits."""
    points, present, _, doubles = reading.decode(file, k, 0, 1 << 24, 1 << 24)
    head, places = places_of(reading.describe(file, k)['grid'])
    return [head + ' value'] + ['%s %s' % (places[n], '%.17g' % doubles[n] if present[n] == '1' else 'missing') for n in range(points)]


def has_values(command):
    """values prints every point: its exact place, in degrees or on a sheet, and 17 digits of its value, from which the same double is read; or missing."""
    south = fields.blank(3, 4, first=(0, 359000000), last=(-90000000, 1000000), di=1000001, dj=30000001)
    files = {**SAMPLES, 'grouped': grib.grouped(), 'three': EXAMPLE * 3, 'down to the pole': south, 'a point': fields.blank(1, 1, first=(-1, 0)), **on_sheets()}
    put_samples(command)
    asked = 0
    for name, octets in files.items():
        command.put(octets, name)
        for k in range(0 if refusal_of(reading.messages, octets) else len(reading.fields(octets))):
            if refusal_of(reading.decode, octets, k, 0, 1 << 24, 1 << 24):
                continue
            asked += 1
            status, printed, said = command.run('values', name, str(k))
            wanted = lines_of_values(octets, k)
            lines = printed.split('\n')
            if status or said or lines != wanted + ['']:
                wrong = next((pair for pair in zip(lines, wanted) if pair[0] != pair[1]), ('the number of lines', ''))
                yield '%s %d: it exits with %d and says %r; %r, and not %r' % (name, k, status, said, *wrong)
    if asked < 10:
        yield 'only %d fields were asked for' % asked
    if lines_of_values(EXAMPLE, 0)[1:3] != ['36.000000 135.000000 291.19999999999999', '36.000000 136.000000 missing']:
        yield 'the test does not know the example'
    if lines_of_values(SAMPLES['lambert.grib2'], 0)[82].split()[:2] != ['4050000.000', '0.000']:
        yield 'the test does not know the Lambert sample'


# ---- refusals

def are_refused(command):
    """show and values refuse each sample that is to be refused, with number, place, sentence and what to do, print nothing, and exit with 1."""
    put_samples(command)
    with open(command.path('too-long.grib2'), 'wb') as out:
        out.truncate(make.TOO_LONG)
    for refusal in make.REFUSALS:
        if not refusal.is_for_commands():
            continue
        named = refusal.file if refusal.number < 8 else '%s, field %d' % (refusal.file, refusal.field)
        said = said_of(named, refusal)
        yield command.ended(1, 'values', refusal.file, str(refusal.field), says=said)
        if refusal.number != 16:
            yield command.ended(1, 'show', refusal.file, str(refusal.field), says=said)
        if refusal.number < 8:
            yield command.ended(1, 'ls', refusal.file, says=said)
    for k in ('2', '4294967296', '18446744073709551615'):
        yield command.ended(1, 'values', 'two-fields.grib2', k, says=r'field %s: refused 8 at 0\..*\nskeptolyr: It has 2 fields: choose one from 0 to 1\.\n\Z' % k)
    yield command.ended(1, 'show', 'islands.grib2', '7', says=r'\nskeptolyr: It has 1 field: choose one from 0 to 0\.\n\Z')
    yield command.ended(1, 'show', 'refused/12-scale.grib2', '0', says=r'\nskeptolyr: To see the octets of the field: skeptolyr dump refused/12-scale.grib2 0\n\Z')
    yield command.ended(1, 'check', 'accident.grib2', says=r'\nskeptolyr: To see the octets: skeptolyr dump accident.grib2\n\Z')
    yield command.ended(0, 'values', 'refused/12-scale.grib2', '1', prints='\n'.join(lines_of_values(SAMPLES['refused/12-scale.grib2'], 1)) + '\n')


# ---- files of every kind

def is_no_file(command):
    """A folder and a file that is not there are told of on standard error, and it exits with 3."""
    os.mkdir(command.path('folder'))
    for before, behind in ((['check'], []), (['ls'], []), (['ls', '--json'], []), (['show'], ['0']), (['values'], ['0']), (['point'], ['0', '1']),
                           (['pgm'], ['0', '-'])):
        for name, says in (('folder', 'is a folder'), ('nowhere', 'cannot be opened: No such file or directory')):
            yield command.ended(3, *before, name, *behind, prints='[' * ('--json' in before), says=r'\Askeptolyr: %s: %s\. \w.*\.\n\Z' % (name, says))


def may_not_be_read(command):
    """A file that one may not read is told of with the system's reason, and it exits with 3."""
    command.put(EXAMPLE)
    os.chmod(command.path(FILE), 0)
    if os.access(command.path(FILE), os.R_OK):
        raise report.Skipped('a file that one may not read', 'the tests run as root, who may read all files')
    yield command.ended(3, 'check', FILE, says=r'\Askeptolyr: %s: cannot be opened: Permission denied' % FILE)


def reads_pipes(command):
    """FILE may be -, a pipe, a FIFO, or a file behind a symbolic link; -- ends the options, and a name may then start with -."""
    command.put(EXAMPLE)
    command.put(EXAMPLE, '-odd')
    command.put(EXAMPLE, '--json')
    os.symlink(FILE, command.path('link'))
    counts = '%s: 1 message, 2 fields\n'
    yield command.ended(0, 'check', '-', input=EXAMPLE, prints=counts % 'standard input')
    with open(command.path(FILE), 'rb') as given:
        yield command.ended(0, 'check', '-', stdin=given, prints=counts % 'standard input')
    with open(command.path(FILE), 'rb') as given:
        yield command.ended(0, 'check', '/dev/stdin', stdin=given, prints=counts % '/dev/stdin')
    yield command.ended(0, 'check', 'link', prints=counts % 'link')
    yield command.ended(0, 'check', '--', '-odd', '--json', prints=counts % '-odd' + counts % '--json')
    yield command.ended(0, 'check', '--', '-', input=EXAMPLE, prints=counts % 'standard input')
    yield command.ended(1, 'check', '-', input=b'', says=said_of('standard input', reading.Refused(2, 0)))
    yield command.ended(1, 'check', '-', input=EXAMPLE[:-1], says=said_of('standard input', reading.Refused(3, 0)))
    yield command.ended(0, 'values', '-', '1', input=EXAMPLE, prints='\n'.join(lines_of_values(EXAMPLE, 1)) + '\n')
    os.mkfifo(command.path('fifo'))
    command.put(EXAMPLE * 500, 'many')
    # Whoever opens a FIFO waits for the other end, and would do so for ever if the program did not open it.
    with subprocess.Popen(['timeout', str(PATIENCE), 'sh', '-c', 'exec > fifo; head -c 10 many; sleep 0.1; tail -c +11 many'], cwd=command.folder):
        yield command.ended(0, 'check', 'fifo', prints='fifo: 500 messages, 1000 fields\n')


def takes_no_more(command):
    """Of a pipe without an end no more is taken than one octet past the longest file, and that is refused with 1."""
    if not os.path.exists('/dev/zero'):
        raise report.Skipped('a pipe without an end', 'this machine has no /dev/zero')
    yield command.ended(1, 'check', '/dev/zero', says=said_of('/dev/zero', reading.Refused(1, 0)))
    with open(command.path('longest'), 'wb') as out:
        out.truncate(make.TOO_LONG - 1)
    yield command.ended(1, 'check', 'longest', says=said_of('longest', reading.Refused(4, 0)))


def put_long_work(command):
    """Puts a file that is mapped, since it is long, and of which ls takes long, since it has 8,001 fields. The last has 4096 x 4096 points of 16 bits,
    all 0, which take no room on a disk."""
    points = 4096 * 4096
    field = grib.instant(0, 0, 1, None, 1, 0) + grib.section5(4, bytes(4), 0, 0, 0) + grib.section6(255) + grib.section7([], 0)
    grid = fields.blank(4096, 4096)[37:109]
    body = EXAMPLE[16:109] + field * 8000 + grid + grib.instant(0, 0, 1, None, 1, 0) + grib.section5(points, bytes(4), 0, 0, 16) + grib.section6(255)
    with open(command.path(FILE), 'wb') as out:
        out.write(b'GRIB\xff\xff\0\2' + grib.number(16 + len(body) + 5 + 2 * points + 4, 8) + body + grib.number(5 + 2 * points, 4) + b'\7')
        out.seek(2 * points, os.SEEK_CUR)
        out.write(b'7777')


def is_mapped(process, name):
    """Has the program mapped the file of this name? A program that has ended has not."""
    try:
        with open('/proc/%d/maps' % process.pid, encoding='utf-8') as maps:
            return name in maps.read()
    except OSError:
        return False


def wait_until(holds):
    """Waits until something holds, and says whether it did in time."""
    for _ in range(PATIENCE * 100):
        if holds():
            return True
        time.sleep(0.01)
    return False


def shrinks(command):
    """A file that becomes shorter while it is mapped is told of in one line on standard error, and it exits with 3."""
    put_long_work(command)
    with command.start('ls', FILE) as run:
        if not wait_until(lambda: is_mapped(run, FILE) or run.poll() is not None):
            yield 'the file is not mapped'
        os.truncate(command.path(FILE), 100)
        printed, said = run.communicate(timeout=PATIENCE)
    if run.returncode != 3 or printed or not re.search(r'\Askeptolyr: %s: became shorter while it was read\. \w.*\.\n\Z' % FILE, said.decode()):
        yield 'it exits with %d, prints %r and says %r' % (run.returncode, printed[:300], said)


# ---- standard output

def large_field():
    """A field of 300,000 points, whose lines fill a pipe many times."""
    ni, nj = 600, 500
    grid = grib.section3(ni, nj, (47600000, 120000000), (47600000 - (nj - 1) * 1000, 120000000 + (ni - 1) * 1000), 1000, 1000)
    octets = (bytes(range(256)) * (ni * nj // 256 + 1))[:ni * nj]
    return grib.message(EXAMPLE[16:37], grid, grib.instant(0, 0, 1, None, 1, 0), grib.section5(ni * nj, bytes(4), 0, 0, 8), grib.section6(255), grib.section(7, octets))


def cannot_print(command):
    """Where standard output is full, or was closed before, every subcommand says so and exits with 3."""
    command.put(EXAMPLE)
    command.put(large_field(), 'large')
    lines = [['check', FILE], ['ls', FILE], ['ls', '--json', FILE], ['show', FILE, '0'], ['values', FILE, '0'], ['values', 'large', '0'], ['point', FILE, '0', '0'],
             ['pgm', FILE, '0', '-'], ['pgm', 'large', '0', '-']]
    lines += [['--help'], ['--version'], ['ls', '--help']]
    for words in lines:
        with open('/dev/full', 'wb') as full:
            yield command.ended(3, *words, stdout=full, says=r'\Askeptolyr: standard output: could not be written to: No space left on device\. \w.*\.\n\Z')
        yield command.ended(3, *words, stdout=None, preexec_fn=lambda: os.close(1), says=r'\Askeptolyr: standard output: could not be written to: Bad file descriptor\. ')


def is_not_read(command):
    """Where whoever reads its output has closed the pipe it ends quietly, by SIGPIPE or, where that is ignored, with 3."""
    command.put(large_field(), 'large')
    for restored, status in ((True, -signal.SIGPIPE), (False, 3)):
        for words in (['values', 'large', '0'], ['check', 'large']):
            unread, written = os.pipe()
            os.close(unread)
            yield command.ended(status, *words, stdout=written, restore_signals=restored)
            os.close(written)
    with command.start('values', 'large', '0', restore_signals=True) as run:
        run.stdout.readline()
        run.stdout.close()
        said = run.stderr.read()
    if run.returncode != -signal.SIGPIPE or said:
        yield 'after one line was read it exits with %d and says %r' % (run.returncode, said)


def is_interrupted(command):
    """Ctrl-C and other signals end it at once and quietly while values are printed and while fields are listed."""
    command.put(large_field(), 'large')
    put_long_work(command)
    for number in (signal.SIGINT, signal.SIGTERM, signal.SIGHUP):
        with command.start('values', 'large', '0') as run:
            run.stdout.readline()
            run.send_signal(number)
            run.stdout.read()
            said = run.stderr.read()
        if run.returncode != -number or said:
            yield 'signal %d while it prints: it exits with %d and says %r' % (number, run.returncode, said)
        with command.start('ls', FILE) as run:
            if not wait_until(lambda: is_mapped(run, FILE) or run.poll() is not None):
                yield 'the file is not mapped'
            run.send_signal(number)
            said = run.communicate(timeout=PATIENCE)
        if run.returncode != -number or said != (b'', b''):
            yield 'signal %d while it lists: it exits with %d and says %r' % (number, run.returncode, said)


# ---- terminals

def on_a_terminal(command, *words, stdin=subprocess.DEVNULL, slowly=0.0):
    """The exit status, and what is sent to a terminal that is standard error, while standard output is read slowly."""
    master, other = pty.openpty()
    with command.start(*words, stdin=stdin, stderr=other) as run:
        os.close(other)
        time.sleep(slowly)
        run.stdout.read()
        sent = terminal.sent_to(master)
    return run.returncode, sent


def shows_progress(command):
    """On a terminal long work says how far it is, on one line that is cleared at the end; a refusal stands there alone."""
    if not terminal.are_there():
        raise report.Skipped('what is shown on a terminal', 'this machine has no pseudo terminals')
    command.put(large_field(), 'large')
    put_long_work(command)
    for words, pattern, slowly in ((('values', 'large', '0'), r'rows printed: (\d+)%', 0.5), (('ls', FILE), r'fields listed: (\d+)%', 0.0)):
        status, sent = on_a_terminal(command, *words, slowly=slowly)
        percents = [int(percent) for percent in re.findall(pattern, sent)]
        if status or terminal.screen(sent) != [''] or len(percents) < 2 or percents != sorted(percents) or percents[-1] > 100:
            yield '%s: it exits with %d, shows %s, and leaves %r' % (words, status, percents, terminal.screen(sent))
    with subprocess.Popen(['cat', command.path(FILE)], stdout=subprocess.PIPE) as cat:
        status, sent = on_a_terminal(command, 'check', '-', stdin=cat.stdout)
    if status or terminal.screen(sent) != [''] or not re.search(r'octets read: \d+', sent):
        yield 'of a pipe it exits with %d, and the terminal has %r' % (status, terminal.screen(sent))
    refused = command.run('values', 'large', '7')[2]
    status, sent = on_a_terminal(command, 'values', 'large', '7')
    if status != 1 or terminal.screen(sent) != refused.split('\n') or not refused.startswith('skeptolyr: '):
        yield 'a refusal is shown as %r' % terminal.screen(sent)


# ---- command lines

def is_misused(command):
    """A command line that is no good exits with 2, says what is wrong and how the subcommand is called, and prints nothing."""
    command.put(EXAMPLE)
    general, numbers = r'usage: skeptolyr SUBCOMMAND', ['', '-1', '+1', ' 1', '1 ', '1x', '0x1', '1e0', '1.0', '/', ':', '18446744073709551616', '9' * 23, 'field']
    for words in ([], ['list'], ['CHECK', FILE], [FILE], ['--json'], ['-v'], [''], ['help', 'list'], ['help', 'ls', 'check']):
        yield command.ended(2, *words, says=r'\Askeptolyr: .*\w.*\n%s' % general)
    lines = [['check'], ['check', '--'], ['check', '--json', FILE], ['check', '-q', FILE], ['ls'], ['ls', '--json'], ['ls', '--jason', FILE], ['ls', '-l', FILE]]
    for name in ('show', 'values'):
        lines += [[name], [name, FILE], [name, FILE, '0', '1'], [name, '--json', FILE, '0'], [name, FILE, '0', '-x']] + [[name, FILE, number] for number in numbers]
    for words in lines:
        yield command.ended(2, *words, says=r'\Askeptolyr %s: .*\w.*\nusage: skeptolyr %s .*FILE' % (words[0], words[0]))
    yield command.ended(2, 'ls', '--jason', FILE, says=r'\Askeptolyr ls: there is no such option: --jason\n')
    yield command.ended(2, 'show', FILE, '1x', says=r'\Askeptolyr show: K is not the number of a field: 1x\n')
    yield command.ended(2, 'values', FILE, '-1', says=r'\Askeptolyr values: K is not the number of a field: -1\n')
    for words in (['show', FILE, '01'], ['values', FILE, '00000000000000000000000000001'], ['ls', FILE, '--json'], ['show', '--', FILE, '0'], ['ls', '--json', '--', FILE]):
        if command.run(*words)[0]:
            yield '%s: not taken' % words


def helps(command):
    """--help and --version are answered everywhere, on standard output, whatever else stands there; and the help names every subcommand."""
    version = 'skeptolyr %s\n' % re.search(r'#define SKEPTOLYR_VERSION "(.*)"', manual.text_of(manual.HEADER)).group(1)
    yield command.ended(0, '--version', prints=version)
    _, general, said = command.run('--help')
    missing = [name for name in SUBCOMMANDS if not re.search(r'^  %s +\w' % name, general, re.M)]
    if missing or said or not general.startswith('usage: skeptolyr SUBCOMMAND'):
        yield 'the help does not tell of %s, and says %r' % (missing, said)
    for words in (['-h'], ['help'], ['help', '--help']):
        yield command.ended(0, *words, prints=general)
    for name in SUBCOMMANDS:
        status, told, said = command.run(name, '--help')
        if status or said or not re.match(r'usage: skeptolyr %s .*FILE.*\n\n\w' % name, told):
            yield '%s --help: it exits with %d, prints %r and says %r' % (name, status, told[:200], said)
        for words in (['help', name], [name, '-h'], [name, 'nowhere', '--help']):
            yield command.ended(0, *words, prints=told)
        for words in ([name, '--version'], [name, 'nowhere', '--version']):
            yield command.ended(0, *words, prints=version)
    yield command.ended(3, 'check', '--', '--help', says=r'\Askeptolyr: --help: cannot be opened')


# ---- files that are made

# A subcommand that makes a file: it writes so many octets and then does what its first letter says.
PROBE = r'''
#include "command.h"
#include <signal.h>
#include <stdlib.h>
int main(int argc, char **argv)
{
    struct made *made = start_file(argv[2]);
    size_t count = argc > 3 ? strtoul(argv[3], NULL, 10) : 100000;
    for (size_t i = 0; i < count; i++)
        fputc('x', stream_of(made));
    if (argv[1][0] == 's')
        raise(atoi(argv[1] + 1));
    if (argv[1][0] == 'g')
        give_up("probe", "gave up", 0, "Do nothing");
    if (argv[1][0] == 'e')
        return 0;
    finish_file(made);
    return 0;
}
'''


def with_probe(command):
    """A program of the test's own, compiled of command/output.c and command/report.c, in the same folder."""
    command.put(PROBE.encode(), 'probe.c')
    source = os.path.join(TOP, 'command')
    subprocess.run(['gcc', *archive.FLAGS, '-I' + source, 'probe.c', os.path.join(source, 'output.c'), os.path.join(source, 'report.c'), '-o', 'probe'], cwd=command.folder, check=True)
    os.mkdir(command.path('made'))
    return Command([command.path('probe')], command.path('made'))


def faults_of_making(probe, when, wanted):
    """Is the file what is wanted, octets or None, and is nothing else there but what the test put there?"""
    if probe.get('file') != wanted:
        yield '%s: the file has %s' % (when, 'gone' if probe.get('file') is None else '%d octets' % len(probe.get('file')))
    left = set(os.listdir(probe.folder)) - {'file', 'link', 'fifo', 'folder'}
    if left:
        yield '%s: it leaves %s' % (when, sorted(left))


def keeps_what_was_there(command):
    """A file that was there is kept until the new one is whole: after Ctrl-C, other signals, a full disk and a failure it is as it was, and no part is left."""
    probe = with_probe(command)

    def little_room():
        resource.setrlimit(resource.RLIMIT_FSIZE, (5000, 5000))
        signal.signal(signal.SIGXFSZ, signal.SIG_IGN)

    ends = [('s%d' % number, -number, '', {}) for number in (signal.SIGINT, signal.SIGTERM, signal.SIGHUP, signal.SIGQUIT, signal.SIGPIPE)]
    ends += [('g', 3, r'\Askeptolyr: probe: gave up\. Do nothing\.\n\Z', {}), ('e', 0, '', {})]
    ends += [('w', 3, r'\Askeptolyr: file: could not be written to its end: File too large\. Nothing of it was kept', {'preexec_fn': little_room})]
    for before in (None, b'before'):
        for letter, status, says, more in ends:
            if before is not None:
                probe.put(before, 'file')
            yield probe.ended(status, letter, 'file', says=says, **more)
            yield from faults_of_making(probe, '%s, %s' % (letter, before), before)
    yield probe.ended(0, 'w', 'file')
    yield from faults_of_making(probe, 'whole', b'x' * 100000)


def takes_its_place(command):
    """A new file has the rights that the user's mask leaves, and one that is replaced keeps its own; a link stays, and the file behind it is replaced."""
    probe = with_probe(command)
    yield probe.ended(0, 'w', 'file', preexec_fn=lambda: os.umask(0o027))
    if stat.S_IMODE(os.stat(probe.path('file')).st_mode) != 0o640:
        yield 'a new file has the rights %o' % os.stat(probe.path('file')).st_mode
    os.chmod(probe.path('file'), 0o604)
    os.symlink('file', probe.path('link'))
    yield probe.ended(0, 'w', 'link', '7')
    yield from faults_of_making(probe, 'through a link', b'x' * 7)
    if not os.path.islink(probe.path('link')) or stat.S_IMODE(os.stat(probe.path('file')).st_mode) != 0o604:
        yield 'the link is no link any more, or the rights are %o' % os.stat(probe.path('file')).st_mode
    os.remove(probe.path('file'))
    yield probe.ended(3, 'w', 'link', says=r'\Askeptolyr: link: is a link that leads to no file\. ')
    os.mkdir(probe.path('folder'))
    yield probe.ended(3, 'w', 'folder', says=r'\Askeptolyr: folder: cannot be written: Is a directory\. ')
    yield probe.ended(3, 'w', 'nowhere/file', says=r'\Askeptolyr: nowhere/file: cannot be written: No such file')
    yield probe.ended(0, 'w', 'folder/file', '9')
    if probe.get('folder/file') != b'x' * 9 or os.listdir(probe.path('folder')) != ['file']:
        yield 'in another folder there is %s' % os.listdir(probe.path('folder'))
    yield probe.ended(0, 'w', '-', '3', prints='xxx')


def writes_to_devices(command):
    """What is no regular file is written directly and never removed: a FIFO, also one whose reader goes away, and a device that is full."""
    probe = with_probe(command)
    os.mkfifo(probe.path('fifo'))
    with subprocess.Popen(['timeout', str(PATIENCE), 'cat', probe.path('fifo')], stdout=subprocess.PIPE) as cat:
        yield probe.ended(0, 'w', 'fifo')
        if cat.stdout.read() != b'x' * 100000:
            yield 'a FIFO did not get all octets'
    with subprocess.Popen(['timeout', str(PATIENCE), 'head', '-c', '10', probe.path('fifo')], stdout=subprocess.DEVNULL) as head:
        yield probe.ended(3, 'w', 'fifo', '3000000', restore_signals=False)
        head.wait()
    yield probe.ended(3, 'w', '/dev/full', says=r'\Askeptolyr: /dev/full: could not be written to its end: No space left')
    if not stat.S_ISFIFO(os.stat(probe.path('fifo')).st_mode) or not stat.S_ISCHR(os.stat('/dev/full').st_mode):
        yield 'a FIFO or a device was replaced'


TESTS = [
    is_checked, goes_on, is_listed_as_json, has_odd_names, is_listed_as_table, one_of_each_refusal, parameters_are_named, levels_are_told, times_are_told,
    agrees_with_eccodes, kinds_are_told, grids_agree_with_eccodes, is_shown, has_values, are_refused, is_no_file, may_not_be_read, reads_pipes,
    takes_no_more, shrinks, cannot_print, is_not_read, is_interrupted, shows_progress, is_misused, helps, keeps_what_was_there, takes_its_place,
    writes_to_devices]


def tried(test, words):
    with tempfile.TemporaryDirectory() as folder:
        return report.tried(test, Command(words, folder))


def main():
    words = archive.skeptolyr()
    return report.ended([tried(test, words) for test in TESTS])


if __name__ == '__main__':
    sys.exit(main())
