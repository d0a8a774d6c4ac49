"""The subcommand `point`: points of every sample by number, against an independent reading; the nearest point to a place, against a search through all points
of the grid and against ecCodes; places on the sides of grids and outside; and damaged fields. It ends in 'N passed, M failed'.

SKEPTOLYR_COMMAND may name a ready program to be tested. Without it, command/*.c is compiled with the archive.
"""
import functools
import math
import random
import re
import shutil
import subprocess
import sys
from typing import NamedTuple

from samples import make, shapes
from tests import command as shared
from tests import fields
from tests.help import SEED, grib, reading, report
from tools import archive, debian

FILE = shared.FILE
DEGREE, TURN, POLE = 1000000, 360000000, 90000000
ROOM = 1 << 24
# Angles that differ by less, in radians, are taken for equal: on the earth that is 6 millionths of a metre.
EQUAL = 1e-12
PLACES = 60
LINE = re.compile(r'point (\d+) latitude (\S+) longitude (\S+) value (\S+)(?: distance_km (\d+\.\d{3}))?\n')


# ---- points by number

def line_of(file, k, n):
    """What is to be printed of point n, of a field that is decoded."""
    _, present, _, doubles = reading.decode(file, k, 0, ROOM, ROOM)
    head, places = shared.places_of(reading.describe(file, k)['grid'])
    names, place = head.split(), places[n].split()
    return 'point %d %s %s %s %s value %s\n' % (n, names[0], place[0], names[1], place[1], '%.17g' % doubles[n] if present[n] == '1' else 'missing')


def chosen_points(file, k):
    """All points of a small field. Of a large one the first, the last, some in between, and some that are missing."""
    points, present, _, _ = reading.decode(file, k, 0, ROOM, ROOM)
    if points <= 40:
        return range(points)
    rng, missing = random.Random(SEED), [n for n, bit in enumerate(present) if bit == '0']
    return [0, 1, points - 2, points - 1] + rng.sample(range(points), 12) + rng.sample(missing, min(8, len(missing)))


def is_told_by_number(command):
    """A point is told by its number, with its place and its value as an independent reading has them, of every sample, of both kinds of grid and of packing."""
    south = fields.blank(3, 4, first=(0, 359000000), last=(-POLE, 1000000), di=1000001, dj=30000001)
    files = {**make.samples(), 'grouped': grib.grouped(), 'down to the pole': south, 'a point': fields.blank(1, 1, first=(-1, 0)), **shared.on_sheets()}
    shared.put_samples(command)
    asked, missing = 0, 0
    for name, file in files.items():
        command.put(file, name)
        for k in range(0 if shared.refusal_of(reading.messages, file) else len(reading.fields(file))):
            if shared.refusal_of(reading.decode, file, k, 0, ROOM, ROOM):
                continue
            for n in chosen_points(file, k):
                line = line_of(file, k, n)
                asked, missing = asked + 1, missing + line.endswith('missing\n')
                yield command.ended(0, 'point', name, str(k), str(n), prints=line)
    if asked < 100 or missing < 15:
        yield 'only %d points were asked for, %d of them missing' % (asked, missing)
    if line_of(grib.two_fields(), 0, 2) != 'point 2 latitude 35.000000 longitude 135.000000 value 274.80000000000001\n':
        yield 'the test does not know the example'


# ---- the nearest point

class Nearest(NamedTuple):
    """The nearest point to a place: its number, the angle between the two in radians, and the numbers of all points that are as near as a double can tell."""
    n: int
    angle: float
    equal: set


def unit_vector(latitude, longitude):
    north, east = math.radians(latitude / DEGREE), math.radians(longitude / DEGREE)
    return math.cos(north) * math.cos(east), math.cos(north) * math.sin(east), math.sin(north)


def between(longitude, other):
    """What lies between two longitudes, the shorter way around."""
    east = (other - longitude) % TURN
    return min(east, TURN - east)


@functools.lru_cache(maxsize=None)
def vectors(ni, nj, first, last):
    """A vector and a longitude for each point of a grid."""
    positions = [reading.position({'ni': ni, 'nj': nj, 'first': first, 'last': last}, n) for n in range(ni * nj)]
    return [(unit_vector(*at), at[1]) for at in positions]


def nearest(grid, latitude, longitude):
    """The nearest point, from all points of the grid: the length of the chord tells. Of those that are equally near, the nearest in longitude and then the
    first."""
    place, points = unit_vector(latitude, longitude), vectors(grid['ni'], grid['nj'], grid['first'], grid['last'])
    angles = [2 * math.asin(min(1.0, math.dist(place, vector) / 2)) for vector, _ in points]
    least = min(angles)
    equal = [(between(longitude, points[n][1]), n) for n, angle in enumerate(angles) if angle <= least + EQUAL]
    return Nearest(min(equal)[1], least, {n for _, n in equal})


def is_outside(grid, latitude, longitude):
    """Is the place more than half a step outside? The steps of a file may be up to a millionth too short."""
    (north, west), (south, _) = grid['first'], grid['last']
    width, east = reading.span_east(grid['first'], grid['last']), (longitude - west) % TURN
    beyond = 0 if east <= width else min(east - width, TURN - east)
    return 2 * max(latitude - north, south - latitude) > grid['dj'] + 1 or 2 * beyond > grid['di'] + 1


def degrees(number):
    return shared.millionths(number)


def fault_of_place(command, grid, latitude, longitude, words=None):
    """What is wrong with the answer about a place, in words, or None. The words are what is typed, unless they are the degrees in full. Which of equally near
    points is taken is not asked here."""
    words = words or (degrees(latitude), degrees(longitude))
    if is_outside(grid, latitude, longitude):
        return command.ended(1, 'point', FILE, '0', *words, says=r'\Askeptolyr: %s, field 0: no point is near latitude ' % FILE)
    status, printed, said = command.run('point', FILE, '0', *words)
    match, wanted = LINE.fullmatch(printed), nearest(grid, latitude, longitude)
    if status or said or not match:
        return '%s: it exits with %d, prints %r and says %r' % (words, status, printed, said)
    n, kilometres = int(match[1]), wanted.angle * grid['radius'] / 1000
    is_placed = n in wanted.equal and (match[2], match[3]) == tuple(map(degrees, reading.position(grid, n)))
    if not is_placed or match[5] is None or abs(float(match[5]) - kilometres) > 0.00051:
        return '%s: it prints %r, and not point %d, %.3f km away' % (words, printed, wanted.n, kilometres)
    return None


# Grids in degrees: columns, rows, first point, steps; and the last point, where the steps do not lead to it.
GRIDS = {
    'small': (2, 2, (36000000, 135000000), 1000000, 1000000, None),
    'thirds of a degree': (31, 22, (36000000, 135000000), 333333, 333333, (29000000, 145000000)),
    'over the meridian of 0': (9, 5, (2000000, 358000000), 500000, 1000000, None),
    'around the earth, with both poles': (72, 37, (POLE, 0), 5000000, 5000000, None),
    'around the earth, from the east of 0': (36, 18, (85000000, 5000000), 10000000, 10000000, None),
    'around the earth, by sevenths': (84, 5, (10000000, 0), 4285714, 5000000, (-10000000, 355714286)),
    'far columns at the north pole': (6, 40, (POLE, 0), 60000000, 100000, None),
    'far columns at the south pole': (3, 30, (-87000000, 30000000), 120000000, 100000, (-89900000, 270000000)),
    'two columns': (2, 30, (89500000, 0), 180000000, 100000, None),
    'one column': (1, 19, (POLE, 200000000), 150000000, 10000000, None),
    'one row': (36, 1, (60000000, 0), 10000000, 10000000, None),
    'one point': (1, 1, (-45000000, 300000000), 3000000, 2000000, None),
    'millionths': (9, 9, (4, 359999996), 1, 1, None),
    'all in one place': (4, 3, (10000000, 20000000), 0, 0, None),
    'columns in pairs': (7, 6, (10, 100), 1, 1, (7, 103)),
}


def grid_file(name):
    ni, nj, first, di, dj, last = GRIDS[name]
    return fields.blank(ni, nj, first=first, last=last, di=di, dj=dj)


def places_for(rng, grid):
    """Places in the area of a grid and up to a step and a half around it: anywhere, on its lines, and on either side of the middle between two of them."""
    height, width = grid['first'][0] - grid['last'][0], reading.span_east(grid['first'], grid['last'])
    for turn in range(PLACES):
        latitude, longitude = reading.position(grid, rng.randrange(grid['ni'] * grid['nj']))
        if turn % 3 == 0:
            latitude += rng.randint(-2, 2) * (grid['dj'] // 2) + rng.randint(-1, 1)
            longitude += rng.randint(-2, 2) * (grid['di'] // 2) + rng.randint(-1, 1)
        elif turn % 3 == 1:
            latitude = rng.randint(grid['last'][0] - grid['dj'], grid['last'][0] + height + grid['dj'])
            longitude = rng.randint(grid['first'][1] - grid['di'], grid['first'][1] + width + grid['di'])
        elif turn % 2:
            latitude += rng.randint(-grid['dj'], grid['dj'])
        else:
            longitude += rng.randint(-grid['di'], grid['di'])
        yield max(-POLE, min(POLE, latitude)), longitude % TURN


def is_nearest(command):
    """The nearest point to a place is the one that a search through all points finds, at its distance, on grids of many kinds; and where the place is outside
    the grid, that is said."""
    rng, outside, other_row = random.Random(SEED), 0, 0
    for name in GRIDS:
        command.put(grid_file(name))
        grid = reading.describe(grid_file(name), 0)['grid']
        for latitude, longitude in places_for(rng, grid):
            fault = fault_of_place(command, grid, latitude, longitude)
            yield fault and '%s: %s' % (name, fault)
            outside += is_outside(grid, latitude, longitude)
            apart = [abs(reading.position(grid, row * grid['ni'])[0] - latitude) for row in range(grid['nj'])]
            other_row += not is_outside(grid, latitude, longitude) and apart[nearest(grid, latitude, longitude).n // grid['ni']] > min(apart)
    if outside < 50 or other_row < 10:
        yield 'of the places %d are outside, and of %d the nearest point is not in the nearest row' % (outside, other_row)


def is_nearest_in_samples(command):
    """So it is in the samples on grids in degrees, whose points have values of their own: the value is that of the point."""
    rng = random.Random(SEED)
    for name, k in (('two-fields.grib2', 1), ('islands.grib2', 0)):
        file = make.samples()[name]
        grid = reading.describe(file, k)['grid']
        command.put(file)
        for _ in range(8):
            latitude, longitude = rng.randint(grid['last'][0], grid['first'][0]), rng.randint(grid['first'][1], grid['last'][1])
            status, printed, said = command.run('point', FILE, str(k), degrees(latitude), degrees(longitude))
            wanted = line_of(file, k, nearest(grid, latitude, longitude).n)
            if status or said or not printed.startswith(wanted[:-1] + ' distance_km '):
                yield '%s at %s: it prints %r, and not %r' % (name, (latitude, longitude), printed, wanted)


# (grid, latitude, longitude, point): where several points are equally near, or where the nearest row in latitude is not the one of the nearest point.
TIES = [
    ('small', '35.5', '135', 0), ('small', '35.5', '136', 1), ('small', '36', '135.5', 0), ('small', '35', '135.5', 2), ('small', '35.5', '135.5', 0),
    ('over the meridian of 0', '0.5', '359', 11), ('over the meridian of 0', '0', '0.25', 22), ('over the meridian of 0', '0.5', '359.75', 12),
    ('around the earth, with both poles', '90', '122.5', 24), ('around the earth, with both poles', '90', '-2.5', 0),
    ('around the earth, with both poles', '-90', '359', 36 * 72), ('around the earth, with both poles', '2.5', '5', 17 * 72 + 1),
    ('around the earth, with both poles', '0', '2.5', 18 * 72), ('around the earth, with both poles', '0', '357.5', 18 * 72),
    ('far columns at the north pole', '89.4', '30', 6 * 5), ('far columns at the north pole', '89', '30', 6 * 9), ('far columns at the north pole', '90', '30', 0),
    ('one column', '0', '200', 9), ('one column', '5', '200', 8), ('all in one place', '10', '20', 0), ('columns in pairs', '0.0000085', '0.000102', 10),
]


def ties_are_broken(command):
    """Of points that are equally near it is the nearest in longitude, at a pole, and then the first: that in the north, and then the first of its row; but the
    nearest on the sphere is not always in the row that is nearest in latitude."""
    for name, latitude, longitude, n in TIES:
        command.put(grid_file(name))
        printed = command.run('point', FILE, '0', latitude, longitude)[1]
        if not printed.startswith('point %d ' % n):
            yield '%s, %s %s: it prints %r, and not point %d' % (name, latitude, longitude, printed, n)
        grid = reading.describe(grid_file(name), 0)['grid']
        searched = nearest(grid, *(round(float(word) * DEGREE) for word in (latitude, longitude))).n
        if 'pairs' not in name and searched != n:
            yield '%s, %s %s: the search through all points finds %d' % (name, latitude, longitude, searched)


# ---- degrees as they are typed

# Latitudes, or longitudes, that are typed, and the millionths that they are.
TYPED = [
    ('0', 0), ('-0', 0), ('+0', 0), ('00000', 0), ('0.', 0), ('.0', 0), ('-.000001', -1), ('.000003', 3), ('+.000002', 2), ('0.0000015', 2), ('0.00000149999999', 1),
    ('-0.0000015', -2), ('-0.00000149', -1), ('0.0000004999999999999999999999999999999', 0), ('0.0000005', 1), ('-0.0000005', -1), ('0.00000350', 4),
    ('000000000000000000000000000000.000004', 4), ('-000.000004', -4)]
# What is the same longitude.
SAME_LONGITUDES = [('360', '0'), ('-180', '180'), ('-0.25', '359.75'), ('359.9999996', '0'), ('-179.9999999', '180'), ('+1', '1.000000')]
NO_DEGREES = [
    '', '-', '+', '.', '-.', '--1', '+-1', '1,5', '1..5', '1.5.', '1e1', '1E1', '0x1', 'inf', 'nan', 'ten', ' 1', '1 ', '1N', "1'", '1/2', '\u0661', '1_0']


def is_typed(command):
    """Degrees are taken as they are typed, to the millionth, and further decimals are rounded; longitudes are the same a turn away."""
    command.put(grid_file('millionths'))
    grid = reading.describe(grid_file('millionths'), 0)['grid']
    for word, number in TYPED:
        yield fault_of_place(command, grid, number, 0, (word, '0'))
        yield fault_of_place(command, grid, 0, number % TURN, ('0', word))
        yield fault_of_place(command, grid, number, number % TURN, (word, word))
    command.put(grid_file('around the earth, with both poles'))
    for word, same in SAME_LONGITUDES:
        printed = command.run('point', FILE, '0', '10', same)[1]
        yield command.ended(0, 'point', FILE, '0', '10', word, prints=printed or 'a line')
    for word in ('90', '-90', '90.0000004', '-90.00000049'):
        if command.run('point', FILE, '0', word, '0')[0]:
            yield 'latitude %s is not taken' % word


def is_not_typed(command):
    """What is no number of degrees within its range is a misuse, whose line says which range that is; a word that is an option is none, and neither is -1."""
    command.put(grid_file('small'))
    usage = r'\nusage: skeptolyr point FILE K \{ N \| LATITUDE LONGITUDE \}\n'
    latitude, longitude = (r'\Askeptolyr point: %s is not a number of degrees from -%s, such as .*: ' % words for words in (('LATITUDE', '90 to 90'), ('LONGITUDE', '180 to 360')))
    for word in NO_DEGREES:
        told = re.escape(word) or 'an empty word'
        words = ['--'] if word.startswith('-') else []
        yield command.ended(2, 'point', *words, FILE, '0', word, '135', says=latitude + told + usage)
        yield command.ended(2, 'point', *words, FILE, '0', '35', word, says=longitude + told + usage)
    for word in ('90.000001', '-90.0000005', '91', '-91', '135', '9' * 400):
        yield command.ended(2, 'point', FILE, '0', word, '135', says=latitude + re.escape(word) + usage)
    for word in ('360.000001', '-180.000001', '361', '-181', '1' + '0' * 400):
        yield command.ended(2, 'point', FILE, '0', '35', word, says=longitude + re.escape(word) + usage)
    number = r'\Askeptolyr point: N is not the number of a point, and a place is two words, LATITUDE LONGITUDE: %s' + usage
    for word in ('-1', '35.5', '35.5,135', '+1', '1x', '18446744073709551616', '1e3', ' 1'):
        yield command.ended(2, 'point', FILE, '0', word, says=number % re.escape(word))
    yield command.ended(2, 'point', FILE, '0', '', says=number % 'an empty word')
    yield command.ended(2, 'point', FILE, '-1', '0', says=r'\Askeptolyr point: K is not the number of a field: -1' + usage)
    yield command.ended(2, 'point', FILE, '0', '-x', '135', says=r'\Askeptolyr point: there is no such option: -x' + usage)
    for words in ([], [FILE], [FILE, '0'], [FILE, '0', '35', '135', '1'], ['--', FILE, '0', '35', '135', '--json']):
        yield command.ended(2, 'point', *words, says=r'\Askeptolyr point: .*\w.*' + usage)
    for words in (['--', FILE, '0', '-0', '-0'], [FILE, '0', '--', '-5', '-179'], [FILE, '0', '-5', '-179']):
        yield command.ended(1, 'point', *words, says=r'\Askeptolyr: %s, field 0: no point is near latitude ' % FILE)


# ---- sides and outside

def sides_are_half_a_step_away(command):
    """A place half a step outside a side of the grid has a nearest point, and one a millionth further has none: then the area is told, and the status is 1."""
    command.put(grid_file('over the meridian of 0'))
    grid, half, more = reading.describe(grid_file('over the meridian of 0'), 0)['grid'], (500000, 250000), 1
    for latitude, longitude, is_answered in (
            (2000000 + half[0], 0, True), (2000000 + half[0] + more, 0, False), (-2000000 - half[0], 0, True), (-2000000 - half[0] - more, 0, False),
            (0, 358000000 - half[1], True), (0, 358000000 - half[1] - more, False), (0, 2000000 + half[1], True), (0, 2000000 + half[1] + more, False),
            (0, 180000000, False), (POLE, 0, False), (-POLE, 180000000, False)):
        if is_outside(grid, latitude, longitude) == is_answered:
            yield 'the test does not know whether %s is outside' % ((latitude, longitude),)
        yield fault_of_place(command, grid, latitude, longitude)
    yield command.ended(
        1, 'point', FILE, '0', '-12.5', '-170', says=r'\Askeptolyr: %s, field 0: no point is near latitude -12\.500000, longitude 190\.000000, which is outside the '
        r'grid\.\nskeptolyr: It goes from 2\.000000 south to -2\.000000, and from 358\.000000 east to 2\.000000: name a place there, or at most half a step '
        r'outside\.\n\Z' % FILE)


def has_no_degrees(command):
    """On a Lambert grid a place in degrees is refused, and it is said how to ask instead."""
    file = make.samples()['lambert.grib2']
    command.put(file)
    said = (r'\Askeptolyr: %s, field 0: its grid is a Lambert grid, whose points are placed in metres, and not by latitude and longitude\.\n'
            r'skeptolyr: Ask for a point by its number: skeptolyr point %s 0 N, where N is 82 x row \+ column, counted from 0 in the upper left\.\n\Z')
    yield command.ended(1, 'point', FILE, '0', '35', '135', says=said % (FILE, FILE))
    yield command.ended(1, 'point', '-', '0', '-35', '-135', says=said % ('standard input', 'FILE'), input=file)
    yield command.ended(0, 'point', FILE, '0', str(82 * 3 + 5), prints=line_of(file, 0, 82 * 3 + 5))


# ---- refusals and damage

def are_refused(command):
    """Each sample that is to be refused is refused with number, place, sentence and what to do, whatever point or place is asked for; and so is a point that a
    field does not have."""
    shared.put_samples(command)
    with open(command.path('too-long.grib2'), 'wb') as out:
        out.truncate(make.TOO_LONG)
    for refusal in make.REFUSALS:
        named = refusal.file if refusal.number < 8 else '%s, field %d' % (refusal.file, refusal.field)
        if refusal.is_for_commands() and refusal.number != 16:
            for words in (['0'], ['99999999'], ['35', '135'], ['-35', '-135']):
                yield command.ended(1, 'point', refusal.file, str(refusal.field), *words, says=shared.said_of(named, refusal))
    for n in ('4', '4294967296', '18446744073709551615'):
        said = shared.said_of('two-fields.grib2, field 1', reading.Refused(17, 0)) + r'skeptolyr: It has 4 points: choose one from 0 to 3\.\n\Z'
        yield command.ended(1, 'point', 'two-fields.grib2', '1', n, says=said)
    command.put(fields.blank(1, 1))
    yield command.ended(1, 'point', FILE, '0', '1', says=r'\nskeptolyr: It has 1 point: choose one from 0 to 0\.\n\Z')
    yield command.ended(1, 'point', 'lambert.grib2', '0', str(82 * 67), says=r': refused 17 at 0\. .*\nskeptolyr: It has 5494 points: choose one from 0 to 5493\.\n\Z')


def damaged_fields():
    """Fields of template 5.3 whose second integer was changed: (the file, its good copy, the second integer). Each has missing points, and its integers go
    below 0 or above the largest one at some point."""
    yield make.samples()['refused/16-difference.grib2'], grib.grouped(), 4
    rng, marks, most = random.Random(SEED), bytes([0, 1, 1, 0, 1, 1, 1, 0, 1, 1] * 3 + [0, 0]), 2147483647
    grid = grib.section3(8, 4, (36000000, 135000000), (33000000, 142000000), 1000000, 1000000)
    for low, second in ((1000, 800), (1000, 900), (1000, 930), (most - 5000, most - 4500), (most - 100, most)):
        values = [rng.randint(low, low + 20) for _ in range(sum(marks))]
        five, seven = shapes.complex_packing(values, [7, 5, 9], bytes(4), 0, 0, 1, 4, extra=4)
        good = grib.message(grib.two_fields()[16:37], grid, grib.instant(0, 0, 1, None, 1, 1), five, grib.section6(0, shapes.bitmap(marks)), seven)
        yield grib.spliced(good, reading.fields(good)[0][1][7][0] + 5 + 4, grib.number(second, 4)), good, second


def integers_of(good, second):
    """The integers of a good field after its second one has become another: the differences of the second order stay as they are."""
    before = reading.decode(good, 0, 0, ROOM, ROOM)[2]
    found = [before[0], second]
    for a, b, c in zip(before, before[1:], before[2:]):
        found.append(c - 2 * b + a + 2 * found[-1] - found[-2])
    return found


def points_before_the_damage(command):
    """Of a damaged field that decode refuses with 16 each point before the damage is told, each present one from there on is refused with 16 in the header's
    words, and missing points are missing; by place it is the same."""
    for file, good, second in damaged_fields():
        command.put(file)
        told = reading.describe(file, 0)
        xs, bits, place = integers_of(good, second), told['bits present'], told['starts'][-1]
        yield command.ended(1, 'values', FILE, '0', says=shared.said_of(FILE + ', field 0', reading.Refused(16, place)))
        refused = 0
        for n, bit in enumerate(bits):
            at = bits[:n + 1].count('1')
            latitude, longitude = map(degrees, reading.position(told['grid'], n))
            start = 'point %d latitude %s longitude %s value ' % (n, latitude, longitude)
            is_told = bit == '0' or all(0 <= x <= 2147483647 for x in xs[:at])
            refused += not is_told
            value = 'missing' if bit == '0' else '%.17g' % reading.double(told, xs[at - 1])
            for words, behind in (([str(n)], ''), ([latitude, longitude], ' distance_km 0.000')):
                if is_told:
                    yield command.ended(0, 'point', FILE, '0', *words, prints=start + value + behind + '\n')
                else:
                    yield command.ended(1, 'point', FILE, '0', *words, says=shared.said_of(FILE + ', field 0', reading.Refused(16, place)))
        if not 3 <= refused < len(bits) - 3:
            yield 'a second integer of %d: %d of %d points are refused' % (second, refused, len(bits))


# ---- beside ecCodes

BESIDE = 'the nearest points beside those of ecCodes'


def by_eccodes(command, latitude, longitude):
    """The nearest point by ecCodes: its number, its place and its distance in two decimals, and its value in six digits."""
    words = ['grib_ls', '-l', '%s,%s,1' % (degrees(latitude), degrees(longitude)), '-p', 'count', FILE]
    printed = subprocess.run(words, cwd=command.folder, stdout=subprocess.PIPE, check=True, text=True).stdout
    match = re.search(r'Grid Point chosen #\d index=(\d+) latitude=(\S+) longitude=(\S+) distance=(\S+)', printed)
    return int(match[1]), float(match[2]), float(match[3]), float(match[4]), float(printed.split('\n')[2].split()[1])


def agrees_with_eccodes(command):
    """The nearest point and its distance are those of grib_ls -l, for places in the islands, and so is the value where the point is present."""
    if not shutil.which('grib_ls'):
        debian.install(['libeccodes-tools'])
    if not shutil.which('grib_ls'):
        raise report.Skipped(BESIDE, "Debian's package libeccodes-tools could not be installed")
    file = make.samples()['islands.grib2']
    rng, present = random.Random(SEED), reading.decode(file, 0, 0, ROOM, ROOM)[1]
    command.put(file)
    for _ in range(15):
        latitude, longitude = rng.randint(21100000, 45900000), rng.randint(124100000, 153900000)
        printed = command.run('point', FILE, '0', degrees(latitude), degrees(longitude))[1]
        match, (n, *place, distance, value) = LINE.fullmatch(printed), by_eccodes(command, latitude, longitude)
        ours = [float(word) for word in match.group(2, 3, 5)] if match else [0] * 3
        # ecCodes counts by the step that the file tells, which is cut, and so places the points of this grid up to 14 m off.
        same = match and int(match[1]) == n and all(abs(our - their) < 0.0052 for our, their in zip(ours, place)) and abs(ours[2] - distance) < 0.03
        if not same or (match[4] == 'missing') != (present[n] == '0') or (present[n] == '1' and abs(float(match[4]) - value) > 0.00052):
            yield '%s %s: %r, and for ecCodes %s' % (degrees(latitude), degrees(longitude), printed, (n, *place, distance, value))


# ---- files of every kind

def reads_pipes(command):
    """FILE may be - or a pipe, by number and by place."""
    file = grib.two_fields()
    for words in (['-', '1', '2'], ['/dev/stdin', '1', '2']):
        yield command.ended(0, 'point', *words, input=file, prints=line_of(file, 1, 2))
    yield command.ended(0, 'point', '-', '1', '35.000', '135', input=file, prints=line_of(file, 1, 2)[:-1] + ' distance_km 0.000\n')
    yield command.ended(1, 'point', '-', '0', '0', input=b'', says=shared.said_of('standard input', reading.Refused(2, 0)))


TESTS = [
    is_told_by_number, is_nearest, is_nearest_in_samples, ties_are_broken, is_typed, is_not_typed, sides_are_half_a_step_away, has_no_degrees, are_refused,
    points_before_the_damage, agrees_with_eccodes, reads_pipes]


def main():
    words = archive.skeptolyr()
    return report.ended([shared.tried(test, words) for test in TESTS])


if __name__ == '__main__':
    sys.exit(main())
