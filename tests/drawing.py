"""The pictures that `skeptolyr draw` makes, every pixel of them, against an independent reading of the file and of what is to be drawn; how small they are;
and what is said, answered and left behind where there is no picture. Also the pictures of examples/draw.c. It ends in 'N passed, M failed'.

SKEPTOLYR_COMMAND may name a ready program to be tested. Without it, command/*.c is compiled with the archive.
"""
import decimal
import fractions
import math
import os
import pty
import random
import re
import resource
import signal
import stat
import struct
import subprocess
import sys
import tempfile
import zlib

from samples import make, shapes
from tests import decoding
from tests.help import SEED, grib, manual, reading, report, terminal
from tools import TOP, archive

MOST_OCTETS, MOST_POINTS = 268435456, 16777216
FILE, PICTURE = 'field.grib2', 'picture.png'
EXAMPLE = grib.two_fields()


# ---- the fields

def message_of(*parts):
    return grib.message(decoding.START, *parts)


def one_field(ni, nj, packed, six=decoding.ALL, first=(47600000, 120000000), step=(1000, 1000), farther=(0, 0)):
    """The sections of a grid with one field: (section 5, section 7), a bitmap, the first point, the steps to the east and to the south, and how much
    farther east and south than the steps lead the last point lies."""
    last = first[0] - (nj - 1) * step[1] - farther[1], (first[1] + (ni - 1) * step[0] + farther[0]) % 360000000
    return grib.section3(ni, nj, first, last, *step) + decoding.INSTANT + packed[0] + six + packed[1]


def six_points_each():
    """Three messages with two grids each, all of six points: that the grid is the right one shows in the shape of the picture alone."""
    numbers = [decoding.simple([7 * n % 13 + 10 * k for n in range(6)], 7) for k in range(7)]
    more = decoding.INSTANT + numbers[6][0] + decoding.ALL + numbers[6][1]
    first = message_of(one_field(3, 2, numbers[0]) + more, one_field(2, 3, numbers[1]))
    second = message_of(one_field(6, 1, numbers[2]), one_field(1, 6, numbers[3]) + more)
    return first + second + message_of(one_field(2, 3, numbers[4]), one_field(3, 2, numbers[5]))


def packed_as(values, bits, reference=0.0, e=0, d=0):
    return decoding.simple(values, bits, struct.pack('>f', reference), e, d)


def some(ni, nj):
    return packed_as([n * n % 97 for n in range(ni * nj)], 7)


def on_sheet(ni, nj, dx, dy, packed=None, six=decoding.ALL, first=(44137789, 102008758)):
    """A file of one field on a Lambert grid: its steps in thousandths of a metre, (section 5, section 7), and a bitmap."""
    packed = packed or some(ni, nj)
    return message_of(grib.section3_lambert(ni, nj, first, dx, dy) + decoding.INSTANT + packed[0] + six + packed[1])


def sheets():
    """Lambert grids: (columns, rows, steps to the right and down in thousandths of a metre)."""
    longest = 2147483647
    yield 82, 67, 50000000, 50000000
    # Steps that differ, a little, much, and more than the picture follows; either may be the longer one.
    yield 40, 30, 5000000, 7500000
    yield 40, 30, 7500000, 5000000
    yield 7, 5, 1000, 1001
    yield 300, 200, 3000000, 3000001
    yield 61, 47, 3141593, 2718282
    yield 6, 9, 1000, 7999
    yield 6, 9, 8000, 1000
    yield 6, 9, 1000, 8001
    yield 3, 40, 1, longest
    yield 40, 3, longest, 1
    yield 700, 10, 1000, 1500
    yield 10, 700, 1500, 1000
    # The shortest and the longest steps, one column, one row, and one point.
    yield 20, 20, 1, 1
    yield 3, 3, longest, longest
    yield 600, 2, longest, longest
    yield 1, 1, 1, longest
    yield 1, 5, 10000, 30000
    yield 5, 1, 30000, 10000
    yield 2, 2, 1000000000, 1000000000
    # Half a step behind the last point a round kilometre lies on the edge, or just behind it.
    yield 11, 3, 95238095, 95238095
    yield 11, 3, 95238096, 95238096


def grids():
    """Grids all over the earth: (columns, rows, first point, steps)."""
    yield 12, 7, (90000000, 0), (30000000, 30000000)
    yield 36, 19, (90000000, 170000000), (10000000, 10000000)
    yield 40, 30, (2000000, 179000000), (62500, 50000)
    yield 40, 30, (-60123456, 359900000), (1, 2)
    yield 5, 4, (333333, 123456), (777777, 99)
    yield 1, 1, (-12345678, 359999999), (4294967295, 4294967295)
    yield 7, 1, (0, 180000000), (0, 0)
    yield 3, 2, (500000, 359500000), (500000, 500000)
    yield 600, 2, (-89950000, 1), (100000, 50000)
    yield 600, 2, (47600105, 1), (1000, 5)
    yield 2, 3, (90000000, 1), (1000, 40000000)
    yield 2, 3, (-10000000, 1), (1000, 40000000)


def uneven_grids():
    """Grids whose last point does not lie where the steps lead: (columns, rows, first point, steps, how much farther it lies)."""
    for farther in (-300, 300):
        yield 301, 2, (10000000, 29999900), (2, 1000), (farther, 0)
        yield 2, 301, (30000100, 10000000), (1000, 2), (0, farther)
        yield 301, 301, (150, 359999850), (1, 1), (-farther, farther)
        yield 301, 301, (89999950, 179999000), (7, 2), (farther, -farther)
    # Half a step past the last point, and before the first, a round degree lies on the edge, or just behind it.
    for farther in (-10, -1, 1, 10):
        yield 11, 2, (10000000, 29989500), (1000, 1000), (farther, 0)
        yield 11, 2, (10000000, 30000500), (1000, 1000), (farther, 0)
        yield 2, 11, (30010500, 10000000), (1000, 1000), (0, farther)
        yield 2, 11, (29999500, 10000000), (1000, 1000), (0, farther)
    # A span of 0 where the steps are not, a span shorter than a millionth a point, and a span where the steps are 0.
    yield 7, 2, (10000000, 5), (1, 1000), (-6, 0)
    yield 2, 7, (5, 10000000), (1000, 1), (0, -6)
    yield 601, 2, (10000000, 359999999), (1, 1000), (-599, 0)
    yield 2, 601, (-60123455, 10000000), (1000, 1), (0, -599)
    yield 301, 2, (10000000, 359999900), (0, 1000), (300, 0)
    yield 2, 301, (100, 10000000), (1000, 0), (0, 300)


def drawn_files():
    """(what it shows, the file, the fields to draw)."""
    missing = grib.section6(0, b'\0')
    yield "the rules' example", EXAMPLE, (0, 1)
    yield 'its second and third message', EXAMPLE * 3, (2, 5)
    yield 'many grids of one size', six_points_each(), range(8)
    yield '5.3 under a bitmap', grib.grouped(), (0,)
    yield "the sample of the README's picture", make.samples()['islands.grib2'], (0,)
    yield 'a single point', message_of(one_field(1, 1, packed_as([7], 3, -9.5))), (0,)
    yield 'all values equal', message_of(one_field(4, 3, packed_as([0] * 12, 0, 273.15))), (0,)
    yield 'all values equal but two missing', message_of(one_field(4, 2, packed_as([5] * 6, 3), grib.section6(0, b'\x7e'))), (0,)
    yield 'one point present', message_of(one_field(4, 2, packed_as([5], 3), grib.section6(0, b'\x10'))), (0,)
    yield 'no point present', message_of(one_field(2, 3, packed_as([], 8), missing)), (0,)
    yield 'large numbers of both signs', message_of(one_field(3, 1, packed_as([0, 2 ** 31 - 1, 2 ** 30], 31, -3e38, 98, -22))), (0,)
    yield 'small numbers', message_of(one_field(3, 1, packed_as([0, 1, 7], 3, 0.0, -127, 22))), (0,)
    yield 'numbers that six digits do not tell apart', message_of(one_field(3, 1, packed_as([0, 1, 2], 3, 1e5, -1))), (0,)
    yield 'neighbouring doubles', message_of(one_field(2, 1, packed_as([0, 1], 1, 2.0 ** 24, -28))), (0,)
    for ni, nj in ((9, 5), (341, 3), (342, 3), (3, 341), (1, 700), (1025, 2)):
        yield '%d x %d points' % (ni, nj), message_of(one_field(ni, nj, some(ni, nj))), (0,)
    for ni, nj, first, step in grids():
        yield 'a grid from %s on' % (first,), message_of(one_field(ni, nj, some(ni, nj), first=first, step=step)), (0,)
    yield 'the Lambert sample', make.samples()['lambert.grib2'], (0,)
    yield 'a sheet with missing points', on_sheet(4, 2, 1000, 2000, packed_as([5, 6, 7, 5, 3, 4], 3), grib.section6(0, b'\x7e')), (0,)
    both = [one_field(3, 2, some(3, 2)), on_sheet(3, 2, 1000, 1500)[37:-4], one_field(2, 3, some(2, 3))]
    yield 'grids of both kinds', message_of(*both), range(3)
    for ni, nj, dx, dy in sheets():
        yield 'a sheet of %d x %d points by %d and %d' % (ni, nj, dx, dy), on_sheet(ni, nj, dx, dy), (0,)


# ---- what is to be drawn

SCALE_COLOURS, MISSING, BACKGROUND, INK = 252, 252, 253, 254
# In dots, which letters consist of.
MARGIN, GAP, SCALE_HEIGHT, LABEL_GAP, DIGIT_HEIGHT, BOX, TICK, LINE, LETTER_HEIGHT, FEWEST_LETTERS = 8, 8, 8, 4, 7, 7, 3, 12, 9, 40
DEGREE, TURN = 1000000, 360000000
# What the fields of this suite are in words, and what is written of their units: by discipline, category, parameter, surface and level.
TITLES = {
    (0, 0, 0, 1, None): ('temperature [K], ground or water surface', 'in K'),
    (0, 0, 0, 103, (0, 10)): ('temperature [K], 10 m above ground', 'in K'),
    (0, 0, 0, 103, (1, 15)): ('temperature [K], 1.5 m above ground', 'in K'),
    (0, 1, 8, 1, None): ('total precipitation [kg m-2], ground or water surface', 'in kg m-2'),
    (0, 2, 2, 100, (-2, 850)): ('u-component of wind [m s-1], 850 hPa', 'in m s-1'),
    (10, 3, 0, 1, None): ('water temperature [K], ground or water surface', 'in K'),
}


def read_font():
    """The letters of command/font.c by character: nine rows of five dots. The sign for degrees is character 127."""
    rows = re.findall(r'^        "([ #]{95})",$', manual.text_of(os.path.join(TOP, 'command', 'font.c')), re.M)
    return {chr(32 + 16 * band + n): [row[6 * n:6 * n + 5] for row in rows[9 * band:9 * band + 9]] for band in range(len(rows) // 9) for n in range(16)}


FONT = read_font()


def words_of(file, k):
    """The lines above field k, and what is written of its unit."""
    told = reading.describe(file, k)
    title, unit = TITLES[(file[reading.fields(file)[k][0] + 6], told['category'], told['parameter'], told['surface'], told['level'])]
    times = told['valid'].strftime('%Y-%m-%d %H:%M')
    if told['product']:
        end, kind = told['product']
        times += ' to %s, %s' % (end.strftime('%H:%M' if end.date() == told['valid'].date() else '%Y-%m-%d %H:%M'), ('mean', 'sum')[kind])
    return [title, times + ' (UTC)', 'forecast from %s (UTC)' % told['reference'].strftime('%Y-%m-%d %H:%M')], unit


class Field:
    """A field as it is to be drawn: for each point two colours, either of which is right. They differ only on the border of two colours, where the
    last bit of a quotient decides."""

    def __init__(self, grid, lowest, highest, missing, colours, lines, unit, scale=None, outside=(0, 0)):
        self.ni, self.nj, self.first, self.lambert, last = grid['ni'], grid['nj'], grid['first'], grid.get('lambert'), grid['last']
        self.spans = (last[1] - self.first[1]) % TURN, self.first[0] - last[0]
        self.lowest, self.highest, self.missing, self.colours = lowest, highest, missing, colours
        self.lines, self.unit, self.asked, self.outside = lines, unit, scale is not None, outside
        self.scale = scale or (None if lowest is None else (lowest, highest))

    @classmethod
    def read(cls, file, k, scale=None):
        _, present, _, values = reading.decode(file, k, 0, MOST_POINTS, MOST_POINTS)
        there = [value for value, bit in zip(values, present) if bit == '1']
        lowest, highest = (min(there), max(there)) if there else (None, None)
        low, high = scale or (lowest, highest)
        table = {value: colours_of(value, low, high) for value in set(there)}
        points = [table[value] if bit == '1' else (MISSING, MISSING) for value, bit in zip(values, present)]
        outside = (sum(value < low for value in there), sum(value > high for value in there))
        colours = [bytes(point[i] for point in points) for i in (0, 1)]
        return cls(reading.describe(file, k)['grid'], lowest, highest, present.count('0'), colours, *words_of(file, k), scale, outside)

    def labels(self):
        """The numbers beneath the scale. Where values lie past an end, that is marked."""
        if self.scale is None:
            return []
        numbers = three_numbers(*self.scale)
        if len(numbers) == 3:
            numbers[0], numbers[2] = '<' * (self.outside[0] > 0) + numbers[0], '>' * (self.outside[1] > 0) + numbers[2]
        return numbers

    def said(self):
        """What the program says of it."""
        numbers = three_numbers(self.lowest, self.highest) if self.lowest is not None else []
        told = 'values from %s to %s' % (numbers[0], numbers[2]) if len(numbers) == 3 else 'every value %s' % numbers[0] if numbers else 'no values'
        line = '%d x %d point%s, %d missing, %s\n' % (self.ni, self.nj, '' if self.ni * self.nj == 1 else 's', self.missing, told)
        if self.asked:
            low, _, high = three_numbers(*self.scale)
            line += 'scale from %s to %s: %s below, %d above\n' % (low, high, plural(self.outside[0], 'value'), self.outside[1])
        return line


def three_numbers(low, high):
    """Both ends and what is half way, in six digits, or in as many as tell them apart; or one number where both are equal."""
    middle = float((fractions.Fraction(low) + fractions.Fraction(high)) / 2)
    if low == high:
        return ['%g' % middle]
    written = [['%.*g' % (digits, value) for value in (low, middle, high)] for digits in range(6, 18)]
    return next((labels for labels in written if len(set(labels)) == 3), written[-1])


def colours_of(value, low, high):
    if low == high:
        return SCALE_COLOURS // 2, SCALE_COLOURS // 2
    value, low, high = map(fractions.Fraction, (value, low, high))
    at, little = (value - low) / (high - low) * SCALE_COLOURS, fractions.Fraction(1, 10 ** 9)
    return tuple(min(max(math.floor(either), 0), SCALE_COLOURS - 1) for either in (at - little, at + little))


def degrees(millionths, is_latitude):
    """As they are written beside the field."""
    turned = millionths if is_latitude else (millionths + TURN // 2) % TURN - TURN // 2 or 0
    turned = TURN // 2 if not is_latitude and turned == -TURN // 2 else turned
    letter = '' if turned in (0, TURN // 2) else ('NS' if is_latitude else 'EW')[turned < 0]
    return '{:f}'.format((decimal.Decimal(abs(turned)) / DEGREE).normalize()) + '\x7f' + letter


def kilometres(length):
    """As they are written beside a sheet, of thousandths of a metre."""
    return '{:f}'.format((decimal.Decimal(length) / 10 ** 6).normalize()) + ' km'


def lengths_along(step, count, pixels, dot, is_upright):
    """The marks along a side of a sheet of so many pixels: (pixels from its start, the kilometres that are written there)."""
    side, found = fractions.Fraction(pixels, count), []
    for size in [digit * 10 ** power for power in range(15) for digit in (1, 2, 5)] if count > 1 else []:
        distance = math.floor(size * side / step)
        if distance * 8 < pixels:
            continue
        lengths = range(0, (count - 1) * step + step // 2 + 1, size)
        found = [(math.floor((fractions.Fraction(length, step) + fractions.Fraction(1, 2)) * side), kilometres(length)) for length in lengths]
        if distance >= dot * (LINE if is_upright else GAP + max(width_of(text) for _, text in found)):
            break
    return found or [(math.floor(side / 2), kilometres(0))]


def ticks(is_latitude, first, span, count, side, dot):
    """The marks along a side in degrees: (pixels from its start, what is written there)."""
    step = fractions.Fraction(span, max(count - 1, 1))

    def made(places):
        return [(side // 2 if offset == 0 else math.floor((fractions.Fraction(offset, step) + fractions.Fraction(1, 2)) * side), degrees(place, is_latitude)) for place, offset in places]

    found = []
    rounds = [digit * 10 ** power for power in range(7) for digit in (1, 2, 5)] + [degree * DEGREE for degree in (10, 20, 30, 45, 90, 180)]
    for size in rounds if count > 1 and step else []:
        distance = size * side // step
        if distance * 8 < count * side:
            continue
        low, high = (first - span, first) if is_latitude else (first, first + span)
        multiples = range(-(-(low - step // 2) // size) * size, high + step // 2 + 1, size)
        found = made([(place, first - place if is_latitude else place - first) for place in multiples if not is_latitude or abs(place) <= 90 * DEGREE])
        if distance >= dot * (LINE if is_latitude else GAP + max((width_of(text) for _, text in found), default=0)):
            break
    return found or made([(first, 0)])


class Canvas:
    def __init__(self, width, height):
        self.rows = [bytearray([BACKGROUND]) * width for _ in range(height)]

    def fill(self, left, top, row, height):
        for y in range(top, top + height):
            self.rows[y][left:left + len(row)] = row

    def ink(self, left, top, width, height):
        self.fill(left, top, bytes([INK]) * width, height)

    def framed(self, left, top, row, height, line):
        self.ink(left - line, top - line, len(row) + 2 * line, height + 2 * line)
        self.fill(left, top, row, height)

    def write(self, left, top, dot, text):
        for n, letter in enumerate(text):
            for y, line in enumerate(FONT[letter]):
                for x in (x for x in range(5) if line[x] == '#'):
                    self.ink(left + (6 * n + x) * dot, top + y * dot, dot, dot)


def width_of(text):
    return max(6 * len(text) - 1, 0)


def wrapped(text, room):
    """The text in lines of at most so many letters."""
    lines = []
    while len(text) > room:
        at = text.rfind(' ', 1, room + 1)
        at = at if at > 0 else room
        lines.append(text[:at])
        text = text[at:].removeprefix(' ')
    return lines + [text]


def halves_up(number):
    return math.floor(number + fractions.Fraction(1, 2))


def size_of(field):
    """How many pixels the field is wide and high. On a sheet, the longer step of a point takes as many times the pixels of the shorter one as it is longer, but
    at most eight times as many."""
    dx, dy = (field.lambert['dx'], field.lambert['dy']) if field.lambert else (1, 1)
    across, down = (min(fractions.Fraction(step, min(dx, dy)), 8) for step in (dx, dy))
    longer = max(halves_up(field.ni * across), halves_up(field.nj * down))
    side = min(max((512 + longer // 2) // longer, 1), 64)
    return halves_up(field.ni * side * across), halves_up(field.nj * side * down)


class Layout:
    """Where things are, in pixels."""

    def __init__(self, field):
        self.field_width, self.field_height = size_of(field)
        self.dot = dot = 2 * max(min(self.field_width, self.field_height) // 512, 1)
        if field.lambert:
            self.below = lengths_along(field.lambert['dx'], field.ni, self.field_width, dot, False)
            self.beside = lengths_along(field.lambert['dy'], field.nj, self.field_height, dot, True)
        else:
            self.below = ticks(False, field.first[1], field.spans[0], field.ni, self.field_width // field.ni, dot)
            self.beside = ticks(True, field.first[0], field.spans[1], field.nj, self.field_height // field.nj, dot)
        self.labels = field.labels()
        beside = (max(width_of(text) for _, text in self.beside) + LABEL_GAP + TICK + MARGIN) * dot
        first, last = self.below[0], self.below[-1]
        self.left = max(beside, (width_of(first[1]) // 2 + MARGIN) * dot - first[0])
        ends = max(map(width_of, self.labels[::2])) if len(self.labels) == 3 else 0
        middle = width_of(self.labels[len(self.labels) // 2]) if self.labels else 0
        legend = BOX + LABEL_GAP + width_of('missing') + GAP + width_of(field.unit)
        self.scale_width = max(self.field_width, dot * max(2 * (ends + 6 * field.asked) + 2 * GAP + middle, legend, 6 * FEWEST_LETTERS))
        self.width = self.left + max(self.scale_width, last[0] + (width_of(last[1]) // 2 + 1) * dot) + MARGIN * dot
        room = (self.width - 2 * MARGIN * dot) // (6 * dot)
        self.lines = [(line, n == 0) for n, text in enumerate(field.lines) for line in wrapped(text, room)]
        self.top = (MARGIN + LINE * len(self.lines) + GAP) * dot
        self.scale_top = self.top + self.field_height + (TICK + LABEL_GAP + DIGIT_HEIGHT + GAP) * dot
        self.legend_top = self.scale_top + (SCALE_HEIGHT + LABEL_GAP + DIGIT_HEIGHT + GAP) * dot * bool(self.labels)
        self.height = self.legend_top + (LETTER_HEIGHT + GAP) * dot * bool(field.missing or field.unit or field.asked) + (MARGIN - GAP) * dot


def draw_coordinates(canvas, at):
    line, bottom = at.dot // 2, at.top + at.field_height
    for x, text in at.below:
        canvas.ink(at.left + x - line // 2, bottom + line, line, TICK * at.dot)
        canvas.write(at.left + x - width_of(text) * at.dot // 2, bottom + (TICK + LABEL_GAP) * at.dot, at.dot, text)
    for y, text in at.beside:
        canvas.ink(at.left - TICK * at.dot - line, at.top + y - line // 2, TICK * at.dot, line)
        canvas.write(at.left - (TICK + LABEL_GAP + width_of(text)) * at.dot, at.top + y - DIGIT_HEIGHT * at.dot // 2, at.dot, text)


def draw_scale(canvas, at):
    scale = bytes(x * SCALE_COLOURS // at.scale_width if len(at.labels) == 3 else SCALE_COLOURS // 2 for x in range(at.scale_width))
    canvas.framed(at.left, at.scale_top, scale, SCALE_HEIGHT * at.dot, at.dot // 2)
    below, middle = at.scale_top + (SCALE_HEIGHT + LABEL_GAP) * at.dot, at.labels[len(at.labels) // 2]
    canvas.write(at.left + (at.scale_width - width_of(middle) * at.dot) // 2, below, at.dot, middle)
    if len(at.labels) == 3:
        canvas.write(at.left, below, at.dot, at.labels[0])
        canvas.write(at.left + at.scale_width - width_of(at.labels[2]) * at.dot, below, at.dot, at.labels[2])


def picture_of(field, colours):
    """The picture, row by row, of the colours' numbers."""
    at = Layout(field)
    canvas, dot = Canvas(at.width, at.height), at.dot
    for n, (line, is_title) in enumerate(at.lines):
        for shift in (0, dot // 2) if is_title else (0,):
            canvas.write(MARGIN * dot + shift, (MARGIN + LINE * n) * dot, dot, line)
    canvas.framed(at.left, at.top, bytes(at.field_width), at.field_height, dot // 2)
    ends = [i * at.field_width // field.ni for i in range(field.ni + 1)]
    for j in range(field.nj):
        row = colours[j * field.ni:(j + 1) * field.ni]
        top, bottom = j * at.field_height // field.nj, (j + 1) * at.field_height // field.nj
        pixels = row if at.field_width == field.ni else b''.join(row[i:i + 1] * (ends[i + 1] - ends[i]) for i in range(field.ni))
        canvas.fill(at.left, at.top + top, pixels, bottom - top)
    draw_coordinates(canvas, at)
    if at.labels:
        draw_scale(canvas, at)
    if field.missing:
        canvas.framed(at.left, at.legend_top, bytes([MISSING]) * (BOX * dot), BOX * dot, dot // 2)
        canvas.write(at.left + (BOX + LABEL_GAP) * dot, at.legend_top, dot, 'missing')
    canvas.write(at.left + at.scale_width - width_of(field.unit) * dot, at.legend_top, dot, field.unit)
    return canvas.rows


# ---- what was drawn

class Wrong(Exception):
    """In words, what is wrong with a picture."""


def demand(holds, words):
    if not holds:
        raise Wrong(words)


def chunks_of(octets):
    """The chunks of a PNG, each with its name and content."""
    demand(octets[:8] == b'\x89PNG\r\n\x1a\n', 'the signature is not that of a PNG')
    at, found = 8, []
    while at < len(octets):
        length, name = struct.unpack('>I4s', octets[at:at + 8].ljust(8))
        content, crc = octets[at + 8:at + 8 + length], octets[at + 8 + length:at + 12 + length]
        demand(crc == struct.pack('>I', zlib.crc32(name + content)), 'the CRC of the chunk at %d is wrong' % at)
        found.append((name, content))
        at += 12 + length
    return found


def filtered_rows(chunks, width, height):
    """The rows as they are compressed, each with its filter before it."""
    unpacking = zlib.decompressobj()
    try:
        octets = unpacking.decompress(b''.join(content for name, content in chunks if name == b'IDAT'))
    except zlib.error as error:
        raise Wrong('zlib says: %s' % error) from error
    demand(unpacking.eof and not unpacking.unused_data, 'the compressed data do not end where they are to')
    demand(len(octets) == height * (width + 1), '%d octets of pixels for %d x %d' % (len(octets), width, height))
    return [octets[y * (width + 1):(y + 1) * (width + 1)] for y in range(height)]


def pixels_of(rows, width):
    """The pixels of filtered rows. Only three of PNG's filters are known here: none, from the left, and from above."""
    above, found = bytes(width), []
    for row in rows:
        demand(row[0] in (0, 1, 2), 'a row has filter %d' % row[0])
        pixels = bytearray(row[1:])
        if row[0] == 1:
            for x in range(1, width):
                pixels[x] = pixels[x] + pixels[x - 1] & 255
        if row[0] == 2:
            pixels = bytearray(above) if not any(pixels) else bytearray(a + b & 255 for a, b in zip(pixels, above))
        found.append(bytes(pixels))
        above = found[-1]
    return found


def read_png(octets):
    """The palette, what the picture says of itself, the pixels row by row, and the rows as they are compressed."""
    chunks = chunks_of(octets)
    names = [name for name, _ in chunks]
    demand(names == [b'IHDR', b'PLTE'] + [b'tEXt'] * 3 + [b'IDAT', b'IEND'], 'the chunks are not those of a picture with a palette')
    width, height, *kind = struct.unpack('>IIBBBBB', chunks[0][1])
    demand(kind == [8, 3, 0, 0, 0], 'not one octet a pixel from a palette')
    rows = filtered_rows(chunks, width, height)
    texts = dict(content.decode('ascii').split('\0') for name, content in chunks if name == b'tEXt')
    return [tuple(chunks[1][1][i:i + 3]) for i in range(0, len(chunks[1][1]), 3)], texts, pixels_of(rows, width), rows


def lightness(colour):
    """CIE L* of a colour of sRGB: as light as it seems, from 0 to 100."""
    linear = [part / 255 / 12.92 if part <= 10 else ((part / 255 + 0.055) / 1.055) ** 2.4 for part in colour]
    luminance = 0.2126 * linear[0] + 0.7152 * linear[1] + 0.0722 * linear[2]
    return 116 * luminance ** (1 / 3) - 16 if luminance > 0.008856 else 903.3 * luminance


def judge_palette(palette):
    demand(len(palette) == len(set(palette)) == SCALE_COLOURS + 3, 'the palette has not 255 colours')
    light = [lightness(colour) for colour in palette[:SCALE_COLOURS]]
    demand(all(b > a for a, b in zip(light, light[1:])), 'the scale does not rise in lightness')
    steady = [light[0] + (light[-1] - light[0]) * n / (SCALE_COLOURS - 1) for n in range(SCALE_COLOURS)]
    demand(light[-1] - light[0] > 80 and max(abs(a - b) for a, b in zip(light, steady)) < 1, 'the scale does not rise steadily')
    demand(len(set(palette[MISSING])) == 1 and 100 < palette[MISSING][0] < 200, 'missing is not grey')
    demand(palette[BACKGROUND] == (255, 255, 255) and max(palette[INK]) < 64, 'not dark on white')


def version():
    return re.search(r'#define SKEPTOLYR_VERSION "(.*)"', manual.text_of(manual.HEADER)).group(1)


def judge(octets, field):
    """Compares a picture with the field that it is to show. The answer is its width and height."""
    palette, texts, rows, _ = read_png(octets)
    judge_palette(palette)
    wanted = {'Title': field.lines[0], 'Description': field.lines[1], 'Software': 'Skeptolyr ' + version()}
    demand(texts == wanted, 'it says of itself %s, and not %s' % (texts, wanted))
    first, second = (picture_of(field, colours) for colours in field.colours)
    sizes = [(len(picture[0]), len(picture)) for picture in (rows, first)]
    demand(sizes[0] == sizes[1], 'it has %d x %d pixels, and not %d x %d' % (sizes[0] + sizes[1]))
    for y, (row, one, other) in enumerate(zip(rows, first, second)):
        if row != one and row != other:
            for x in range(len(row)):
                demand(row[x] in (one[x], other[x]), 'pixel %d of row %d has colour %d, and not %d' % (x, y, row[x], one[x]))
    return sizes[0]


# ---- the program

class Draw:
    """A program that draws, in a folder of its own; what it is told before the other words, and the name with which it speaks of itself."""

    def __init__(self, program, folder, before=('draw',), name='skeptolyr'):
        self.program, self.folder, self.before, self.name = program, folder, before, name

    def path(self, name):
        return os.path.join(self.folder, name)

    def put(self, octets, name=FILE):
        with open(self.path(name), 'wb') as out:
            out.write(octets)

    def get(self, name=PICTURE):
        """A file's octets, or None where there is none."""
        if not os.path.exists(self.path(name)):
            return None
        with open(self.path(name), 'rb') as given:
            return given.read()

    def clear(self):
        if os.path.lexists(self.path(PICTURE)):
            os.remove(self.path(PICTURE))

    def run(self, *words, **more):
        given = {'stdout': subprocess.PIPE, 'stderr': subprocess.PIPE, 'timeout': 120, 'cwd': self.folder}
        return subprocess.run([*self.program, *self.before, *words], **{**given, **more})

    def ended(self, status, *words, says='', **more):
        """In words, what is wrong if the program does not end so, saying this, or leaves anything new in the folder."""
        before = {name: self.get(name) if os.path.isfile(self.path(name)) else None for name in os.listdir(self.folder)}
        run = self.run(*words, **more)
        said = run.stderr.decode()
        if run.returncode != status:
            return '%s: it exits with %d, and not with %d, and says %r' % (words, run.returncode, status, said)
        if not re.search(says, said) or (said and not said.startswith(self.name)) or run.stdout:
            return '%s: it says %r' % (words, said)
        after = {name: self.get(name) if os.path.isfile(self.path(name)) else None for name in os.listdir(self.folder)}
        return '%s: it leaves %s' % (words, sorted(after)) if after != before else None


def faults_of_picture(draw, name, field, said_of_file, k=0, words=()):
    """Draws field k of the file that is there, and judges the picture and what is said."""
    draw.clear()
    run = draw.run(*words, FILE, str(k), PICTURE)
    if run.returncode or run.stderr or not os.path.exists(draw.path(PICTURE)):
        yield '%s, field %d: it exits with %d and says %r' % (name, k, run.returncode, run.stderr)
        return
    try:
        size = judge(draw.get(), field)
    except Wrong as wrong:
        yield '%s, field %d: %s' % (name, k, wrong)
        return
    said = '%s: %s\nfield %d: %s%s: %d x %d pixels\n' % ((FILE, said_of_file, k, field.said(), PICTURE) + size)
    if run.stdout.decode() != said:
        yield '%s, field %d: it says %r, and not %r' % (name, k, run.stdout, said)


def plural(count, word):
    return '%d %s%s' % (count, word, '' if count == 1 else 's')


# ---- the tests: each yields what is wrong

def letters(_):
    """Every character that can be printed has a letter of its own, and no row of it is longer than five dots."""
    if sorted(FONT) != [chr(code) for code in range(32, 128)]:
        yield 'the font has %d letters' % len(FONT)
    if len({tuple(rows) for rows in FONT.values()}) != len(FONT) or any(len(rows) != 9 or any(len(row) != 5 for row in rows) for rows in FONT.values()):
        yield 'two letters are the same, or one is not of 5 x 9 dots'
    if [letter for letter, rows in FONT.items() if not any('#' in row for row in rows)] != [' ']:
        yield 'another letter than the blank is empty'


def every_pixel(draw):
    """Every pixel of every picture, and what is said of it, is as an independent reading of the file has it."""
    for name, file, chosen in drawn_files():
        draw.put(file)
        said = '%s, %s' % (plural(len(reading.messages(file)), 'message'), plural(len(reading.fields(file)), 'field'))
        for k in chosen:
            yield from faults_of_picture(draw, name, Field.read(file, k), said, k)


def both_ends(draw):
    """The marks lie where both ends of a grid place them, and move with its last point where the steps stay."""
    for ni, nj, first, step, farther in uneven_grids():
        name, pictures = '%d x %d points from %s on by %s, %s farther' % (ni, nj, first, step, farther), []
        for much in ((0, 0), farther):
            file = message_of(one_field(ni, nj, some(ni, nj), first=first, step=step, farther=much))
            draw.put(file)
            yield from faults_of_picture(draw, name, Field.read(file, 0), '1 message, 1 field')
            pictures.append(draw.get())
        if pictures[0] == pictures[1]:
            yield '%s: no mark has moved' % name


def true_to_shape(draw):
    """On the picture of a sheet a length is as long downward as to the right, to a pixel; the places of the marks are those of the library's sheet."""
    for ni, nj, dx, dy in sheets():
        file = on_sheet(ni, nj, dx, dy)
        at = Layout(Field.read(file, 0))
        if max(dx, dy) <= 8 * min(dx, dy) and abs(at.field_width * nj * dy - at.field_height * ni * dx) > max(ni * dx, nj * dy):
            yield '%d x %d points by %d and %d: %d x %d pixels' % (ni, nj, dx, dy, at.field_width, at.field_height)
        draw.put(file)
        draw.run(FILE, '0', PICTURE)
        octets = draw.get() or bytes(24)
        if struct.unpack('>II', octets[16:24]) != (at.width, at.height):
            yield '%d x %d points by %d and %d: the picture is %d x %d pixels' % (ni, nj, dx, dy, *struct.unpack('>II', octets[16:24]))
        for marks, count, step, pixels in ((at.below, ni, dx, at.field_width), (at.beside, nj, dy, at.field_height)):
            places = [(reading.sheet(file, 0, n if marks is at.below else n * ni)[marks is at.beside], n) for n in range(count)]
            middles = {kilometres(place): (2 * n + 1) * pixels // (2 * count) for place, n in places}
            yield from ('%s is marked at pixel %d of %d' % (text, where, pixels) for where, text in marks if middles.get(text, where) != where)


def shared_scale(draw):
    """With --range the scale is the one that is asked for, its ends say if values lie past them, and pictures of one grid have one size."""
    islands, sizes = make.samples()['islands.grib2'], set()
    nothing = message_of(one_field(2, 3, packed_as([], 8), grib.section6(0, b'\0')))
    cases = [(islands, ends) for ends in ((275, 290), (275, 300), (200, 290), (272, 293), (-1e300, 1e300), (280, 280.0000001), (400, 500), (1, 2))]
    cases += [(EXAMPLE, (0, 300)), (EXAMPLE, (1, 1.0000000000000004)), (message_of(one_field(4, 3, packed_as([0] * 12, 0, 273.15))), (273, 274)), (nothing, (-0.5, 0.25))]
    cases += [(message_of(one_field(3, 1, packed_as([0, 2 ** 31 - 1, 2 ** 30], 31, -3e38, 98, -22))), (-1.7e308, 1.7e308))]
    for file, ends in cases:
        draw.put(file)
        words = ['--range'] + [repr(end) for end in ends]
        said = '1 message, %s' % plural(len(reading.fields(file)), 'field')
        yield from faults_of_picture(draw, 'from %s to %s' % ends, Field.read(file, 0, tuple(map(float, ends))), said, words=words)
        if file == islands and max(map(abs, ends)) < 1000 and ends[1] - ends[0] > 0.1:
            sizes.add((draw.get() or b'')[16:24])
    if len(sizes) != 1:
        yield 'pictures of one grid have %d sizes' % len(sizes)
    draw.put(EXAMPLE)
    for words in ([FILE, '0', PICTURE, '--range', '-5', '+5'], [FILE, '--range', '.5', '5.', '0', PICTURE], ['--range', '1e-3', '1E+3', '--', FILE, '0', PICTURE]):
        if draw.run(*words).returncode:
            yield '%s: not taken' % words


def default_grid(ni, nj):
    """The grid that one_field makes when it is not told where."""
    return {'ni': ni, 'nj': nj, 'first': (47600000, 120000000), 'last': (47600000 - (nj - 1) * 1000, 120000000 + (ni - 1) * 1000)}


def field_of_octets(ni, nj):
    """A field of one octet a value, which large ones are quickly made of: its sections 5 and 7, and how it is to be drawn."""
    octets = (bytes(range(256)) * (ni * nj // 256 + 1))[:ni * nj]
    table = [colours_of(value, 0, 255) for value in range(256)]
    colours = [octets.translate(bytes(pair[i] for pair in table)) for i in (0, 1)]
    lines = ['temperature [K], ground or water surface', '2017-05-15 12:00 (UTC)', 'forecast from 2017-05-15 12:00 (UTC)']
    return (grib.section5(ni * nj, bytes(4), 0, 0, 8), grib.section(7, octets)), Field(default_grid(ni, nj), 0.0, 255.0, 0, colours, lines, 'in K')


def large_letters(draw):
    """A large field has large letters."""
    packed, field = field_of_octets(1100, 1300)
    draw.put(message_of(one_field(1100, 1300, packed)))
    yield from faults_of_picture(draw, '1100 x 1300 points', field, '1 message, 1 field')


def the_largest(draw):
    """The widest field, in the longest file, is drawn as any other: 65,535 x 256 points behind 251,000,000 octets of another field."""
    packed, field = field_of_octets(65535, 256)
    behind = one_field(65535, 256, packed)
    before = decoding.START + one_field(2, 2, (grib.section5(4, bytes(4), 0, 0, 8), b''))
    hole = MOST_OCTETS - 16 - len(before) - 5 - len(behind) - 4
    with open(draw.path(FILE), 'wb') as out:
        out.write(b'GRIB\xff\xff\0\2' + grib.number(MOST_OCTETS, 8) + before + grib.number(5 + hole, 4) + b'\7')
        out.seek(hole, os.SEEK_CUR)
        out.write(behind + b'7777')
    if os.path.getsize(draw.path(FILE)) != MOST_OCTETS:
        yield 'the file has not %d octets' % MOST_OCTETS
    yield from faults_of_picture(draw, 'the largest', field, '1 message, 2 fields', 1)


def of_octets(ni, nj, octets):
    """A file with a field of one octet a value. With values from 0 to 251 among them, each value is the number of its colour."""
    return message_of(one_field(ni, nj, (grib.section5(ni * nj, bytes(4), 0, 0, 8), grib.section(7, octets))))


def seldom_and_often(rng, ni, nj):
    """A field in which the differences from point to point are as often as Fibonacci's numbers are large, which leads to the longest codes."""
    often = [1, 1]
    while len(often) < 24:
        often.append(often[-1] + often[-2])
    steps = rng.choices(range(24), often, k=ni * nj // 2)
    return of_octets(ni, nj, b'\0\xfb' + bytes(octet for step in steps for octet in (100, 100 + step))[2:])


def at_the_window(rng):
    """A picture of four rows that are noise, the last of which repeats the first, one octet further away than a repeat may reach."""
    def width(ni):
        return Layout(Field(default_grid(ni, 4), 0, 251, 0, None, [], 'in K')).width

    ni = 10000 + 32769 // 3 - 1 - width(10000)
    rows = [b'\0\xfb' + bytes(rng.choices(range(252), k=ni - 2)) for _ in range(3)]
    return of_octets(ni, 4, b''.join(rows + rows[:1])), width(ni)


def small_pictures(draw):
    """No picture has more than 1.3 times the octets that zlib makes of the same pixels at its level 6, filtered or not; and zlib reads the rarest codes."""
    rng = random.Random(SEED)
    window, width = at_the_window(rng)
    if width + 1 != 32769 // 3:
        yield 'the picture at the window is %d pixels wide' % width
    files = {'islands': make.samples()['islands.grib2'], 'msm': shapes.msm(), 'ocean': shapes.ocean(), 'two fields': EXAMPLE,
             'noise': of_octets(300, 200, rng.randbytes(60000)), 'seldom and often': seldom_and_often(rng, 400, 400), 'window': window}
    for name, file in files.items():
        draw.put(file)
        draw.run(FILE, '0', PICTURE)
        octets = draw.get() or b''
        try:
            _, _, pixels, rows = read_png(octets)
        except Wrong as wrong:
            yield '%s: %s' % (name, wrong)
            continue
        least = min(len(zlib.compress(b''.join(rows), 6)), len(zlib.compress(b''.join(b'\0' + row for row in pixels), 6)))
        if len(octets) > 1.3 * (least + 900):
            yield '%s: %d octets, and zlib makes %d of the pixels' % (name, len(octets), least)


def on_a_terminal(draw, *words):
    """The exit status, what is sent to a terminal that is standard error, and standard output."""
    master, other = pty.openpty()
    with subprocess.Popen([*draw.program, *draw.before, *words], stdout=subprocess.PIPE, stderr=other, cwd=draw.folder) as run:
        os.close(other)
        sent, said = terminal.sent_to(master), run.stdout.read().decode()
    return run.returncode, sent, said


def progress(draw):
    """On a terminal it shows what it is doing on one line, and clears it; a refusal stands there alone."""
    if not terminal.are_there():
        raise report.Skipped('what draw shows on a terminal', 'this machine has no pseudo terminals')
    draw.put(EXAMPLE)
    refused = draw.run(FILE, '2', PICTURE).stderr.decode()
    status, sent, _ = on_a_terminal(draw, FILE, '2', PICTURE)
    if status != 1 or terminal.screen(sent) != refused.split('\n') or not refused:
        yield 'a refusal is shown as %r' % terminal.screen(sent)
    draw.put(message_of(one_field(700, 600, field_of_octets(700, 600)[0])))
    status, sent, said = on_a_terminal(draw, FILE, '0', PICTURE)
    if status or terminal.screen(sent) != [''] or said.count('\n') != 3:
        yield 'it exits with %d, and the screen is %r' % (status, terminal.screen(sent))
    if 'drawing the field: 0%' not in sent:
        yield 'it shows %r' % sent


def misuse(draw):
    """A command line that is no good exits with 2, says how it is written, and makes nothing."""
    draw.put(EXAMPLE)
    os.link(draw.path(FILE), draw.path('same'))
    os.symlink(FILE, draw.path('link'))
    whole = ['', '-1', '+1', ' 1', '1 ', '1x', '0x1', '1e0', '1.0', '/', ':', '18446744073709551616', '18446744073709551617', '9' * 23]
    decimals = ['', ' 1', '1 ', '0x1', 'inf', '-inf', 'nan', '1e', '1e+', 'e1', '.', '-', '+-1', '1e999', '-1e999', '1,5', '1.2.3', '--']
    lines = [[], [FILE], [FILE, '0'], [FILE, '0', PICTURE, 'more'], ['-z', FILE, '0', PICTURE], ['--ranges', '0', '1', FILE, '0', PICTURE], [FILE, '0', '']]
    lines += [[FILE, number, PICTURE] for number in whole]
    lines += [['--range', number, '1e300', FILE, '0', PICTURE] for number in decimals] + [['--range', '-1e300', number, FILE, '0', PICTURE] for number in decimals]
    lines += [['--range', low, high, FILE, '0', PICTURE] for low, high in (('1', '1'), ('2', '1'), ('-1', '-2'), ('0', '-0'), ('0', '1e-400'))]
    lines += [[FILE, '0', PICTURE, '--range'], [FILE, '0', PICTURE, '--range', '1'], ['--range', '0', '1', '--range', '0', '1', FILE, '0', PICTURE]]
    lines += [[FILE, '0', name] for name in (FILE, 'same', 'link', './' + FILE)] + [['--', '--range', '0', '1', FILE, '0', PICTURE]]
    for words in lines:
        yield draw.ended(2, *words, says='\nusage: skeptolyr draw ')
    with open(draw.path(FILE), 'rb') as given:
        yield draw.ended(2, '-', '0', FILE, stdin=given, says='itself')
    for number in ('18446744073709551615', '2', '4294967296'):
        yield draw.ended(1, FILE, number, PICTURE, says=': refused 8 at 0')
    for number in ('01', '00000000000000000000001'):
        if draw.run(FILE, number, PICTURE).returncode:
            yield '%s: not taken' % number


def refusals(draw):
    """A refusal exits with 1 in exactly the words of the header, and leaves a picture that was there as it was."""
    cases = [(b'', 0, 2, 0), (EXAMPLE[:210] + EXAMPLE, 0, 7, 0), (EXAMPLE + EXAMPLE[:-1], 0, 3, 276), (EXAMPLE, 2, 8, 0), (grib.grouped(), 1, 8, 0),
             (grib.spliced(EXAMPLE, 37 + 14, b'\7'), 0, 10, 37)]
    given = [refusal for refusal in make.REFUSALS if refusal.number > 1 and refusal.is_for_commands()]
    cases += [(make.samples()[refusal.file], refusal.field, refusal.number, refusal.place) for refusal in given]
    cases += [(on_sheet(2, 3, 0, 1000), 0, 10, 37), (grib.spliced(on_sheet(2, 3, 1000, 1000), 37 + 46, b'\x30'), 0, 10, 37)]
    draw.put(b'before', 'other.png')
    for file, k, number, place in cases:
        draw.put(file)
        of_field = ', field %d' % k if number >= 8 else ''
        for name in (PICTURE, 'other.png', '-'):
            yield draw.ended(1, FILE, str(k), name, says=r'\Askeptolyr: %s%s: %s\n' % (FILE, of_field, re.escape(manual.refused(number, place))))


def elsewhere(draw):
    """A picture for standard output is there and nothing else; a file may come from standard input; a link stays a link; and rights are kept."""
    draw.put(EXAMPLE)
    draw.run(FILE, '0', PICTURE)
    picture = draw.get()
    run = draw.run(FILE, '0', '-')
    if run.returncode or run.stderr or run.stdout != picture:
        yield 'on standard output there is something else'
    with open(draw.path(FILE), 'rb') as given:
        if draw.run('-', '0', 'other.png', stdin=given).returncode or draw.get('other.png') != picture:
            yield 'from standard input another picture is made'
    draw.put(b'before', 'behind.png')
    os.chmod(draw.path('behind.png'), 0o640)
    os.symlink('behind.png', draw.path('link.png'))
    if draw.run(FILE, '0', 'link.png').returncode or draw.get('behind.png') != picture or not os.path.islink(draw.path('link.png')):
        yield 'through a link another picture is made, or the link is gone'
    if stat.S_IMODE(os.stat(draw.path('behind.png')).st_mode) != 0o640:
        yield 'the picture has other rights than before'
    if sorted(os.listdir(draw.folder)) != sorted([FILE, PICTURE, 'other.png', 'behind.png', 'link.png']):
        yield 'it leaves %s' % sorted(os.listdir(draw.folder))


def cannot(draw):
    """What cannot be read or written exits with 3, is named with a reason, and leaves nothing behind."""
    draw.put(EXAMPLE)
    os.mkdir(draw.path('folder'))
    yield draw.ended(3, 'nowhere', '0', PICTURE, says='^skeptolyr: nowhere: .*No such file')
    yield draw.ended(3, 'folder', '0', PICTURE, says='^skeptolyr: folder: ')
    yield draw.ended(3, FILE, '0', 'nowhere/picture.png', says='^skeptolyr: nowhere/picture.png: .*No such file')
    yield draw.ended(3, FILE, '0', 'folder', says='^skeptolyr: folder: .*Is a directory')
    yield from unfinished(draw)
    yield from no_reader(draw)


def little_room(octets):
    """Lets no file of a program become longer than this."""
    signal.signal(signal.SIGXFSZ, signal.SIG_IGN)
    resource.setrlimit(resource.RLIMIT_FSIZE, (octets, octets))


def unfinished(draw):
    """Room for a part of the picture only, from nothing to all but one octet: the picture that was there stays."""
    noise = bytes(n * n * 7919 >> 8 & 255 for n in range(700 * 600))
    draw.put(message_of(one_field(700, 600, (grib.section5(len(noise), bytes(4), 0, 0, 8), grib.section(7, noise)))))
    draw.run(FILE, '0', PICTURE)
    whole = len(draw.get())
    draw.clear()
    draw.put(b'before', 'behind.png')
    os.symlink('behind.png', draw.path('link.png'))
    for octets in (0, 5, 4096, whole // 2, whole - 40, whole - 1):
        for name in (PICTURE, 'behind.png', 'link.png'):
            fault = draw.ended(3, FILE, '0', name, says='^skeptolyr: %s: .*File too large' % name, preexec_fn=lambda: little_room(octets))
            yield fault and 'room for %d octets: %s' % (octets, fault)
    if draw.run(FILE, '0', PICTURE, preexec_fn=lambda: little_room(whole)).returncode:
        yield 'there was room for %d octets, and that was not enough' % whole
    draw.clear()


def no_reader(draw):
    """Pipes that nobody reads to the end, in place of the picture and of standard output. They are the test's own: a wrong program, run by a
    mighty user, would remove a device for the whole machine."""
    os.mkfifo(draw.path('pipe'))
    with subprocess.Popen(['head', '-c', '1000', draw.path('pipe')], stdout=subprocess.DEVNULL) as head:
        yield draw.ended(3, FILE, '0', 'pipe', restore_signals=False)
        head.kill()
    if not os.path.exists(draw.path('pipe')):
        yield 'a pipe was removed'
    unread, written = os.pipe()
    os.close(unread)
    run = draw.run(FILE, '0', '-', stdout=written, restore_signals=False)
    os.close(written)
    if run.returncode != 3:
        yield 'with standard output closed it exits with %d and says %r' % (run.returncode, run.stderr)


# A library that gives what no file can: any doubles. Field 2 has as many points as a field can have.
STAND_IN = r'''
#include "skeptolyr.h"
#include <float.h>
uint64_t skeptolyr_check(const uint8_t *file, size_t file_len) { (void)file; (void)file_len; return UINT64_C(1) << 32 | 3; }
uint64_t skeptolyr_describe(const uint8_t *file, size_t file_len, size_t k, int64_t *numbers, size_t numbers_len)
{
    struct skeptolyr_field field = {0};
    (void)file; (void)file_len; (void)numbers_len;
    field.discipline = 10; field.category = 200; field.parameter = 7; field.surface = 1;
    field.ni = field.nj = k == 2 ? 4096 : 2; field.points = field.ni * field.nj;
    field.first.latitude = field.last.longitude = field.di = field.dj = 1000000;
    field.reference.year = field.valid.year = 2020; field.reference.month = field.valid.month = field.reference.day = field.valid.day = 1;
    memcpy(numbers, &field, sizeof field);
    return SKEPTOLYR_DESCRIPTION;
}
uint64_t skeptolyr_place(const uint8_t *file, size_t file_len, size_t k, size_t n, int64_t *position, size_t position_len)
{
    (void)file; (void)file_len; (void)k; (void)n; (void)position; (void)position_len;
    return 0;
}
uint64_t skeptolyr_sheet(const uint8_t *file, size_t file_len, size_t k, size_t n, int64_t *place, size_t place_len)
{
    (void)file; (void)file_len; (void)k; (void)n; (void)place; (void)place_len;
    return 0;
}
uint64_t skeptolyr_point(const uint8_t *file, size_t file_len, size_t k, size_t n, double *value, size_t value_len)
{
    (void)file; (void)file_len; (void)k; (void)n; (void)value; (void)value_len;
    return 0;
}
uint64_t skeptolyr_picture(const uint8_t *file, size_t file_len, size_t k, uint8_t *picture, size_t picture_len)
{
    (void)file; (void)file_len; (void)k; (void)picture; (void)picture_len;
    return 0;
}
uint64_t skeptolyr_decode(const uint8_t *file, size_t file_len, size_t k, size_t start, double *values, size_t values_len, uint8_t *presence,
                          size_t presence_len)
{
    static const double extremes[2][4] = {{-DBL_MAX, DBL_MAX, 0, DBL_MAX / 2}, {5e-324, 0, 1e-323, 1.5e-323}};
    (void)file; (void)file_len; (void)start; (void)values_len; (void)presence_len;
    for (int n = 0; n < 4; n++) { values[n] = extremes[k][n]; presence[n] = 1; }
    return 4;
}
'''
EXTREMES = [[-sys.float_info.max, sys.float_info.max, 0.0, sys.float_info.max / 2], [5e-324, 0.0, 1e-323, 1.5e-323]]


def with_stand_in(draw):
    """The program with that library, in the same folder."""
    draw.put(STAND_IN.encode(), 'stand_in.c')
    subprocess.run(['gcc', *archive.FLAGS, '-O2', *archive.command_sources(), 'stand_in.c', '-lm', '-o', 'stand_in'], cwd=draw.folder, check=True)
    draw.put(EXAMPLE)
    return Draw([draw.path('stand_in')], draw.folder)


def any_doubles(draw):
    """Any finite doubles are drawn, and where there is no memory for a field it exits with 3."""
    compiled = with_stand_in(draw)
    lines = ['parameter 10.200.7, ground or water surface', '2020-01-01 00:00 (UTC)', 'forecast from 2020-01-01 00:00 (UTC)']
    grid = {'ni': 2, 'nj': 2, 'first': (DEGREE, 0), 'last': (0, DEGREE)}
    for k, values in enumerate(EXTREMES):
        pairs = [colours_of(value, min(values), max(values)) for value in values]
        field = Field(grid, min(values), max(values), 0, [bytes(pair[i] for pair in pairs) for i in (0, 1)], lines, '')
        yield from faults_of_picture(compiled, 'extreme doubles', field, '1 message, 3 fields', k)
    pairs = [colours_of(value, -1, 1) for value in EXTREMES[0]]
    field = Field(grid, min(EXTREMES[0]), max(EXTREMES[0]), 0, [bytes(pair[i] for pair in pairs) for i in (0, 1)], lines, '', (-1.0, 1.0), (1, 2))
    yield from faults_of_picture(compiled, 'extreme doubles on a small scale', field, '1 message, 3 fields', 0, ['--range', '-1', '1'])
    draw.clear()
    limit = 1 << 26
    yield compiled.ended(3, FILE, '2', PICTURE, says='^skeptolyr: the field: .*no memory', preexec_fn=lambda: resource.setrlimit(resource.RLIMIT_AS, (limit, limit)))


# ---- the example program

def example_colour(value, lowest, highest):
    """Red, green and blue of a point: two answers, either of which is right, as the last bit of a quotient decides."""
    if value is None:
        return [(128, 128, 128)]
    share, low, high = (fractions.Fraction(number) for number in (value, lowest, highest))
    at = 255 * ((share - low) / (high - low) if high > low else fractions.Fraction(1, 2))
    numbers = {min(max(math.floor(at + little), 0), 255) for little in (0, -fractions.Fraction(1, 10 ** 9), fractions.Fraction(1, 10 ** 9))}
    return [(number, number, 255 - number) for number in numbers]


def example_pixels(draw):
    """The example program draw writes a PPM, every pixel of which is as an independent reading of the file has it."""
    for name, file, chosen in drawn_files():
        draw.put(file)
        for k in chosen:
            run = draw.run(FILE, str(k), 'picture.ppm')
            grid = reading.describe(file, k)['grid']
            _, present, _, values = reading.decode(file, k, 0, MOST_POINTS, MOST_POINTS)
            shown = [value if bit == '1' else None for value, bit in zip(values, present)]
            there = [value for value in shown if value is not None] or [0]
            head, octets = b'P6\n%d %d\n255\n' % (grid['ni'], grid['nj']), draw.get('picture.ppm') or b''
            pixels = octets[len(head):]
            wanted = {value: example_colour(value, min(there), max(there)) for value in set(shown)}
            if run.returncode or run.stdout or run.stderr or not octets.startswith(head) or len(pixels) != 3 * len(shown):
                yield '%s, field %d: it exits with %d, says %r, and writes %d octets' % (name, k, run.returncode, run.stderr, len(octets))
            elif any(tuple(pixels[3 * n:3 * n + 3]) not in wanted[value] for n, value in enumerate(shown)):
                yield '%s, field %d: a pixel is wrong' % (name, k)


def example_ends(draw):
    """The example program ends with 1 and the header's words where a file is refused, and with 2 where anything else is wrong; it sees a full disk."""
    draw.put(EXAMPLE)
    for k in ('', '-1', '+1', ' 1', '1x', '18446744073709551616', '9' * 30):
        yield draw.ended(2, FILE, k, 'picture.ppm', says='\nusage: draw ')
    for words in ([], [FILE], [FILE, '0'], [FILE, '0', 'picture.ppm', 'more'], [FILE, '0', FILE], ['nowhere', '0', 'picture.ppm'], [FILE, '0', 'nowhere/picture.ppm']):
        yield draw.ended(2, *words, says='\nusage: draw ')
    yield draw.ended(2, '.', '0', 'picture.ppm', says='\nusage: draw ')
    run = draw.run(FILE, '0', 'picture.ppm', preexec_fn=lambda: little_room(5))
    if run.returncode != 2 or b'to its end' not in run.stderr:
        yield 'a full disk: it exits with %d and says %r' % (run.returncode, run.stderr)
    os.remove(draw.path('picture.ppm'))
    for refusal in make.REFUSALS:
        if refusal.number > 1 and refusal.is_for_commands():
            draw.put(make.samples()[refusal.file])
            says = r'\Adraw: %s: %s\n\Z' % (FILE, re.escape(manual.refused(refusal.number, refusal.place)))
            yield draw.ended(1, FILE, str(refusal.field), 'picture.ppm', says=says)


TESTS = [
    letters, every_pixel, both_ends, true_to_shape, shared_scale, large_letters, the_largest, small_pictures, progress, misuse, refusals, elsewhere, cannot,
    any_doubles]
EXAMPLE_TESTS = [example_pixels, example_ends]


def tried(test, program, *more):
    with tempfile.TemporaryDirectory() as folder:
        return report.tried(test, Draw(program, folder, *more))


def main():
    program, example = archive.skeptolyr(), archive.program('skeptolyr', 'examples/draw.c')
    return report.ended([tried(test, program) for test in TESTS] + [tried(test, example, (), 'draw') for test in EXAMPLE_TESTS])


if __name__ == '__main__':
    sys.exit(main())
