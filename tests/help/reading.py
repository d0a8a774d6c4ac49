"""An independent reading of docs/RULES.md, from its paragraphs: check, describe, decode, point, picture, place and sheet, in Python's own whole numbers, times
and doubles; and the rows of numbers that C is given of a description, of a place and of a place on the sheet."""
import datetime
import fractions
import functools
import math
import struct

LARGEST = 268435456
FOLLOWS = {0: {1}, 1: {3}, 3: {4}, 4: {5}, 5: {6}, 6: {7}, 7: {3, 4}}
UNITS = {0: 60, 1: 3600, 2: 86400}
TURN = 360000000
# The two kinds of grid, by their templates: 3.0 and 3.30.
DEGREES, LAMBERT = 0, 30


class Refused(Exception):
    def __init__(self, number, place):
        super().__init__('refused %d at %d' % (number, place))
        self.number, self.place = number, place
        self.code = 1 << 63 | number << 32 | place


# ---- messages and sections

def sections_of_message(file, p):
    """Steps a to f at p: where the message ends, and its sections in order, each with its number, start and end."""
    left = len(file) - p
    if left < 16:
        raise Refused(3, p)
    if file[p:p + 4] != b'GRIB' or file[p + 7] != 2:
        raise Refused(4, p)
    length = int.from_bytes(file[p + 8:p + 16], 'big')
    if length < 20:
        raise Refused(5, p)
    if length > left:
        raise Refused(3, p)
    end = p + length - 4
    if file[end:end + 4] != b'7777':
        raise Refused(7, p)
    at, before, found = p + 16, 0, []
    while at < end:
        size = int.from_bytes(file[at:at + 4], 'big')
        if end - at < 5 or size < 5 or at + size > end:
            raise Refused(5, at)
        if file[at + 4] not in FOLLOWS[before]:
            raise Refused(6, at)
        before = file[at + 4]
        found.append((before, at, at + size))
        at += size
    if before != 7:
        raise Refused(6, end)
    return end + 4, found


def messages(file):
    """The sections of each message of a file."""
    if len(file) > LARGEST:
        raise Refused(1, 0)
    if not file:
        raise Refused(2, 0)
    at, found = 0, []
    while at < len(file):
        end, sections = sections_of_message(file, at)
        found.append((at, sections))
        at = end
    return found


@functools.lru_cache(maxsize=1)
def fields(file):
    """Each field of a file: its message's start, its sections by number, and the section 6 that 254 would refer to."""
    found = []
    for start, sections in messages(file):
        force, bitmap = {}, None
        for number, at, end in sections:
            if number == 3:
                bitmap = None
            if number == 6 and end - at >= 6 and file[at + 5] == 0:
                bitmap = (at, end)
            force[number] = (at, end)
            if number == 7:
                found.append((start, dict(force), bitmap))
    return found


def check(file):
    """What skeptolyr_check is to answer."""
    try:
        return len(messages(file)) << 32 | len(fields(file))
    except Refused as refused:
        return refused.code


# ---- numbers

class Octets:
    """A section's octets, numbered from 1. Asking for one that is not there is a fault of the section."""

    def __init__(self, file, stretch, refusal):
        self.place, self.octets, self.refusal = stretch[0], file[stretch[0]:stretch[1]], refusal

    def __len__(self):
        return len(self.octets)

    def __call__(self, first, last=None):
        last = last or first
        self.demand(last <= len(self.octets))
        return int.from_bytes(self.octets[first - 1:last], 'big')

    def signed(self, first, last=None):
        number, top = self(first, last), 1 << 8 * ((last or first) - first) + 7
        return number - top and (top - number if number >= top else number)

    def demand(self, holds):
        if not holds:
            raise Refused(self.refusal, self.place)

    def time(self, first):
        """The Gregorian time in seven octets. Python's calendar knows leap years; seconds stop at 59."""
        self.demand(first + 6 <= len(self.octets))
        year = self(first, first + 1)
        self.demand(1900 <= year <= 2399)
        try:
            return datetime.datetime(year, *self.octets[first + 1:first + 6])
        except ValueError:
            self.demand(False)

    def later(self, time, count, unit):
        """The time so many units later."""
        self.demand(unit in UNITS)
        left = (datetime.datetime(2400, 1, 1) - time) // datetime.timedelta(seconds=1)
        self.demand(count * UNITS[unit] < left)
        return time + datetime.timedelta(seconds=count * UNITS[unit])


# ---- sections

def identification(file, stretch):
    s = Octets(file, stretch, 9)
    s.demand(len(s) == 21 and s(6, 7) == 34 and s(12) == 1 and s(20) in (0, 1))
    return {'status': s(20), 'reference': s.time(13)}


def span_east(first, last):
    """How far the last longitude lies east of the first. Equal longitudes are no full turn."""
    return last[1] - first[1] + (TURN if last[1] < first[1] else 0)


def latitude(s, first):
    """The latitude in four octets, in millionths of a degree."""
    found = s.signed(first, first + 3)
    s.demand(abs(found) <= 90000000)
    return found


def longitude(s, first):
    """The longitude in four octets, in millionths of a degree."""
    found = s(first, first + 3)
    s.demand(found < TURN)
    return found


def length_on_sheet(s, first):
    """Dx or Dy in four octets, in thousandths of a metre."""
    found = s(first, first + 3)
    s.demand(1 <= found <= 2147483647)
    return found


def in_degrees(s):
    """What section 3 says by template 3.0 alone."""
    s.demand(s(39, 42) == 0 and s(43, 46) == 2 ** 32 - 1 and s(55) == 0x30 and s(72) == 0)
    ni, nj, di, dj = s(31, 34), s(35, 38), s(64, 67), s(68, 71)
    first, last = (latitude(s, 47), longitude(s, 51)), (latitude(s, 56), longitude(s, 60))
    s.demand(first[0] >= last[0])
    s.demand(abs(span_east(first, last) - (ni - 1) * di) <= ni - 1 and abs(first[0] - last[0] - (nj - 1) * dj) <= nj - 1)
    return {'first': first, 'last': last, 'di': di, 'dj': dj, 'lambert': None}


def on_sheet(s):
    """What section 3 says by template 3.30 alone. It tells no last point and no steps in degrees: these are zeros."""
    s.demand(s(47) == 0x08 and s(64) == s(65) == 0)
    lambert = {
        'stated_latitude': latitude(s, 48), 'upright_meridian': longitude(s, 52), 'dx': length_on_sheet(s, 56), 'dy': length_on_sheet(s, 60),
        'cutting_latitude_1': latitude(s, 66), 'cutting_latitude_2': latitude(s, 70)}
    return {'first': (latitude(s, 39), longitude(s, 43)), 'last': (0, 0), 'di': 0, 'dj': 0, 'lambert': lambert}


def grid(file, stretch):
    """What section 3 says, by the template and the length that go together."""
    s = Octets(file, stretch, 10)
    s.demand((s(13, 14), len(s)) in ((DEGREES, 72), (LAMBERT, 81)) and s(6) == s(11) == s(12) == 0)
    s.demand(s(15) == 6 or s(15) == 1 and s(16) == 0 and s(17, 20) not in (0, 2 ** 32 - 1))
    ni, nj = s(31, 34), s(35, 38)
    s.demand(1 <= ni <= 65535 and 1 <= nj <= 65535 and s(7, 10) == ni * nj <= 16777216)
    told = {'template': s(13, 14), 'earth': s(15), 'radius': 6371229 if s(15) == 6 else s(17, 20), 'ni': ni, 'nj': nj}
    told.update(on_sheet(s) if told['template'] == LAMBERT else in_degrees(s))
    return told


def product(file, stretch, reference):
    s = Octets(file, stretch, 11)
    s.demand((s(8, 9), len(s)) in ((0, 34), (8, 58)) and s(6, 7) == 0)
    s.demand(s(19, 22) <= 2147483647 and s(23) != 255 and s(29, 34) == 2 ** 48 - 1)
    missing = (s(24) == 255, s(25, 28) == 2 ** 32 - 1)
    s.demand(missing[0] == missing[1] and (missing[0] or s(25, 28) <= 2147483647))
    valid = s.later(reference, s(19, 22), s(18))
    told = {'category': s(10), 'parameter': s(11), 'process': s(12), 'surface': s(23), 'level': None if missing[0] else (s.signed(24), s(25, 28)), 'valid': valid, 'product': None}
    if s(8, 9) == 8:
        s.demand(s(42) == 1 and s(47) in (0, 1))
        end = s.time(35)
        s.demand(s.later(valid, s(50, 53), s(49)) == end)
        told['product'] = (end, s(47))
    return told


def representation(file, stretch):
    s = Octets(file, stretch, 12)
    s.demand((s(10, 11), len(s)) in ((0, 21), (3, 49)))
    s.demand(s(12, 15) >> 23 & 255 != 255 and abs(s.signed(16, 17)) <= 127 and abs(s.signed(18, 19)) <= 22 and s(20) <= 31 and s(21) == 0)
    told = {'n': s(6, 9), 'r': s(12, 15), 'e': s.signed(16, 17), 'd': s.signed(18, 19), 'bits': s(20), 'template': s(10, 11)}
    if s(10, 11) == 3:
        s.demand(s(22) == 1 and s(23) == 0 and max(s(36), s(37), s(47)) <= 31 and s(48) == 2 and 1 <= s(49) <= 4)
        s.demand(told['n'] >= 2 and 1 <= s(32, 35) <= told['n'])
        told['groups'] = {'count': s(32, 35), 'width': s(36), 'width bits': s(37), 'length': s(38, 41), 'increment': s(42), 'last': s(43, 46), 'length bits': s(47), 'extra': s(49)}
    return told


def presence(file, stretch, bitmap, points, n):
    """The indicator, and the bits of the points that are present, or None where all are."""
    s = Octets(file, stretch, 13)
    indicator = s(6)
    s.demand(indicator == 0 or len(s) == 6 and indicator in (254, 255))
    if indicator == 255:
        s.demand(n == points)
        return indicator, None
    s.demand(indicator == 0 or bitmap is not None)
    start, end = stretch if indicator == 0 else bitmap
    s.demand(end - start == 6 - -points // 8)
    bits = bin(int.from_bytes(b'\1' + file[start + 6:end], 'big'))[3:3 + points]
    s.demand(bits.count('1') == n)
    return indicator, bits


def ceiling(bits):
    return -(-bits // 8)


def bits_of(octets, first, runs):
    """Numbers in order from an octet's start on, for each run (count, width) so many of so many bits, with no gap between runs."""
    length = ceiling(sum(count * width for count, width in runs))
    digits = bin(int.from_bytes(b'\1' + octets[first:first + length], 'big'))[3:]
    found, at = [], 0
    for count, width in runs:
        end = at + count * width
        found += [int(digits[i:i + width], 2) for i in range(at, end, width)] if width else [0] * count
        at = end
    return found


def group_lengths(g, stored):
    """The length of each group. What is stored for the last is not used."""
    return [g['length'] + g['increment'] * scaled for scaled in stored[:-1]] + [g['last']]


def packing(file, stretch, told):
    """Judges section 7. For 5.3 it answers the references, the groups as (length, width), and behind which octet their values start."""
    s = Octets(file, stretch, 14)
    if told['template'] == 0:
        s.demand(len(s) == 5 + ceiling(told['n'] * told['bits']))
        return None
    g = told['groups']
    at, runs = 5 + 3 * g['extra'], []
    for width in (told['bits'], g['width bits'], g['length bits']):
        s.demand(at + ceiling(g['count'] * width) <= len(s))
        runs.append(bits_of(s.octets, at, [(g['count'], width)]))
        at += ceiling(g['count'] * width)
    widths, lengths = [g['width'] + stored for stored in runs[1]], group_lengths(g, runs[2])
    s.demand(max(widths) <= 31 and min(lengths) >= 1 and sum(lengths) == told['n'])
    s.demand(len(s) == at + ceiling(sum(width * length for width, length in zip(widths, lengths))))
    return {'references': runs[0], 'groups': list(zip(lengths, widths)), 'values': at}


# ---- integers and doubles

def integers(file, stretch, told):
    """X of each point present, in order."""
    s = Octets(file, stretch, 16)
    if told['template'] == 0:
        return bits_of(s.octets, 5, [(told['n'], told['bits'])])
    w, plan = told['groups']['extra'], told['plan']
    found = [s(6, 5 + w), s(6 + w, 5 + 2 * w)]
    zmin = s.signed(6 + 2 * w, 5 + 3 * w)
    references = [reference for reference, (length, _) in zip(plan['references'], plan['groups']) for _ in range(length)]
    for packed, reference in list(zip(bits_of(s.octets, plan['values'], plan['groups']), references))[2:]:
        found.append(packed + reference + zmin + 2 * found[-1] - found[-2])
    s.demand(min(found) >= 0 and max(found) <= 2147483647)
    return found


def packed_number(octets, bit, width):
    """The one number of so many bits that starts behind so many bits."""
    end = ceiling(bit + width)
    return int.from_bytes(octets[bit // 8:end], 'big') >> 8 * end - bit - width & (1 << width) - 1


def group_values(s, plan):
    """The reference and the packed value of each rank in one sum, in order. They are read one at a time, as long as they are asked for."""
    bit = 8 * plan['values']
    for reference, (length, width) in zip(plan['references'], plan['groups']):
        for _ in range(length):
            yield reference + packed_number(s.octets, bit, width)
            bit += width


def integer(file, stretch, told, rank):
    """X of the point present that has this rank, counted from 1. By 5.0 it is read alone. By 5.3 X is undone and judged from the first up to this one."""
    s = Octets(file, stretch, 16)
    if told['template'] == 0:
        return packed_number(s.octets, 40 + (rank - 1) * told['bits'], told['bits'])
    w = told['groups']['extra']
    given, zmin, before, x = {1: (6, 5 + w), 2: (6 + w, 5 + 2 * w)}, s.signed(6 + 2 * w, 5 + 3 * w), None, None
    for number, value in zip(range(1, rank + 1), group_values(s, told['plan'])):
        before, x = x, s(*given[number]) if number in given else value + zmin + 2 * x - before
        s.demand(0 <= x <= 2147483647)
    return x


def double(told, x):
    """R + X x 2^E rounded once, then divided by 10^D or multiplied by 10^-D and rounded once. Python's floats are doubles that round so."""
    total = struct.unpack('>f', told['r'].to_bytes(4, 'big'))[0] + x * 2.0 ** told['e']
    return total / float(10 ** told['d']) if told['d'] >= 0 else total * float(10 ** -told['d'])


# ---- the questions

def describe(file, k):
    """All that is said of field k, or the first refusal of 1 to 14."""
    found = fields(file)
    if k >= len(found):
        raise Refused(8, 0)
    start, sections, bitmap = found[k]
    told = {'discipline': file[start + 6]}
    told.update(identification(file, sections[1]))
    told['grid'] = grid(file, sections[3])
    told.update(product(file, sections[4], told['reference']))
    told.update(representation(file, sections[5]))
    told['indicator'], told['bits present'] = presence(file, sections[6], bitmap, told['grid']['ni'] * told['grid']['nj'], told['n'])
    told['plan'] = packing(file, sections[7], told)
    told['starts'] = [sections[number][0] for number in (1, 3, 4, 5, 6, 7)]
    return told


def decode(file, k, start, values_length, presence_length):
    """The point count of field k; the presence of each point, 1 or 0, in a string; X of each point present; and the double of each point."""
    told = describe(file, k)
    points = told['grid']['ni'] * told['grid']['nj']
    if start + points > min(values_length, presence_length):
        raise Refused(15, 0)
    xs = integers(file, fields(file)[k][1][7], told)
    present = told['bits present'] or '1' * points
    doubles = {x: double(told, x) for x in set(xs)}
    following = map(doubles.__getitem__, xs)
    return points, present, xs, [next(following) if bit == '1' else 0.0 for bit in present]


def point(file, k, n, length):
    """What skeptolyr_point is to answer, and the double that it is to put: 1 and the value of point n, or 0 and 0.0 where the point is missing. A missing
    point has no X, so none is judged for it."""
    told = describe(file, k)
    if n >= told['grid']['ni'] * told['grid']['nj']:
        raise Refused(17, 0)
    if length == 0:
        raise Refused(15, 0)
    bits = told['bits present']
    if bits and bits[n] == '0':
        return 0, 0.0
    rank = 1 + (bits.count('1', 0, n) if bits else n)
    return 1, double(told, integer(file, fields(file)[k][1][7], told, rank))


def grey(x, largest):
    """The grey of a point that is present, by its X and by the largest X that is present."""
    return 1 + 254 * x // largest if largest > 0 else 1


def picture_length(file, k):
    """How many octets the picture of a field has that is described."""
    grid = describe(file, k)['grid']
    return 9 + len(str(grid['ni'])) + len(str(grid['nj'])) + grid['ni'] * grid['nj']


def picture(file, k, length):
    """What skeptolyr_picture is to put at the start of a run of so many octets: all octets of the picture of field k, as many as the answer says."""
    told = describe(file, k)
    ni, nj = told['grid']['ni'], told['grid']['nj']
    if length < picture_length(file, k):
        raise Refused(15, 0)
    xs = integers(file, fields(file)[k][1][7], told)
    largest = max(xs, default=0)
    grey_of = {x: grey(x, largest) for x in set(xs)}
    following = map(grey_of.__getitem__, xs)
    present = told['bits present'] or '1' * (ni * nj)
    return b'P5\n%d %d\n255\n' % (ni, nj) + bytes(next(following) if bit == '1' else 0 for bit in present)


def distance(number, lines, span):
    """How far a column or a row lies from the first one, where so many of them divide a span evenly: the nearest whole number, and a half goes up. One line
    alone is the first."""
    if lines == 1:
        return 0
    return math.floor(fractions.Fraction(number * span, lines - 1) + fractions.Fraction(1, 2))


def position(g, n):
    """The latitude and the longitude of point n of a grid, in millionths of a degree. Both ends count, and the steps do not."""
    j, i = divmod(n, g['ni'])
    first, last = g['first'], g['last']
    return first[0] - distance(j, g['nj'], first[0] - last[0]), (first[1] + distance(i, g['ni'], span_east(first, last))) % TURN


def grid_with(file, k, n, template):
    """The grid of field k, which must be of this kind, 20, and have a point n, 17."""
    g = describe(file, k)['grid']
    if g['template'] != template:
        raise Refused(20, 0)
    if n >= g['ni'] * g['nj']:
        raise Refused(17, 0)
    return g


def place(file, k, n):
    """The latitude and the longitude of point n of field k."""
    return position(grid_with(file, k, n, DEGREES), n)


def sheet(file, k, n):
    """How far point n of field k lies to the right of the first point, and how far below it, in thousandths of a metre."""
    g = grid_with(file, k, n, LAMBERT)
    j, i = divmod(n, g['ni'])
    return i * g['lambert']['dx'], j * g['lambert']['dy']


# ---- what C is given

def time_numbers(time):
    return [time.year, time.month, time.day, time.hour, time.minute, time.second]


def numbers(told):
    """The numbers of a description, in their order: 53, and on a Lambert grid 7 more behind them."""
    g = told['grid']
    found = [told['discipline'], told['status'], *time_numbers(told['reference'])]
    found += [g['earth'], g['radius'], g['ni'], g['nj'], g['ni'] * g['nj'], *g['first'], *g['last'], g['di'], g['dj']]
    found += [told['category'], told['parameter'], told['process'], told['surface']]
    found += [0, 0, 0] if told['level'] is None else [1, *told['level']]
    found += [0] * 8 if told['product'] is None else [8, *time_numbers(told['product'][0]), told['product'][1]]
    found += [*time_numbers(told['valid']), told['n'], told['r'], told['e'], told['d'], told['bits'], told['template'], told['indicator']]
    return found + told['starts'] + ([g['template'], *g['lambert'].values()] if g['lambert'] else [])


def in_run(found, length):
    """Numbers for a run of so many elements. That the run has no room for them is the last refusal of all."""
    if length < len(found):
        raise Refused(15, 0)
    return found


def describe_in_run(file, k, length):
    """What skeptolyr_describe is to put at the start of a run."""
    return in_run(numbers(describe(file, k)), length)


def place_in_run(file, k, n, length):
    """What skeptolyr_place is to put at the start of a run."""
    return in_run(list(place(file, k, n)), length)


def sheet_in_run(file, k, n, length):
    """What skeptolyr_sheet is to put at the start of a run."""
    return in_run(list(sheet(file, k, n)), length)


# ---- the listing

def digits(time):
    return '%04d%02d%02d%02d%02d%02d' % (time.year, time.month, time.day, time.hour, time.minute, time.second)


def listing(file):
    """What the listing prints."""
    try:
        if len(file) > 65536:
            raise Refused(18, 65536)
        count = len(fields(file))
    except Refused as refused:
        return '%s\n' % refused
    lines = ['%d fields' % count]
    for k in range(count):
        try:
            told = describe(file, k)
            end = told['product'][0] if told['product'] else told['valid']
            lines.append('%d %d/%d/%d %d %dx%d %s %d' % (k, told['discipline'], told['category'], told['parameter'], told['surface'], told['grid']['ni'], told['grid']['nj'], digits(end), told['n']))
        except Refused as refused:
            lines.append('%d %s' % (k, refused))
    return ''.join(line + '\n' for line in lines)
