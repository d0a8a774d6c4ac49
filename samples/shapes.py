"""Files as large as those of the Japan Meteorological Agency, in the shapes that its four papers print, from docs/RULES.md alone. They
are made where they are needed, and not kept. `times` gives a field so many times as many rows; section 3 takes 16,777,216 points at most."""
import array
import itertools
import math
import random

from tests.help import grib


# ---- grids, bitmaps and numbers

def area(ni, nj, first, last):
    """Section 3 of so many columns and rows between two places. The steps are cut to whole millionths, which section 3's tolerance allows."""
    return grib.section3(ni, nj, first, last, (last[1] - first[1]) // (ni - 1), (first[0] - last[0]) // (nj - 1))


def japan(ni, nj):
    """Section 3 of so many columns and rows in degrees, over Japan and the seas around it."""
    return area(ni, nj, (47600000, 120000000), (22400000, 150000000))


def cone(ni, nj):
    """Section 3 of so many columns and rows, 5 km apart, on the sheet of the Agency's paper on model levels."""
    return grib.section3_lambert(ni, nj, (44137789, 102008758), 5000000, 5000000)


def bitmap(marks):
    """The octets of a bitmap, from a mark of 0 or 1 a point."""
    return grib.packed((marks, 1))


def smooth(rng, ni, nj, most):
    """Numbers from 0 to `most` in the order of the points: waves eastward, southward and slantwise, and a little noise, louder in some columns."""
    east = [math.sin(14.4 * i / ni) for i in range(ni)]
    south = [math.sin(9.7 * j / nj) for j in range(nj)]
    slant = [math.sin(0.013 * i) for i in range(ni + nj)]
    loud = [0.5 + 20 * math.sin(5.1 * i / ni) ** 4 for i in range(ni)]
    found = array.array('i')
    for j in range(nj):
        found.extend([int(most / 7 * (3.5 + south[j] + e + s) + noise * (rng.random() - 0.5)) for e, s, noise in zip(east, slant[j:], loud)])
    return found


def marked(values, marks):
    """The values of the points that are marked, in order."""
    return array.array('i', itertools.compress(values, marks))


# ---- template 5.3

def lengths_between(rng, count, shortest, longest):
    """Lengths of groups that add up to the count. The last is what is left."""
    found, left = [], count
    while left:
        found.append(min(left, rng.randint(shortest, longest)))
        left -= found[-1]
    return found


def groups_of(values, lengths):
    """The references, the widths and the packed values of groups of these lengths."""
    references, widths, groups, at = [], [], [], 0
    for length in lengths:
        part = values[at:at + length]
        low = min(part)
        references.append(low)
        widths.append((max(part) - low).bit_length())
        groups.append(([value - low for value in part], widths[-1]))
        at += length
    return references, widths, groups


def complex_packing(values, lengths, reference, e, d, shortest, length_bits, extra=2):
    """Sections 5 and 7 by templates 5.3 and 7.3. Where the first two packed values stand, which no reader is to use, the first two differences
    stand once more; and the length stored for the last group is not its own."""
    differences = [c - 2 * b + a for a, b, c in zip(values, values[1:], values[2:])]
    zmin = min(differences)
    references, widths, groups = groups_of([value - zmin for value in differences[:2] + differences], lengths)
    bits, narrow = max(references).bit_length(), min(widths)
    width_bits = (max(widths) - narrow).bit_length()
    stored = [length - shortest for length in lengths]
    stored[-1] = 0 if lengths[-1] != shortest else 1
    five = grib.section5_groups(len(values), reference, e, d, bits, len(lengths), (narrow, width_bits), (shortest, 1, lengths[-1], length_bits), extra)
    return five, grib.section7_groups(extra, (values[0], values[1], zmin), references, bits, [width - narrow for width in widths], width_bits, stored, length_bits, groups)


# ---- files

def pressure_levels(fields=92, ni=601, nj=631, present=349363, seed=1):
    """The Agency's paper on bitmaps, pressure levels: so many fields of 12 bits over one bitmap."""
    rng = random.Random(seed)
    points = ni * nj
    marks = bytearray(points)
    for point in rng.sample(range(points), present):
        marks[point] = 1
    body = [grib.section1(grib.time(2017, 5, 15, 12, 0, 0)), japan(ni, nj)]
    for k in range(fields):
        body += [grib.instant(k % 4, k % 7, 100, (-2, 1000 - 10 * k), 1, k), grib.section5(present, bytes.fromhex('43800000'), k % 5, 2, 12),
                 grib.section6(0, bitmap(marks)) if k == 0 else grib.section6(254), grib.section(7, rng.randbytes(-(-present * 12 // 8)))]
    return grib.message(*body)


def lfm(times=1, seed=2):
    """The Agency's paper on bitmaps, surface: 1,514,461 points under a bitmap of their own, 1,396,379 of them present, in 12 bits. Points are missing at
    both ends of the rows, more of them in the north."""
    rng = random.Random(seed)
    ni, nj = 1201, 1261 * times
    missing = (1514461 - 1396379) * times
    sums = [int(missing * (j / nj + math.sin(math.pi * j / nj) / 4)) for j in range(nj + 1)]
    marks = []
    for j in range(nj):
        west = (sums[j + 1] - sums[j]) // 2
        east = sums[j + 1] - sums[j] - west
        marks += [0] * west + [1] * (ni - west - east) + [0] * east
    values = marked(smooth(rng, ni, nj, 4095), marks)
    return grib.message(
        grib.section1(grib.time(2017, 5, 15, 12, 0, 0)), japan(ni, nj),
        grib.instant(0, 0, 103, (1, 15), 0, 60), grib.section5(len(values), bytes.fromhex('46d00000'), 2, 2, 12),
        grib.section6(0, bitmap(marks)), grib.section7(values, 12))


def msm(times=1, seed=3, grid=japan):
    """The Agency's paper on model levels: 540,037 points, all present, in groups of 32 by template 5.3. Its grid is in degrees here, unless the Agency's
    own, `cone`, is asked for."""
    ni, nj = 817, 661 * times
    values = smooth(random.Random(seed), ni, nj, 16383)
    lengths = [32] * (len(values) // 32) + [len(values) % 32] * (len(values) % 32 > 0)
    five, seven = complex_packing(values, lengths, bytes.fromhex('c3480000'), -6, 0, 32, 1)
    return grib.message(
        grib.section1(grib.time(2017, 5, 15, 12, 0, 0)), grid(ni, nj),
        grib.instant(2, 2, 118, (0, 1), 0, 180), five, grib.section6(255), seven)


def ocean(times=1, seed=4):
    """The Agency's paper on the seas around Japan: 2,279,466 points under a bitmap of their own by template 5.3, a mean over a day. The groups
    have from 10 to 60 values, where the Agency's have 32."""
    rng = random.Random(seed)
    ni, nj = 1422, 1603 * times
    coast = [math.sin(0.011 * i) + math.sin(0.043 * i + 1) / 2 for i in range(ni + 2 * nj)]
    marks = [int(c > -0.6) for j in range(nj) for c in coast[2 * j:2 * j + ni]]
    values = marked(smooth(rng, ni, nj, 16383), marks)
    five, seven = complex_packing(values, lengths_between(rng, len(values), 10, 60), bytes.fromhex('43888000'), -9, 0, 10, 6)
    return grib.message(
        grib.section1(grib.time(2020, 1, 1, 0, 0, 0)), area(ni, nj, (52020000, 116969697), (19980000, 160030303)),
        grib.interval(grib.time(2020, 1, 2, 0, 0, 0), 0, 2, 1, 4, 15, 160, (0, 1), 2, 0), five, grib.section6(0, bitmap(marks)), seven, discipline=10)


def small_fields(fields=300, seed=5):
    """The Agency's paper on solar radiation, the global model: so many fields of 18,271 points, all present, in 12 bits, each with its own section 3."""
    rng = random.Random(seed)
    grid = area(121, 151, (50000000, 120000000), (20000000, 150000000))
    body = [grib.section1(grib.time(2017, 5, 15, 12, 0, 0))]
    for k in range(fields):
        body += [grid, grib.instant(k % 4, k % 7, 100, (-2, 1 + k % 1000), 1, 3), grib.section5(18271, bytes.fromhex('43800000'), k % 5 - 2, 2, 12),
                 grib.section6(255), grib.section7(smooth(rng, 121, 151, 4095), 12)]
    return grib.message(*body)
