"""Makes GRIB files from the rules alone: sections by their octets, fields, grids, messages."""
import functools


def number(value, octets):
    return value.to_bytes(octets, 'big')


def signed(value, octets):
    """The sign in the top bit, the size in the rest."""
    return number((1 << 8 * octets - 1 if value < 0 else 0) | abs(value), octets)


def section(kind, body):
    return number(5 + len(body), 4) + number(kind, 1) + body


def time(year, month, day, hour, minute, second):
    return number(year, 2) + bytes([month, day, hour, minute, second])


def section1(reference, status=0):
    """Identification: centre 34, the reference time in octets 13-19, the status in octet 20."""
    return section(1, number(34, 2) + number(0, 2) + bytes([2, 1]) + bytes([1]) + reference + bytes([status, 1]))


def earth(radius):
    """Octets 15-30: earth code 6, or code 1 with a radius."""
    return bytes([6]) + b'\xff' * 15 if radius is None else bytes([1, 0]) + number(radius, 4) + b'\xff' * 10


def section3(ni, nj, first, last, di, dj, radius=None):
    """Grid 3.0 on the sphere of earth code 6, or of code 1 with a radius. Places are (latitude, longitude) in millionths of a degree."""
    body = bytes([0]) + number(ni * nj, 4) + bytes([0, 0]) + number(0, 2)
    body += earth(radius)
    body += number(ni, 4) + number(nj, 4) + number(0, 4) + b'\xff' * 4
    body += signed(first[0], 4) + number(first[1], 4) + bytes([0x30]) + signed(last[0], 4) + number(last[1], 4)
    body += number(di, 4) + number(dj, 4) + bytes([0])
    return section(3, body)


def section3_lambert(ni, nj, first, dx, dy, stated=30000000, upright=140000000, cutting=(60000000, 30000000), radius=6371000):
    """Grid 3.30, by default on the Agency's cone: the latitude of the stated lengths, the upright meridian, and the two cutting latitudes. The first point is
    (latitude, longitude) in millionths of a degree, and the lengths are in thousandths of a metre."""
    body = bytes([0]) + number(ni * nj, 4) + bytes([0, 0]) + number(30, 2) + earth(radius) + number(ni, 4) + number(nj, 4)
    body += signed(first[0], 4) + number(first[1], 4) + bytes([0x08]) + signed(stated, 4) + number(upright, 4)
    body += number(dx, 4) + number(dy, 4) + bytes([0, 0]) + signed(cutting[0], 4) + signed(cutting[1], 4)
    return section(3, body + b'\xff' * 8)


def product(category, parameter, surface, level, unit, forecast):
    """Octets 6-34, which templates 4.0 and 4.8 share but for the template's number. A level is (factor, scaled level) or None."""
    body = bytes([category, parameter, 2, 0, 31]) + number(0, 2) + bytes([0, unit]) + signed(forecast, 4) + bytes([surface])
    body += b'\xff' * 5 if level is None else signed(level[0], 1) + number(level[1], 4)
    return body + b'\xff' * 6


def instant(*words):
    """Section 4 by template 4.0."""
    return section(4, number(0, 2) + number(0, 2) + product(*words))


def interval(end, kind, unit, length, *words):
    """Section 4 by template 4.8: the end, mean (0) or sum (1), and the interval's length with its unit."""
    body = number(0, 2) + number(8, 2) + product(*words) + end + bytes([1]) + number(0, 4) + bytes([kind, 2, unit]) + number(length, 4)
    return section(4, body + bytes([255]) + number(0, 4))


def section5(count, reference, e, d, bits):
    """Section 5 by template 5.0. R is given by its four octets."""
    return section(5, number(count, 4) + number(0, 2) + reference + signed(e, 2) + signed(d, 2) + bytes([bits, 0]))


def section5_groups(count, reference, e, d, bits, groups, widths, lengths, extra):
    """Section 5 by template 5.3. Widths are (reference, bits), lengths (reference, increment, last, bits)."""
    body = number(count, 4) + number(3, 2) + reference + signed(e, 2) + signed(d, 2) + bytes([bits, 0, 1, 0]) + b'\xff' * 8 + number(groups, 4) + bytes(widths)
    return section(5, body + number(lengths[0], 4) + bytes([lengths[1]]) + number(lengths[2], 4) + bytes([lengths[3], 2, extra]))


def section6(indicator, bitmap=b''):
    return section(6, bytes([indicator]) + bitmap)


@functools.lru_cache(maxsize=65536)
def binary(value, bits):
    """So many binary digits. Large fields repeat their values, and need not hold the digits of each anew."""
    return format(value, '0%db' % bits)


def packed(*runs):
    """Runs of values, each run (values, bits), with no gap between them; the last octet is filled with zeros."""
    digits = ''.join(binary(value, bits) for values, bits in runs if bits for value in values)
    digits += '0' * (-len(digits) % 8)
    return number(int('0' + digits, 2), len(digits) // 8)


def section7(values, bits):
    """Section 7 by template 7.0: each value in so many bits."""
    return section(7, packed((values, bits)))


def section7_groups(extra, start, references, bits, widths, width_bits, lengths, length_bits, groups):
    """Section 7 by template 7.3: the first value, the second and Zmin; what is stored of references, widths and lengths; and the values of
    each group, (values, bits)."""
    first, second, zmin = start
    body = number(first, extra) + number(second, extra) + signed(zmin, extra)
    return section(7, body + packed((references, bits)) + packed((widths, width_bits)) + packed((lengths, length_bits)) + packed(*groups))


def message(*sections, discipline=0):
    body = b''.join(sections)
    return b'GRIB' + b'\xff\xff' + bytes([discipline, 2]) + number(16 + len(body) + 4, 8) + body + b'7777'


def spliced(file, place, octets):
    """A file with other octets from a place on."""
    return file[:place] + octets + file[place + len(octets):]


def two_fields():
    """The rules' 276-octet file: 2 x 2 points, a bitmap and then 254, 12-bit values, a temperature of 291.2 and 274.8 K and a sum of rain."""
    zero = bytes(4)
    return message(
        section1(time(2017, 5, 15, 12, 0, 0)),
        section3(2, 2, (36000000, 135000000), (35000000, 136000000), 1000000, 1000000),
        instant(0, 0, 103, (0, 10), 1, 1), section5(2, zero, 0, 1, 12), section6(0, b'\xa0'), section7([2912, 2748], 12),
        interval(time(2017, 5, 15, 13, 0, 0), 1, 1, 1, 1, 8, 1, None, 1, 0), section5(2, zero, 0, 1, 12), section6(254), section7([5, 7], 12))


def grouped():
    """One field of 5.3 over a bitmap: ten values in three groups on a grid of 4 x 3, the last group longer than what is stored for it."""
    values = [[1, 0, 3], [0, 5, 2, 7], [1, 1, 0]]
    return message(
        section1(time(2016, 2, 29, 18, 0, 0), 1),
        section3(4, 3, (36000000, 358000000), (34000002, 1000001), 1000000, 1000000, radius=6371000),
        instant(2, 2, 100, (-2, 850), 0, 90),
        section5_groups(10, bytes.fromhex('c2c80000'), -3, 1, 7, 3, (1, 2), (1, 1, 3, 4), 2), section6(0, b'\xbb\xf0'),
        section7_groups(2, (50, 49, -7), [3, 100, 0], 7, [1, 2, 0], 2, [2, 3, 9], 4, [(values[0], 2), (values[1], 3), (values[2], 1)]))
