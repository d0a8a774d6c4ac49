"""Fields that NCEP's own encoder wrote (g2c, by tests/peers/encode.c), decoded by the archive that users link, against what went into the encoder.

  python3 -m tests.evidence.encoder    these alone; the last line is 'N passed, M failed'
"""
import collections
import math
import os
import random
import struct
import subprocess
import sys
from fractions import Fraction

from tests.help import SEED, grib, report
from tests.peers import encoded, readers
from tools import archive

SCALES = range(-2, 4)
# The longest side of a small field and of one of middle size, and how many of each there are by template, D and bitmap.
SIDES = {12: 10, 40: 5}
CONSTANTS = [273.15, -40.0, 0.0, 101325.0]
# The refusals of sections 5 and 7.
FIVE, SEVEN = 12, 14

# What the archive told of a file: the doubles and the presence of its field, or None; and the number and the place of its refusal, or None.
Told = collections.namedtuple('Told', 'doubles presence refusal')
# A field that went in, the file that the encoder wrote, and what the archive told of it.
Case = collections.namedtuple('Case', 'field file told')


# ---- fields that go in

def noise(rng, ni, nj):
    """Numbers that have nothing to do with one another, in units of 10^-D. Their range stays below 2^17: the encoder takes logarithms in single precision,
    and for a range of 2^21 it counts a bit too few."""
    tall = 10 ** rng.uniform(0, 4.5)
    return [rng.uniform(-tall, tall) for _ in range(ni * nj)]


def showers(rng, ni, nj):
    """A number, and among many zeros some more."""
    return [100.0, 0.0] + [max(0.0, rng.uniform(-300, 100)) for _ in range(ni * nj - 2)]


def nearly_constant(rng, ni, nj):
    """Numbers that the encoder takes for one and the same, and for which it needs no bit."""
    level = rng.randint(-30000, 30000)
    return [level + rng.uniform(-0.4, 0.4) for _ in range(ni * nj)]


def halves(rng, ni, nj):
    """Numbers that are as near to one whole number as to another."""
    return [rng.randint(-2000, 2000) + 0.5 for _ in range(ni * nj)]


SHAPES = [encoded.waves, noise, showers, nearly_constant, halves]


def varied_fields():
    """Fields by both templates, with each D, under a bitmap or none, small and of middle size, in shapes by turns."""
    rng, sides = random.Random(SEED), [side for side, count in SIDES.items() for _ in range(count)]
    return [encoded.field(rng, template, d, has_bitmap, side, SHAPES[turn % len(SHAPES)])
            for template in (encoded.SIMPLE, encoded.COMPLEX) for d in SCALES for has_bitmap in (False, True) for turn, side in enumerate(sides)]


def constant_fields():
    """Fields by both templates, with each D, of one value each, under a bitmap or none by turns."""
    rng = random.Random(SEED)
    return [encoded.Field(template, d, 4, 3, [encoded.single(value)] * 12, encoded.marks(rng, 12) if turn % 2 else None)
            for template in (encoded.SIMPLE, encoded.COMPLEX) for d in SCALES for turn, value in enumerate(CONSTANTS)]


# ---- what comes out

def decoded(program, files):
    """What the archive tells of each file, all of them in one run of the program."""
    asked = b''.join(grib.number(len(file), 8) + file for file in files)
    octets = subprocess.run(program + ['partly'], input=asked, stdout=subprocess.PIPE, check=True).stdout
    found = []
    for fields, errors in readers.told_files(octets, readers.DESCRIPTION):
        code = errors[0][1] if errors else None
        doubles = struct.unpack('>%dd' % (len(fields[0].doubles) // 8), fields[0].doubles) if fields else None
        found.append(Told(doubles, fields[0].presence if fields else None, (code >> 32 & 0x7fffffff, code & 0xffffffff) if errors else None))
    return found


def scaled(value, d):
    """A value in units of 10^-D, as the encoder has it: 10^D is rounded to single precision, and so is the product. A double holds the product whole."""
    return Fraction(encoded.single(value * encoded.single(10.0 ** d)))


def comes_out(double, value, d):
    """Is the double what the encoder's formula makes of the value that went in?

    The encoder rounds what it has scaled to the nearest whole number of units, n, halves to even. R + X is n, exactly, since none has more than 24
    bits. Decode's double is n / 10^D rounded once: it is off by half a unit of its own last place at most. So it is within half a unit of 10^-D of the
    value, but for what the scaling to single precision took, |scaled - value x 10^D|, and for that last place."""
    nearest = round(scaled(value, d)) / Fraction(10) ** d
    return abs(Fraction(double) - nearest) <= Fraction(math.ulp(double)) / 2


def is_put_in(field, told, judge):
    """Are the points present those that went in, does each value satisfy the judge, and is every missing point +0?"""
    marks = [1] * len(field.values) if field.marks is None else field.marks
    if told.doubles is None or list(told.presence) != marks:
        return False
    zero = struct.pack('>d', 0.0)
    return all(judge(double, value, field.d) if mark else struct.pack('>d', double) == zero for double, value, mark in zip(told.doubles, field.values, marks))


# ---- judging

def refusal_of(file, number, section):
    """A refusal that has the section's start as its place."""
    sections = encoded.sections_of(file)
    return number, 16 + sum(len(sections[before]) for before in sections if before < section)


def adds_up(case):
    """Has each value a group? Read by hand."""
    groups = encoded.groups_of(case.file) if case.field.template == encoded.COMPLEX else None
    return groups is None or sum(groups.lengths) == groups.n == len(encoded.present(case.field))


def is_right(case):
    if adds_up(case):
        return is_put_in(case.field, case.told, comes_out)
    return case.told.refusal == refusal_of(case.file, SEVEN, 7)


def is_constant_right(case):
    """By 5.0 the encoder writes a constant field in 0 bits, with R as what went in and with D all the same, and g2c reads R without D. By the rules a
    value is R / 10^D, which is what went in where D is 0. By 5.3 it writes 0 groups, which section 5 may not have."""
    if case.field.template == encoded.COMPLEX:
        return case.told.refusal == refusal_of(case.file, FIVE, 5)
    five = encoded.sections_of(case.file)[5]
    is_written_so = five[11:15] == struct.pack('>f', case.field.values[0]) and five[17:19] == grib.signed(case.field.d, 2) and five[19] == 0
    return is_written_so and is_put_in(case.field, case.told, lambda double, value, d: double == float(Fraction(value) / Fraction(10) ** d))


def faulty(rng, case):
    """What a faulty archive might tell: at one point present a unit of 10^-D more and one less, and at any point the other presence."""
    told, unit = case.told, 10.0 ** -case.field.d
    at = rng.choice([n for n, mark in enumerate(told.presence) if mark])
    for off in (unit, -unit):
        yield told._replace(doubles=told.doubles[:at] + (told.doubles[at] + off,) + told.doubles[at + 1:])
    at = rng.randrange(len(told.presence))
    yield told._replace(presence=told.presence[:at] + bytes([1 - told.presence[at]]) + told.presence[at + 1:])


# ---- the tests

def shown(case):
    field = case.field
    about = '5.%d, D %d, %d x %d, %s' % (field.template, field.d, field.ni, field.nj, 'all present' if field.marks is None else 'a bitmap')
    return '%s, %s:\n%s' % (about, 'decoded' if case.told.refusal is None else 'refused %d at %d' % case.told.refusal, case.file[:300].hex())


def fields_come_out(varied, constants):
    """What went into NCEP's encoder comes out within half a unit of 10^-D, and fields whose groups do not add up are refused with 14"""
    whole = sum(map(adds_up, varied))
    print('%s %s: %d fields that add up, %d that do not' % (encoded.PACKAGE, readers.version(encoded.PACKAGE), whole, len(varied) - whole))
    return map(shown, [case for case in varied if not is_right(case)][:report.MOST_SHOWN])


def constants_come_out(varied, constants):
    """Constant fields of NCEP's encoder come out as R / 10^D where they have 0 bits, and are refused with 12 where they have 0 groups"""
    print('%d constant fields' % len(constants))
    return map(shown, [case for case in constants if not is_constant_right(case)][:report.MOST_SHOWN])


def faults_are_found(varied, constants):
    """An answer that is a unit of 10^-D more or less at one point, or has another presence at one, is not taken for what went in"""
    rng = random.Random(SEED)
    answers = [case._replace(told=told) for case in varied if case.told.doubles is not None for told in faulty(rng, case)]
    print('%d faulty answers' % len(answers))
    if not answers:
        return ['no field came out']
    return map(shown, [case for case in answers if is_put_in(case.field, case.told, comes_out)][:report.MOST_SHOWN])


def without_encoder(test):
    """In place of a test, where g2c cannot be had."""
    raise report.Skipped('"%s"' % test.__doc__, "Debian's package %s could not be installed" % encoded.PACKAGE)


def cases(command, fields):
    """The fields encoded, each by a process of its own, and decoded in one run."""
    files = [encoded.file_of(command, field) for field in fields]
    reader = archive.program('skeptolyr', os.path.join('tests', 'peers', 'skeptolyr.c'), name='peers-skeptolyr')
    return list(map(Case, fields, files, decoded(reader, files)))


def results():
    """Whether each test passed, or None for each where g2c cannot be had."""
    tests, command = (fields_come_out, constants_come_out, faults_are_found), encoded.encoder()
    if command is None:
        return [report.tried(without_encoder, test) for test in tests]
    try:
        varied, constants = cases(command, varied_fields()), cases(command, constant_fields())
    except (OSError, subprocess.SubprocessError) as fault:
        return [report.judged(test.__doc__, [str(fault)]) for test in tests]
    return [report.tried(test, varied, constants) for test in tests]


if __name__ == '__main__':
    sys.exit(report.ended(results()))
