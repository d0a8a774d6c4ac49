"""Pictures in shades of grey: skeptolyr_picture, called from C, against an independent reading (tests/help/reading.py), octet for octet; the subcommand
`pgm`, what it makes, says and leaves behind; and what the readers of Netpbm and of ImageMagick find in its pictures. It ends in 'N passed, M failed'.

SKEPTOLYR_COMMAND may name a ready program to be tested. Without it, command/*.c is compiled with the archive.
"""
import ctypes
import os
import random
import re
import resource
import shutil
import signal
import stat
import subprocess
import sys
import tempfile
from typing import NamedTuple

from samples import make, shapes
from tests import decoding, drawing, fields, points
from tests.help import SEED, faulty, grib, lending, manual, reading, report, terminal
from tools import archive, debian

LARGEST_X = decoding.LARGEST_X
# The longest run that tests/help/lend.c lends.
HUGE = 1 << 26
FILE, PICTURE = drawing.FILE, 'picture.pgm'


class Question(NamedTuple):
    """A question to picture, and the length of the run that is lent."""
    file: bytes
    k: int
    room: int


# ---- what is to be answered

def lent_after(question):
    """The answer's eight octets and the run behind them, as they must be after the call, and how many octets are written. The run of a refused call cannot be
    touched, and does not come back."""
    try:
        picture = reading.picture(*question)
    except reading.Refused as refused:
        return grib.number(refused.code, 8), lending.NONE
    return grib.number(len(picture), 8) + picture + lending.UNTOUCHED * (question.room - len(picture)), len(picture)


def refusal_of(question):
    """The number of the question's refusal, or 0 where it is answered."""
    return int.from_bytes(lent_after(question)[0][:8], 'big') >> 32 & 0x7fffffff


def difference(want, have):
    """In words, where two answers first differ."""
    if have is None or want[:8] != have[:8]:
        return 'expected %s, got %s' % tuple(fields.shown(int.from_bytes(answer[:8], 'big')) if answer else 'nothing' for answer in (want, have))
    at = next(i for i in range(len(want)) if want[i:i + 1] != have[i:i + 1])
    return 'octet %d: expected %s, got %s' % (at - 8, want[at:at + 16].hex(), have[at:at + 16].hex())


# ---- asking

def written(questions):
    """The questions as tests/help/lend.c reads them, and what each has to bring back."""
    lent, wanted, before = [], [], None
    for question in questions:
        want, octets = lent_after(question)
        lent.append(lending.question(lending.PICTURE, question.file, before, question.k, lengths=(0, question.room), written=octets))
        wanted.append(want)
        before = question.file
    return b''.join(lent), wanted


def compare(program, name, questions):
    """Puts the questions to the archive, and compares each answer and each octet of its run."""
    print('comparing: %s' % name, file=sys.stderr, flush=True)
    def told(question, want, have):
        return 'field %d, a run of %d: %s\n  %s' % (question.k, question.room, difference(want, have), question.file[:600].hex())

    lent, wanted = written(questions)
    unit = 'questions, %d octets of pictures' % sum(len(want) - 8 for want in wanted)
    return report.compared(name, questions, wanted, lending.cut(report.answers(program, lent), wanted), told, unit=unit)


def whole_pictures(files):
    """A question for each field of each file, in a run that fits exactly or has one to three octets more. A field that is refused has the room of a point."""
    found = []
    for number, file in enumerate(files):
        for k in range(len(reading.fields(file))):
            try:
                found.append(Question(file, k, reading.picture_length(file, k) + (number + k) % 4))
            except reading.Refused:
                found.append(Question(file, k, 13))
    return found


# ---- in words

def rows_of(file, ni):
    """The same file of one message and one grid, with its points in rows of so many columns."""
    _, ((_, one, three), (_, _, four), *_, (_, _, end)) = reading.messages(file)[0]
    count = int.from_bytes(file[three + 6:three + 10], 'big')
    return grib.message(file[one:three], decoding.grid(ni, count // ni), file[four:end])


def told_pictures():
    """(name, file, k, what stands between P5 and 255, each grey) in so many words."""
    one, simple, under = decoding.one_group, decoding.simple, points.under_bitmap
    small = decoding.small_file
    return [
        ("the rules' file", grib.two_fields(), 0, '2 2', [255, 0, 240, 0]),
        ("the rules' file, by 254", grib.two_fields(), 1, '2 2', [182, 0, 255, 0]),
        ('254, on a Lambert grid', fields.two_lambert_fields(), 1, '2 2', [182, 0, 255, 0]),
        ('one point, which is 0', small(simple([0], 7)), 0, '1 1', [1]),
        ('one point, which is not 0', small(simple([3], 7)), 0, '1 1', [255]),
        ('no point is present', under('0' * 9, simple([], 12)), 0, '9 1', [0] * 9),
        ('0 bits', under('0110', simple([0, 0], 0, bytes.fromhex('3fc00000'))), 0, '4 1', [0, 1, 1, 0]),
        ('M is 0 in 12 bits', small(simple([0, 0, 0], 12)), 0, '3 1', [1, 1, 1]),
        ('M is 1', small(simple([0, 1, 0], 1)), 0, '3 1', [1, 255, 1]),
        ('M is 2', small(simple([2, 1, 0], 2)), 0, '3 1', [255, 128, 1]),
        ('M is 254: every grey', small(simple(range(255), 8)), 0, '255 1', [*range(1, 256)]),
        ('M is 255', small(simple([0, 1, 2, 254, 255], 8)), 0, '5 1', [1, 1, 2, 254, 255]),
        ('M is 2,147,483,647', small(simple([8454660, 8454661, LARGEST_X - 1, LARGEST_X], 31)), 0, '4 1', [1, 2, 254, 255]),
        ('R, E and D change no grey', small(simple([2, 1, 0], 2, bytes.fromhex('c2c80000'), -3, 2)), 0, '3 1', [255, 128, 1]),
        ('in groups: 5, 7, 11, 15', small(one((5, 7, -1), [0, 0, 3, 1], 2)), 0, '4 1', [85, 119, 187, 255]),
        ('in groups, under a bitmap', under('0101011', one((5, 7, -1), [0, 0, 3, 1], 2)), 0, '7 1', [0, 85, 0, 119, 0, 187, 255]),
        ('in groups: packed numbers of the first two are not used', small(one((1, 2, -3), [3, 3, 3], 2)), 0, '3 1', [85, 170, 255]),
        ('in groups: the first is the largest', small(one((8, 4, 0), [0, 0, 0], 0)), 0, '3 1', [255, 128, 1]),
        ('rows of three', rows_of(small(simple([0, 1, 2, 3, 4, 5], 3)), 3), 0, '3 2', [1, 51, 102, 153, 204, 255]),
        ('rows of two', rows_of(small(simple([0, 1, 2, 3, 4, 5], 3)), 2), 0, '2 3', [1, 51, 102, 153, 204, 255]),
    ]


def told_octets(sizes, greys):
    """The octets of a picture, by what stands between P5 and 255, and by its greys."""
    return b'P5\n' + sizes.encode() + b'\n255\n' + bytes(greys)


def reads_as_told(given):
    """Does the independent reading make these very octets, as many as its own rule of the length says?"""
    wrong = 0
    for name, file, k, sizes, greys in given:
        wanted, have = told_octets(sizes, greys), reading.picture(file, k, HUGE)
        if have != wanted or reading.picture_length(file, k) != len(wanted):
            print('the independent reading of "%s": %s, and not %s' % (name, have.hex(), wanted.hex()))
            wrong += 1
    print('the independent reading: %d pictures, %d made otherwise' % (len(given), wrong))
    return not wrong


# ---- either side of each grey

# The largest X of fields: those of all greys and of one more or less, those on either side of 2^28, below which the code multiplies and from which on it
# divides, and the largest. At 269,294,863, at 2,147,483,646 and at few others that product would be wrong, so that they show where it ends.
LARGEST = (0, 1, 2, 253, 254, 255, 256, 268435455, 268435456, 269294863, LARGEST_X - 1, LARGEST_X)


def around_greys(largest):
    """X just below, at and just above each number from which on a grey is the next one, and both ends, in order."""
    firsts = [-(-lighter * largest // 254) for lighter in range(1, 255)]
    return sorted({x for first in firsts for x in (first - 1, first, first + 1) if 0 <= x <= largest} | {0, largest})


def greys_change_there():
    """Of every largest X, is the grey of each number at which it changes one more than that of the number before, and are all greys met that there can be?"""
    wrong = []
    for largest in LARGEST:
        found = [reading.grey(x, largest) for x in around_greys(largest)]
        wrong += [largest] if len(set(found)) != min(largest + 1, 255) or found != sorted(found) or found[0] != 1 else []
        for lighter in range(1, 255) if largest >= 254 else ():
            first = -(-lighter * largest // 254)
            wrong += [(largest, first)] if (reading.grey(first - 1, largest), reading.grey(first, largest)) != (lighter, lighter + 1) else []
    print('where greys change: %d largest X, %d wrong %s' % (len(LARGEST), len(wrong), wrong[:5]))
    return not wrong


def bitmaps_for(rng, count):
    """No bitmap, and marks of so many points present: points are missing first, last, between, and everywhere."""
    between = [1] * count
    for at in sorted(rng.sample(range(1, count), min(count - 1, 9)), reverse=True):
        between.insert(at, 0)
    return [None, [0] * 9 + [1] * count, [1] * count + [0] * 9, between, [0] + between + [0, 0]]


def packings_of(values):
    """X in simple packing, in as many bits as it takes and in 31, and in groups. Differences of large numbers out of order would not fit into groups."""
    largest, count = max(values), len(values)
    packed = [decoding.simple(values, max(1, largest.bit_length())), decoding.simple(values, 31)]
    if largest < 1 << 28 or values in (sorted(values), sorted(values, reverse=True)):
        packed.append(shapes.complex_packing(values, [count // 3, count // 3, count - 2 * (count // 3)], decoding.ZERO, 0, 0, 1, 10, 4))
    return packed


def on_either_side(rng):
    """Files of all largest X with each X around greys, in both packings, from the smallest X on, from the largest on and in no order, with and without a
    bitmap."""
    found = []
    for largest in LARGEST:
        ascending = sorted(around_greys(largest) * (1 if largest > 2 else 4))
        for values in (ascending, ascending[::-1], rng.sample(ascending, len(ascending))):
            packed = packings_of(values)
            for marks in bitmaps_for(rng, len(values)):
                own = grib.section6(0, shapes.bitmap(marks)) if marks else decoding.ALL
                sections6 = [own] + [grib.section6(254) if marks else own] * (len(packed) - 1)
                found.append(decoding.small_file(*packed, ni=len(marks or values), sections6=sections6))
    return found


# ---- small files

def sample_files():
    """The samples whose sections tile, among them fields that are refused."""
    found = []
    for file in make.samples().values():
        try:
            found += [file] if reading.fields(file) else []
        except reading.Refused:
            continue
    return found


def small_files(rng):
    """Fields in both packings with numbers, groups and bitmaps at their limits, with no point and with no bit, on both kinds of grid, in one row and more."""
    files = decoding.all_bits(rng) + decoding.all_packings(rng)[::30] + decoding.group_plans(rng) + decoding.bitmaps(rng) + points.grouped_fields(rng)
    cones = [decoding.on_cone(grib.grouped(), rows) for rows in (1, 2, 3, 4, 6, 12)] + points.lambert_files(rng)
    kinds = [grib.two_fields(), grib.grouped(), grib.two_fields() + grib.grouped(), fields.southern_cone(), fields.both_kinds(), fields.two_lambert_fields()]
    values = [rng.randrange(4096) for _ in range(60)]
    both = [decoding.small_file(packed) for packed in (decoding.simple(values, 12), decoding.complex_packing(values))]
    shaped = [rows_of(file, ni) for file in both for ni in (1, 2, 3, 10, 30, 60)]
    return files + cones + kinds + shaped


# ---- rooms, and the order of refusals

def rooms():
    """Runs from no octet to three more than the picture has, and a huge one, for fields of both packings, on both kinds of grid, and of no point present."""
    given = [(grib.two_fields(), 0), (grib.two_fields(), 1), (fields.two_lambert_fields(), 1), (grib.grouped(), 0),
             (points.under_bitmap('0' * 9, decoding.simple([], 12)), 0), (decoding.small_file(decoding.simple([3], 2)), 0)]
    found = [Question(file, k, room) for file, k in given for room in range(reading.picture_length(file, k) + 4)]
    return found + [Question(*given[1], HUGE)]


def out_of_range():
    """Fields whose integers are out of their range, each with its number: the sample of refusal 16, and a field on either kind of grid."""
    return [make.samples()['refused/16-difference.grib2'], *points.out_of_range()]


def told_orders():
    """(question, the number of its refusal or 0 in so many words): those of describe come first, then 15, then 16."""
    found = []
    for file in (grib.two_fields(), fields.two_lambert_fields()):
        found += [(Question(file, k, room), number) for k in (0, 1) for room, number in ((0, 15), (1, 15), (14, 15), (15, 0), (16, 0), (9999, 0))]
        found += [(Question(file, k, room), 8) for k in (2, 3, 2 ** 32, 2 ** 64 - 1) for room in (0, 14, 15)]
    for file in out_of_range():
        fits = reading.picture_length(file, 0)
        found += [(Question(file, 0, room), number) for room, number in ((0, 15), (fits - 1, 15), (fits, 16), (fits + 1, 16), (HUGE, 16))]
    broken = [*fields.broken_in_degrees().items(), *fields.broken_lambert().items()]
    whole = [(number, field) for number, field in fields.refused_fields().items() if number <= 8]
    given = [(number, (file, 0)) for number, file in broken] + whole
    return found + [(Question(*field, room), number) for number, field in given for room in (0, 14, 15, 1000)]


def orders_are_told(given):
    """Does the independent reading give these refusals, those that name no section at place 0, and 16 at section 7?"""
    wrong = [(question, number) for question, number in given if refusal_of(question) != number]
    for question, number in given:
        place = int.from_bytes(lent_after(question)[0][4:8], 'big')
        if number in (1, 2, 8, 15) and place or number == 16 and place != reading.fields(question.file)[question.k][1][7][0]:
            wrong.append((question, number))
    for question, number in wrong[:report.MOST_SHOWN]:
        print('the independent reading: %d, and not %d, for %s' % (refusal_of(question), number, question._replace(file=len(question.file))))
    is_whole = {number for _, number in given} == {*range(17)}
    print('the order of refusals: %d questions, %d read otherwise%s' % (len(given), len(wrong), '' if is_whole else '; NOT every refusal is among them'))
    return not wrong and is_whole


def range_cases():
    """Pictures of fields on either side of 16, and of X that leaves its range at each place in turn, in runs that fit and that are one octet too short."""
    files = [decoding.small_file(decoding.one_group(*numbers)) for _, numbers, _ in decoding.integers_out_of_range()] + points.first_out_at_every_place(60)
    return [Question(file, 0, reading.picture_length(file, 0) - short) for file in files for short in (0, 1)]


# ---- what the run held before

# Asks for each field of the file on standard input, in a run that holds each of the 256 octets in turn, and prints how many pictures are not the first one.
FILLED = r'''
#include <skeptolyr.h>
#include <stdio.h>
#include <string.h>

static uint8_t file[65536], first[65536], picture[65536];

int main(void)
{
    size_t length = fread(file, 1, sizeof file, stdin), fields = skeptolyr_fields(skeptolyr_check(file, length)), others = 0;
    for (size_t i = 0; i < 256 * fields; i++) {
        memset(picture, (int)(i % 256), sizeof picture);
        uint64_t answer = skeptolyr_picture(file, length, i / 256, picture, sizeof picture);
        if (skeptolyr_is_refusal(answer))
            return 1;
        if (i % 256 == 0)
            memcpy(first, picture, answer);
        others += memcmp(first, picture, answer) != 0;
    }
    printf("%u fields, %u others\n", (unsigned)fields, (unsigned)others);
    return 0;
}
'''


def is_the_same_in_any_run(files):
    """Has a picture the same octets, whatever stood in the run before? It lies there while its greys are moved to their points, and memory that was never
    written may be lent."""
    with tempfile.TemporaryDirectory() as folder:
        source = os.path.join(folder, 'filled.c')
        with open(source, 'w', encoding='ascii') as out:
            out.write(FILLED)
        program = archive.program('skeptolyr', source)
    wanted = ['%d fields, 0 others\n' % len(reading.fields(file)) for file in files]
    got = [report.answers(program, file).decode() for file in files]
    return report.compared('in runs of every octet', files, wanted, got, lambda file, want, have: '%d octets: %s' % (len(file), have), unit='files')


# ---- damaged files

def damaged(rng):
    """Pictures of damaged files, in runs that fit the picture as it was, and in some that are shorter."""
    values = [rng.randrange(9000) for _ in range(60)]
    given = [grib.two_fields(), grib.grouped(), fields.both_kinds(), decoding.on_cone(grib.grouped(), 3),
             decoding.small_file(decoding.complex_packing(values, [20, 40], extra=4)),
             points.under_bitmap('1' * 30 + '01' * 30, decoding.complex_packing(values, [1, 29, 30], extra=2))]
    found = []
    for _ in range(points.DAMAGED_FILES):
        whole = rng.choice(given)
        k = rng.randrange(len(reading.fields(whole)))
        found.append(Question(points.damaged_file(rng, whole), k, reading.picture_length(whole, k) - rng.choice((0, 0, 0, 0, 1, 5))))
    return found


def damage_is_mixed(questions):
    """Are some pictures of damaged files made, and others refused by each number that damage to sections 5 to 7 can bring?"""
    found = {refusal_of(question) for question in questions}
    is_mixed = found >= {0, 12, 13, 14, 15, 16}
    print('damaged files: %s' % ('some are painted, and each refusal is among the others' if is_mixed else 'NOT each refusal is among them: %s' % found))
    return is_mixed


# ---- full size

def flat(ni=65535, nj=256):
    """A field, by default on the widest grid, of which all points are 0 in no bits."""
    five = grib.section5(ni * nj, decoding.ZERO, 0, 0, 0)
    return grib.message(decoding.START, decoding.grid(ni, nj), decoding.INSTANT, five, decoding.ALL, grib.section7([], 0))


FULL_SIZE = {**points.FULL_SIZE, 'the widest grid': flat}


def full_size(program):
    """Files as large as the Agency's, each picture in a run that fits, and in one that is an octet too short."""
    results = []
    for name, made in FULL_SIZE.items():
        print('making: %s' % name, file=sys.stderr, flush=True)
        file = made()
        results.append(compare(program, name, [Question(file, 0, reading.picture_length(file, 0) - short) for short in (0, 1)]))
    return results


# ---- faults that have to be found

def finds_faults(questions):
    """Is each fault of picture found that stands between the program and the archive, and none where there is none?"""
    return faulty.are_found(faulty.OF_PICTURE, 'picture', *written(questions))


def asked_of_archive(rng):
    """All that is put to skeptolyr_picture, from C."""
    program = archive.program('skeptolyr', 'tests/help/lend.c')
    told, orders = told_pictures(), told_orders()
    of_told = [Question(file, k, reading.picture_length(file, k) + 2) for _, file, k, _, _ in told]
    results = [reads_as_told(told), orders_are_told(orders), greys_change_there(), compare(program, 'pictures that are told in words', of_told)]
    edges = whole_pictures(on_either_side(rng))
    results.append(compare(program, 'X on either side of each grey', edges))
    results.append(compare(program, 'the samples', whole_pictures(sample_files())))
    results.append(compare(program, 'small files of every packing, on both kinds of grid', whole_pictures(small_files(rng))))
    results.append(compare(program, 'runs of every length', rooms()))
    results.append(is_the_same_in_any_run([grib.two_fields(), grib.grouped(), make.samples()['islands.grib2'], make.samples()['lambert.grib2']]))
    results.append(compare(program, 'the order of refusals', [question for question, _ in orders]))
    results.append(compare(program, 'X out of range at every place', range_cases()))
    broken = damaged(rng)
    results += [damage_is_mixed(broken), compare(program, 'damaged files', broken)]
    rules = [(file, 0) for _, file, _ in fields.rules()] + [(file, k) for _, file, k, _ in fields.later_fields()]
    results.append(compare(program, 'either side of every rule', [Question(file, k, room) for file, k in rules for room in (14, 15, 300)]))
    few = [question for question, _ in orders if len(question.file) <= 1000 and question.room < HUGE]
    results.append(finds_faults(of_told + edges[::7] + few + rooms()[:60]))
    return results + full_size(program)


# ---- the subcommand

def is_painted(file, k):
    """Is there a picture of the field?"""
    try:
        return bool(reading.picture(file, k, HUGE))
    except reading.Refused:
        return False


def painted_fields():
    """(name, file, k) of fields that a picture is made of: those of the samples, and some of every kind."""
    found = [(name, file, k) for name, file in make.samples().items() for k in (0, 1) if is_painted(file, k)]
    return found + [(name, file, k) for name, file, k, _, _ in told_pictures()] + [('grouped', grib.grouped(), 0)]


def made_by_library(file, k):
    """The octets that skeptolyr_picture itself makes, called from C."""
    room = reading.picture_length(file, k)
    asked = lending.question(lending.PICTURE, file, None, k, lengths=(0, room), written=room)
    return report.answers(archive.program('skeptolyr', 'tests/help/lend.c'), asked)[8:]


def said_of(file, k):
    """What is printed of a picture that was made."""
    told = reading.describe(file, k)
    ni, nj = told['grid']['ni'], told['grid']['nj']
    return b'%s: %d x %d points, %d missing\n' % (PICTURE.encode(), ni, nj, ni * nj - told['n'])


def makes_pictures(pgm):
    """A picture in a file and one on standard output have the octets that the library makes, called from C, and that are computed here."""
    asked = painted_fields()
    for name, file, k in asked:
        pgm.put(file)
        to_file, to_output, wanted = pgm.run(FILE, str(k), PICTURE), pgm.run(FILE, str(k), '-'), reading.picture(file, k, HUGE)
        if to_file.returncode or to_file.stderr or to_file.stdout != said_of(file, k):
            yield '%s, field %d: it exits with %d, prints %r and says %r' % (name, k, to_file.returncode, to_file.stdout, to_file.stderr)
        if to_output.returncode or to_output.stderr:
            yield '%s, field %d, to standard output: it exits with %d and says %r' % (name, k, to_output.returncode, to_output.stderr)
        if not pgm.get(PICTURE) == to_output.stdout == made_by_library(file, k) == wanted:
            yield '%s, field %d: not the octets of the picture' % (name, k)
        if sorted(os.listdir(pgm.folder)) != sorted([FILE, PICTURE]):
            yield '%s, field %d: it leaves %s' % (name, k, os.listdir(pgm.folder))
    if len(asked) < 24 or said_of(grib.two_fields(), 0) != b'picture.pgm: 2 x 2 points, 2 missing\n':
        yield 'only %d pictures were made, or the test does not know the example' % len(asked)


def reads_pipes(pgm):
    """FILE may be - or a FIFO, also where the picture goes to standard output; after -- a name may start with a minus."""
    pgm.put(grib.two_fields())
    pgm.put(grib.two_fields(), '-odd')
    wanted = reading.picture(grib.two_fields(), 1, HUGE)
    for words in (['-', '1', '-'], ['--', '-', '1', '-']):
        run = pgm.run(*words, input=grib.two_fields())
        if run.returncode or run.stderr or run.stdout != wanted:
            yield '%s: it exits with %d, prints %r and says %r' % (words, run.returncode, run.stdout, run.stderr)
    run = pgm.run('--', '-odd', '1', '-even.pgm')
    if run.returncode or run.stderr or pgm.get('-even.pgm') != wanted:
        yield 'with names that start with a minus it exits with %d and says %r' % (run.returncode, run.stderr)
    os.mkfifo(pgm.path('fifo'))
    with subprocess.Popen(['timeout', '60', 'cp', pgm.path(FILE), pgm.path('fifo')]):
        run = pgm.run('fifo', '1', '-')
    if run.returncode or run.stdout != wanted:
        yield 'from a FIFO it exits with %d, prints %r and says %r' % (run.returncode, run.stdout, run.stderr)


def is_misused(pgm):
    """A command line that is no good exits with 2, says how it is written, and makes nothing."""
    pgm.put(grib.two_fields())
    os.link(pgm.path(FILE), pgm.path('same'))
    os.symlink(FILE, pgm.path('link'))
    numbers = ['', '-1', '+1', ' 1', '1 ', '1x', '0x1', '1e0', '1.0', '18446744073709551616', '9' * 23, 'field']
    lines = [[], [FILE], [FILE, '0'], [FILE, '0', PICTURE, 'more'], ['-z', FILE, '0', PICTURE], ['--range', '0', '1', FILE, '0', PICTURE], [FILE, '0', '']]
    lines += [[FILE, number, PICTURE] for number in numbers] + [[FILE, '0', name] for name in (FILE, 'same', 'link', './' + FILE)]
    for words in lines:
        yield pgm.ended(2, *words, says=r'\Askeptolyr pgm: .*\w.*\nusage: skeptolyr pgm FILE K OUT\.pgm\n')
    with open(pgm.path(FILE), 'rb') as given:
        yield pgm.ended(2, '-', '0', FILE, stdin=given, says='itself')


def are_refused(pgm):
    """A refusal exits with 1 in the words of the header, with the octets at fault and what to do, and leaves a picture that was there as it was."""
    pgm.put(b'an older picture', 'older.pgm')
    given = [refusal for refusal in make.REFUSALS if refusal.number > 1 and refusal.is_for_commands()]
    for refusal in given:
        pgm.put(make.samples()[refusal.file])
        of_field = ', field %d' % refusal.field if refusal.number >= 8 else ''
        says = r'\Askeptolyr: %s%s: %s\n' % (FILE, of_field, re.escape(manual.refused(refusal.number, refusal.place)))
        advice = {2: r'\Z', 8: r'skeptolyr: It has 2 fields: choose one from 0 to 1\.\n\Z'}
        says += advice.get(refusal.number, r'(skeptolyr: .*\n)?skeptolyr: To see the octets.*\n\Z')
        for name in (PICTURE, 'older.pgm', '-'):
            yield pgm.ended(1, FILE, str(refusal.field), name, says=says)
    if [refusal.number for refusal in given] != [*range(2, 15), 16]:
        yield 'not each refusal was tried: %s' % given
    with open(os.path.join(pgm.folder, FILE), 'r+b') as file:
        file.truncate(make.TOO_LONG)
        run = pgm.run('-', '0', 'older.pgm', stdin=file)
    if run.returncode != 1 or not run.stderr.startswith(b'skeptolyr: standard input: refused 1 at 0. ') or pgm.get('older.pgm') != b'an older picture':
        yield 'of a file that is too long it exits with %d and says %r' % (run.returncode, run.stderr)


def cannot_be_read_or_named(pgm):
    """What cannot be read, and a place where no file can be made, exits with 3 and is named with a reason and with what to do; nothing is left behind."""
    pgm.put(grib.two_fields())
    pgm.put(b'no folder', 'plain')
    os.mkdir(pgm.path('folder'))
    os.symlink('nothing', pgm.path('link.pgm'))
    for words, says in (
            (['nowhere', '0', PICTURE], r'nowhere: cannot be opened: No such file or directory'), (['folder', '0', PICTURE], r'folder: is a folder'),
            ([FILE, '0', 'nowhere/picture.pgm'], r'nowhere/picture.pgm: cannot be written: No such file or directory'),
            ([FILE, '0', 'folder'], r'folder: cannot be written: Is a directory'),
            ([FILE, '0', 'plain/picture.pgm'], r'plain/picture.pgm: cannot be written: Not a directory'),
            ([FILE, '0', 'link.pgm'], r'link.pgm: is a link that leads to no file')):
        yield pgm.ended(3, *words, says=r'\Askeptolyr: %s\. [A-Z].*\.\n\Z' % says)


def without_privilege():
    """In a program that is about to start: takes from root the right to write wherever it likes. For others nothing changes."""
    drop, override = 24, 1
    if os.geteuid() == 0 and ctypes.CDLL(None, use_errno=True).prctl(drop, override, 0, 0, 0) != 0:
        os._exit(77)


def has_unwritable_folder(pgm):
    """In a folder that one may not write to no picture is made and none is replaced; a picture that one may not write to stays, in any folder."""
    pgm.put(grib.two_fields())
    os.mkdir(pgm.path('folder'))
    pgm.put(b'an older picture', 'folder/older.pgm')
    pgm.put(b'an older picture', 'kept.pgm')
    os.chmod(pgm.path('kept.pgm'), 0o444)
    os.chmod(pgm.path('folder'), 0o555)
    if subprocess.run(['test', '-w', pgm.path('folder')], preexec_fn=without_privilege).returncode != 1:
        raise report.Skipped('a folder that one may not write to', 'the tests run as root, and here root cannot give up its rights')
    for name in ('folder/picture.pgm', 'folder/older.pgm', 'kept.pgm'):
        says = r'\Askeptolyr: %s: cannot be written: Permission denied\. Name [a-z ]+\.\n\Z' % name
        yield pgm.ended(3, FILE, '0', name, says=says, preexec_fn=without_privilege)
    if os.listdir(pgm.path('folder')) != ['older.pgm'] or pgm.get('folder/older.pgm') != b'an older picture':
        yield 'the folder has %s' % os.listdir(pgm.path('folder'))
    os.chmod(pgm.path('folder'), 0o755)


def is_never_half(pgm):
    """Where there is room for a part of the picture only, from nothing to all but one octet, nothing is made, and the picture that was there stays."""
    file = make.samples()['islands.grib2']
    whole = reading.picture_length(file, 0)
    pgm.put(file)
    pgm.put(b'an older picture', 'behind.pgm')
    os.symlink('behind.pgm', pgm.path('link.pgm'))
    for octets in (0, 5, 15, 4096, whole // 2, whole - 1):
        for name in (PICTURE, 'behind.pgm', 'link.pgm'):
            says = r'\Askeptolyr: %s: could not be written to its end: File too large\. Nothing of it was kept: [a-z ,]+\.\n\Z' % name
            fault = pgm.ended(3, FILE, '0', name, says=says, preexec_fn=lambda octets=octets: drawing.little_room(octets))
            yield fault and 'room for %d octets: %s' % (octets, fault)
    if pgm.run(FILE, '0', PICTURE, preexec_fn=lambda: drawing.little_room(whole)).returncode or pgm.get(PICTURE) != reading.picture(file, 0, whole):
        yield 'there was room for %d octets, and that was not enough' % whole


def takes_its_place(pgm):
    """A picture that replaces a longer file is whole, and no part of the other; a link stays; rights are kept, and those of a new one are the mask's."""
    file, other = grib.two_fields(), make.samples()['islands.grib2']
    pgm.put(file)
    pgm.put(other, 'islands')
    wanted = reading.picture(file, 0, HUGE)
    for name in ('longer.pgm', 'behind.pgm'):
        pgm.put(reading.picture(other, 0, HUGE), name)
        os.chmod(pgm.path(name), 0o640)
    os.symlink('behind.pgm', pgm.path('link.pgm'))
    # A reader that has opened the old picture still reads all of it.
    with open(pgm.path('longer.pgm'), 'rb') as opened:
        for name in ('longer.pgm', 'link.pgm', 'new.pgm'):
            run = pgm.run(FILE, '0', name, preexec_fn=lambda: os.umask(0o027))
            if run.returncode or run.stderr or pgm.get(name) != wanted:
                yield '%s: it exits with %d, says %r, and has %d octets' % (name, run.returncode, run.stderr, len(pgm.get(name) or b''))
            if stat.S_IMODE(os.stat(pgm.path(name)).st_mode) != 0o640:
                yield '%s has the rights %o' % (name, os.stat(pgm.path(name)).st_mode)
        if opened.read() != reading.picture(other, 0, HUGE):
            yield 'the old picture has changed while it was read'
    if not os.path.islink(pgm.path('link.pgm')):
        yield 'the link is no link any more'
    if sorted(os.listdir(pgm.folder)) != sorted([FILE, 'islands', 'longer.pgm', 'behind.pgm', 'link.pgm', 'new.pgm']):
        yield 'it leaves %s' % os.listdir(pgm.folder)


def writes_to_devices(pgm):
    """What is no plain file is written directly and stays what it is: a device that takes all, one that is full, and a FIFO; and a full standard output."""
    file = make.samples()['islands.grib2']
    pgm.put(file)
    pgm.put(grib.two_fields(), 'small')
    full = r'\Askeptolyr: %s: could not be written to%s: No space left on device\. [A-Z].*\.\n\Z'
    for name in (FILE, 'small'):
        yield pgm.ended(3, name, '0', '/dev/full', says=full % ('/dev/full', ' its end'))
        with open('/dev/full', 'wb') as out:
            yield pgm.ended(3, name, '0', '-', stdout=out, says=full % ('standard output', ''))
        closed = r'\Askeptolyr: standard output: could not be written to: Bad file descriptor\. '
        yield pgm.ended(3, name, '0', '-', stdout=None, preexec_fn=lambda: os.close(1), says=closed)
    run = pgm.run(FILE, '0', '/dev/null')
    if run.returncode or run.stderr or not all(stat.S_ISCHR(os.stat(name).st_mode) for name in ('/dev/null', '/dev/full')):
        yield '/dev/null: it exits with %d and says %r' % (run.returncode, run.stderr)
    os.mkfifo(pgm.path('fifo'))
    with subprocess.Popen(['timeout', '60', 'cat', pgm.path('fifo')], stdout=subprocess.PIPE) as cat:
        run = pgm.run(FILE, '0', 'fifo')
        if run.returncode or cat.stdout.read() != reading.picture(file, 0, HUGE) or not stat.S_ISFIFO(os.stat(pgm.path('fifo')).st_mode):
            yield 'a FIFO: it exits with %d and says %r' % (run.returncode, run.stderr)


def is_not_read(pgm):
    """Where whoever reads the picture has closed the pipe or the FIFO, it ends quietly, by SIGPIPE or, where that is ignored, with 3."""
    pgm.put(flat(65535, 20))
    os.mkfifo(pgm.path('fifo'))
    with subprocess.Popen(['timeout', '60', 'head', '-c', '10', pgm.path('fifo')], stdout=subprocess.DEVNULL) as head:
        yield pgm.ended(3, FILE, '0', 'fifo', restore_signals=False)
        head.wait()
    if not stat.S_ISFIFO(os.stat(pgm.path('fifo')).st_mode):
        yield 'the FIFO was replaced'
    for restored, status in ((True, -signal.SIGPIPE), (False, 3)):
        unread, out = os.pipe()
        os.close(unread)
        yield pgm.ended(status, FILE, '0', '-', stdout=out, restore_signals=restored)
        os.close(out)


def has_no_memory(pgm):
    """Where there is no memory for the picture it says so, exits with 3, and leaves nothing."""
    compiled = drawing.with_stand_in(pgm)
    limit = 1 << 24
    says = r'\Askeptolyr: the picture: there is no memory for its points\. [A-Z].*\.\n\Z'
    yield drawing.Draw(compiled.program, pgm.folder, ('pgm',)).ended(
        3, FILE, '2', PICTURE, says=says, preexec_fn=lambda: resource.setrlimit(resource.RLIMIT_AS, (limit, limit)))


def shows_progress(pgm):
    """On a terminal nothing is left of what it shows while it works, and a refusal stands there alone."""
    if not terminal.are_there():
        raise report.Skipped('what is shown on a terminal', 'this machine has no pseudo terminals')
    pgm.put(flat())
    status, sent, said = drawing.on_a_terminal(pgm, FILE, '0', PICTURE)
    if status or terminal.screen(sent) != [''] or 'making the picture of field: 0' not in sent or said != said_of(flat(), 0).decode():
        yield 'it exits with %d, shows %r and prints %r' % (status, sent, said)
    refused = pgm.run(FILE, '7', PICTURE).stderr.decode()
    status, sent, said = drawing.on_a_terminal(pgm, FILE, '7', PICTURE)
    if status != 1 or terminal.screen(sent) != refused.split('\n') or not refused or said:
        yield 'a refusal is shown as %r' % terminal.screen(sent)


# ---- readers of others

def shown_pictures():
    """Pictures for readers of others: those of the samples, every grey, pictures that begin with greys which are blanks, digits and signs of comments in a
    text, all black ones, and long and narrow ones."""
    found = [(name, file, k) for name, file, k in painted_fields()]
    for first in (1, 9, 10, 11, 12, 13, 32, 35, 48, 80, 255):
        values = [first - 1, 254, 34, 9, 0, first - 1]
        found.append(('the first grey is %d' % first, rows_of(decoding.small_file(decoding.simple(values, 8)), 3), 0))
    for ni, nj in ((10000, 1), (1, 10000), (1000, 99)):
        file = decoding.small_file(decoding.simple([n * n % 251 for n in range(ni * nj)], 8))
        found.append(('%d x %d' % (ni, nj), rows_of(file, ni) if nj > 1 else file, 0))
    return found


def pictures_in(pgm):
    """(name, path, octets) of each such picture, made by the command."""
    for name, file, k in shown_pictures():
        pgm.put(file)
        pgm.run(FILE, str(k), PICTURE)
        yield name, pgm.path(PICTURE), reading.picture(file, k, HUGE), reading.describe(file, k)['grid']


def is_read_by_netpbm(pgm):
    """Netpbm's programs take each picture for a raw PGM of its size, and find every grey."""
    needed = [] if all(shutil.which(program) for program in ('pamfile', 'pnmtoplainpnm')) else ['netpbm']
    debian.install(needed)
    if not all(shutil.which(program) for program in ('pamfile', 'pnmtoplainpnm')):
        raise report.Skipped("pictures in Netpbm's reader", "Debian's package netpbm could not be installed")
    for name, path, wanted, grid in pictures_in(pgm):
        ni, nj = grid['ni'], grid['nj']
        said = subprocess.run(['pamfile', path], stdout=subprocess.PIPE, stderr=subprocess.STDOUT, text=True).stdout
        plain = subprocess.run(['pnmtoplainpnm', path], stdout=subprocess.PIPE, stderr=subprocess.PIPE, text=True)
        if not re.search(r':\s*PGM raw, %d by %d +maxval 255\s*\Z' % (ni, nj), said):
            yield '%s: pamfile says %r' % (name, said)
        if plain.returncode or plain.stderr or plain.stdout.split() != ['P2', str(ni), str(nj), '255', *map(str, wanted[-ni * nj:])]:
            yield '%s: pnmtoplainpnm exits with %d, says %r and prints %r' % (name, plain.returncode, plain.stderr, plain.stdout[:200])


def imagemagick():
    """The program of ImageMagick that converts, by one of its names, or None. A program of that name may also be of others."""
    for name in ('magick', 'convert-im6.q16', 'convert'):
        said = subprocess.run([name, '-version'], stdout=subprocess.PIPE, stderr=subprocess.DEVNULL).stdout if shutil.which(name) else b''
        if said.startswith(b'Version: ImageMagick'):
            return name
    return None


def is_read_by_imagemagick(pgm):
    """ImageMagick takes each picture for a PGM of its size in 8 bits, and finds every grey."""
    debian.install([] if imagemagick() else ['imagemagick'])
    program = imagemagick()
    if not program:
        raise report.Skipped("pictures in ImageMagick's reader", "Debian's package imagemagick could not be installed")
    for name, path, wanted, grid in pictures_in(pgm):
        ni, nj = grid['ni'], grid['nj']
        said = subprocess.run([program, path, '-format', '%m %w %h %z', 'info:-'], stdout=subprocess.PIPE, stderr=subprocess.STDOUT, text=True).stdout
        raw = subprocess.run([program, path, '-depth', '8', 'gray:-'], stdout=subprocess.PIPE, stderr=subprocess.PIPE)
        if said.strip() != 'PGM %d %d 8' % (ni, nj):
            yield '%s: it says %r' % (name, said)
        if raw.returncode or raw.stderr or raw.stdout != wanted[-ni * nj:]:
            yield '%s: it exits with %d, says %r and finds %r' % (name, raw.returncode, raw.stderr, raw.stdout[:50])


TESTS = [
    makes_pictures, reads_pipes, is_misused, are_refused, cannot_be_read_or_named, has_unwritable_folder, is_never_half, takes_its_place, writes_to_devices,
    is_not_read, has_no_memory, shows_progress, is_read_by_netpbm, is_read_by_imagemagick]


def tried(test, program):
    with tempfile.TemporaryDirectory() as folder:
        return report.tried(test, drawing.Draw(program, folder, ('pgm',)))


def main():
    program = archive.skeptolyr()
    return report.ended(asked_of_archive(random.Random(SEED)) + [tried(test, program) for test in TESTS])


if __name__ == '__main__':
    sys.exit(main())
