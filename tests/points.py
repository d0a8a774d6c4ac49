"""The value of one point against an independent reading of the rules (tests/help/reading.py) and against decode, bit for bit.

Every point of small files in both packings, with and without a bitmap, on both kinds of grid, points past the last, runs of every length, integers that
leave their range at every place, damaged files, and points of files as large as the Agency's go through skeptolyr_point, called from C. It ends in
'N passed, M failed'.
"""
import random
import struct
import sys
from typing import NamedTuple

from samples import shapes
from tests import decoding, fields
from tests.help import SEED, faulty, grib, lending, reading, report
from tools import archive

LARGEST_X = decoding.LARGEST_X
# Numbers near which a sum or a product leaves 29, 32, 61, 63 or 64 bits.
FAR = [2 ** bits + more for bits in (29, 31, 32, 61, 63) for more in (-1, 0, 1)] + [2 ** 64 - less for less in range(1, 9)]
# What is told of a point that is missing, and of one that is refused because X is out of range.
MISSING, OUT = 'missing', 'out of range'


class Question(NamedTuple):
    """A question to point, and the length of the run that is lent."""
    file: bytes
    k: int
    n: int
    length: int = 1


# ---- what is to be answered

def lent_after(question):
    """The answer's eight octets and the run behind them, as they must be after the call, and how many elements are written. The run of a refused call cannot
    be touched, and does not come back."""
    try:
        mark, double = reading.point(*question)
    except reading.Refused as refused:
        return grib.number(refused.code, 8), lending.NONE
    return grib.number(mark, 8) + struct.pack('<d', double) + lending.UNTOUCHED * 8 * (question.length - 1), 1


def refusal_of(question):
    """The number of the question's refusal, or 0 where it is answered."""
    return int.from_bytes(lent_after(question)[0][:8], 'big') >> 32 & 0x7fffffff


def shown(answer):
    """An answer and the octets of each element of its run in words."""
    if not answer:
        return 'nothing'
    return ' '.join([fields.shown(int.from_bytes(answer[:8], 'big'))] + [answer[at:at + 8].hex() for at in range(8, len(answer), 8)])


# ---- asking

def written(questions):
    """The questions as tests/help/lend.c reads them, and what each has to bring back."""
    lent, wanted, before = [], [], None
    for question in questions:
        want, elements = lent_after(question)
        lent.append(lending.question(lending.POINT, question.file, before, question.k, question.n, lengths=(question.length, 0), written=elements))
        wanted.append(want)
        before = question.file
    return b''.join(lent), wanted


def compare(program, name, questions):
    """Puts the questions to the archive, and compares each answer and each element of its run."""
    print('comparing: %s' % name, file=sys.stderr, flush=True)
    def told(question, want, have):
        asked = 'field %d, point %d, a run of %d' % question[1:]
        return '%s:\n  expected %s\n  got      %s\n  %s' % (asked, shown(want), shown(have), question.file[:600].hex())

    lent, wanted = written(questions)
    return report.compared(name, questions, wanted, lending.cut(report.answers(program, lent), wanted), told)


def point_counts(file):
    """(k, how many points it has) for each field of a file whose grids are taken."""
    return [(k, length - 3) for _, k, _, length, _ in decoding.whole_fields(file)]


def every_point(files):
    """A question for each point of each field, for the two behind the last and for one far behind it, in runs of one element and of more."""
    found = []
    for number, file in enumerate(files):
        for k, points in point_counts(file):
            asked = [*range(points + 2), FAR[number % len(FAR)]]
            found += [Question(file, k, n, 1 + (n + number) % 4 % 3) for n in asked]
    return found


# ---- in words

def numbers_of_group(*words):
    """A file of one group of 5.3, whose values are X itself."""
    return decoding.small_file(decoding.one_group(*words))


def under_bitmap(marks, packed):
    """A file of one field under a bitmap of its own, given as ones and zeros."""
    return decoding.small_file(packed, ni=len(marks), sections6=[grib.section6(0, shapes.bitmap([int(mark) for mark in marks]))])


def told_points():
    """(name, file, k, what each point is in so many words: its value, that it is missing, or that an X up to its own is out of range)"""
    over, second = LARGEST_X + 1, decoding.one_group((5, LARGEST_X + 1, 0), [0, 0, 0], 0)
    falling, straying = decoding.one_group((2, 1, 0), [0] * 5, 0), decoding.one_group((9, 9, -20), [0, 0, 0, 60, 20], 6)
    found = [(name, file, 0, [double if bit == '1' else MISSING for double, bit in zip(doubles, present)])
             for name, file, doubles, present in decoding.examples() + decoding.lambert_examples()]
    return found + [
        ("the rules' file", grib.two_fields(), 0, [291.2, MISSING, 274.8, MISSING]),
        ("the rules' file, by 254", grib.two_fields(), 1, [0.5, MISSING, 0.7, MISSING]),
        ('254, on a Lambert grid', fields.two_lambert_fields(), 1, [0.5, MISSING, 0.7, MISSING]),
        ('no point is present', under_bitmap('0' * 9, decoding.simple([], 12)), 0, [MISSING] * 9),
        ('0 bits', under_bitmap('0110', decoding.simple([0, 0], 0, bytes.fromhex('3fc00000'))), 0, [MISSING, 1.5, 1.5, MISSING]),
        ('the last bit of two octets', under_bitmap('0' * 15 + '1', decoding.simple([7], 3)), 0, [MISSING] * 15 + [7.0]),
        ('X falls below 0', decoding.small_file(falling), 0, [2.0, 1.0, 0.0, OUT, OUT]),
        ('X falls below 0 under a bitmap', under_bitmap('0101101001', falling), 0, [MISSING, 2.0, MISSING, 1.0, 0.0, MISSING, OUT, MISSING, MISSING, OUT]),
        ('X is out of range and comes back', decoding.small_file(straying), 0, [9.0, 9.0, OUT, OUT, OUT]),
        ('the same on a Lambert grid', decoding.on_cone(decoding.small_file(straying)), 0, [9.0, 9.0, OUT, OUT, OUT]),
        ('the last X is 2,147,483,648', numbers_of_group((0, 0, 1), [0, 0, LARGEST_X], 31), 0, [0.0, 0.0, OUT]),
        ('the last X is 2,147,483,647', numbers_of_group((0, 0, 0), [0, 0, LARGEST_X], 31), 0, [0.0, 0.0, float(LARGEST_X)]),
        ('the first value is 2,147,483,648', numbers_of_group((over, 5, 0), [0, 0, 0], 0), 0, [OUT] * 3),
        ('the second value is 2,147,483,648', decoding.small_file(second), 0, [5.0, OUT, OUT]),
        ('the second value is 2,147,483,648 under a bitmap', under_bitmap('0010101', second), 0, [MISSING, MISSING, 5.0, MISSING, OUT, MISSING, OUT]),
        ('both values are all ones', numbers_of_group((2 ** 32 - 1, 2 ** 32 - 1, 0), [0, 0], 0), 0, [OUT, OUT]),
    ]


def told_answer(file, k, told):
    """What a call about a point is to bring back of which this is told."""
    if told == OUT:
        return grib.number(1 << 63 | 16 << 32 | reading.fields(file)[k][1][7][0], 8)
    return grib.number(told != MISSING, 8) + struct.pack('<d', 0.0 if told == MISSING else told)


def reads_as_told(given):
    """Does the independent reading tell these points in the same words?"""
    wrong = 0
    for name, file, k, told in given:
        for n, point in enumerate(told):
            have = lent_after(Question(file, k, n))[0]
            if have != told_answer(file, k, point):
                print('the independent reading of point %d of "%s": %s, and not %s' % (n, name, shown(have), point))
                wrong += 1
    print('the independent reading of points: %d fields, %d points read otherwise' % (len(given), wrong))
    return not wrong


# ---- the order of refusals

def out_of_range():
    """A field whose second present X is out of range, with its first and last point missing, on either kind of grid."""
    file = under_bitmap('0110', decoding.one_group((7, LARGEST_X + 1, 0), [0, 0], 0))
    return [file, decoding.on_cone(file)]


def told_orders():
    """(question, the number of its refusal or 0 in so many words): those of the sections come before 17, 17 before 15, 15 before 16. A missing point needs
    room like others, and is never refused with 16."""
    found, far = [], 2 ** 64 - 1
    for file in (grib.two_fields(), fields.two_lambert_fields()):
        for n, length, number in ((0, 1, 0), (1, 1, 0), (3, 3, 0), (0, 0, 15), (1, 0, 15), (3, 0, 15), (4, 1, 17), (4, 0, 17), (far, 1, 17), (far, 0, 17)):
            found.append((Question(file, 1, n, length), number))
            found.append((Question(file, 2, n, length), 8))
    for file in out_of_range():
        with_room = ((0, 1, 0), (1, 1, 0), (2, 1, 16), (3, 1, 0), (4, 1, 17), (far, 2, 17))
        without = ((0, 0, 15), (1, 0, 15), (2, 0, 15), (3, 0, 15), (4, 0, 17))
        found += [(Question(file, 0, n, length), number) for n, length, number in with_room + without]
    broken = [*fields.broken_in_degrees().items(), *fields.broken_lambert().items()]
    whole = [(number, field) for number, field in fields.refused_fields().items() if number <= 8]
    given = [(number, (file, 0)) for number, file in broken] + whole
    return found + [(Question(*field, n, length), number) for number, field in given for n in (0, 3, 4, far) for length in (0, 1)]


def orders_are_told(given):
    """Does the independent reading give these refusals, and those that name no section at place 0?"""
    wrong = [(question, number) for question, number in given if refusal_of(question) != number]
    wrong += [(question, number) for question, number in given if number in (1, 2, 8, 15, 17) and int.from_bytes(lent_after(question)[0][4:8], 'big')]
    for question, number in wrong[:report.MOST_SHOWN]:
        print('the independent reading: %d, and not %d, for %s' % (refusal_of(question), number, question._replace(file=len(question.file))))
    is_whole = {number for _, number in given} == {*range(18)}
    print('the order of refusals: %d questions, %d read otherwise%s' % (len(given), len(wrong), '' if is_whole else '; NOT every refusal is among them'))
    return not wrong and is_whole


# ---- small files

def small_files(rng):
    """Fields in both packings with numbers, groups and bitmaps at their limits, with no point and with no bit, and the files of the rules."""
    files = decoding.all_bits(rng)[::2] + decoding.all_packings(rng)[::30] + decoding.group_plans(rng) + decoding.bitmaps(rng)
    files += [grib.two_fields(), grib.grouped(), grib.two_fields() + grib.grouped(), fields.southern_cone(), fields.both_kinds(), fields.two_lambert_fields()]
    return files + [under_bitmap(marks, decoding.simple([], bits)) for marks in ('0', '0' * 8, '0' * 17) for bits in (0, 12)]


def lambert_files(rng):
    """The same on Lambert grids, for a part of them."""
    files = decoding.all_bits(rng)[::7] + decoding.group_plans(rng)[::3] + decoding.bitmaps(rng)
    return [decoding.on_cone(file) for file in files] + [decoding.on_cone(grib.grouped(), rows) for rows in (1, 2, 3, 4, 6, 12)]


def grouped_fields(rng):
    """Fields of 5.3 in several groups, some of no width, with and without a bitmap, on either side of the ends of blocks of 56 and of windows."""
    found = []
    for count in decoding.COUNTS[1:]:
        values = [rng.randint(0, rng.choice(decoding.HEIGHTS)) for _ in range(count)]
        level = [values[0]] * count
        lengths = [count // 3, count // 3, count - 2 * (count // 3)]
        packed = [shapes.complex_packing(given, plan, decoding.ZERO, 0, 1, 1, 8, 4) for given in (values, level) for plan in ([count], lengths, [1, count - 1])]
        found.append(decoding.small_file(*packed, decoding.simple([x % 4096 for x in values], 12)))
        marks = rng.choice(list(decoding.marks_for(rng, count)))
        found.append(decoding.small_file(*packed[:3], decoding.simple(values, 30), ni=len(marks),
                                         sections6=[grib.section6(0, shapes.bitmap(marks))] + [grib.section6(254)] * 3))
    return found


def near_ends(rng, files):
    """Points at the ends of each field and on either side of the ends of blocks of 56, of octets and of words of a bitmap, and some others."""
    found = []
    for file in files:
        for k, points in point_counts(file):
            near = {at + by for at in (0, 56, 64, 112, 128, points) for by in (-2, -1, 0, 1, 2)} | set(rng.sample(range(points), min(points, 9)))
            found += [Question(file, k, n) for n in sorted(near) if 0 <= n <= points]
    return found


def agrees_with_decode(program, files):
    """Of every field that decode takes: are the mark and the double of each point those that decode writes for it?"""
    lent, sizes, before, wrong = [], [], None, 0
    for file in files:
        for k, points in point_counts(file):
            lent.append(lending.question(lending.DECODE, file, before, k, lengths=(points, points), written=points))
            lent += [lending.question(lending.POINT, file, file, k, n, lengths=(1, 0), written=1) for n in range(points)]
            sizes += [8 + 9 * points, 16 * points]
            before = file
    parts = lending.cut(report.answers(program, b''.join(lent)), [bytes(size) for size in sizes])
    for decoded, told in zip(parts[::2], parts[1::2]):
        points = len(told) // 16
        doubles, marks = decoded[8:8 + 8 * points], decoded[8 + 8 * points:]
        wrong += b''.join(grib.number(marks[n], 8) + doubles[8 * n:8 * n + 8] for n in range(points)) != told
    is_whole = len(parts) == len(sizes) > 0
    print('every point as decode has it: %d fields, %d told otherwise%s' % (len(sizes) // 2, wrong, '' if is_whole else '; NOT every field was answered'))
    return is_whole and not wrong


def decodes(file):
    """Does decode take every field of a file?"""
    try:
        return all(reading.decode(*question) for question in decoding.whole_fields(file))
    except reading.Refused:
        return False


# ---- 16

def first_out_at_every_place(count):
    """Files whose X rises or falls by 1 and leaves its range at each place in turn, or nowhere, all present and under a bitmap, in groups of several widths."""
    marks = ''.join('1' if n % 5 else '01' if n % 3 else '001' for n in range(count)) + '0'
    found = []
    for place in range(2, count + 1):
        for number, start in enumerate(((LARGEST_X - place + 1, LARGEST_X - place + 2, 0), (place - 1, place - 2, 0))):
            packed = decoding.one_group(start, [0] * count, (0, 14, 15, 28, 29)[(place + number) % 5])
            found += [decoding.small_file(packed), under_bitmap(marks, packed)]
    return found


def out_in_groups():
    """Files of several groups, most of no width, in which one X alone is out of range, at each place in turn, above and below."""
    found, lengths = [], [1, 9, 20, 40]
    for place in range(2, sum(lengths)):
        for inside, outside in ((LARGEST_X - 100, LARGEST_X + 1), (99, -1)):
            values = [inside] * sum(lengths)
            values[place] = outside
            found.append(decoding.small_file(decoding.complex_packing(values, lengths, extra=4)))
    return found


def out_of_range_is_everywhere(files):
    """Is X out of range for the first time at each place behind the second in some file, and nowhere in another?"""
    found = set()
    for file in files:
        (k, points), = point_counts(file)
        refused = [refusal_of(Question(file, k, n)) for n in range(points)]
        present = [number for n, number in enumerate(refused) if number or reading.point(file, k, n, 1)[0]]
        found.add(present.index(16) if 16 in present else None)
    wanted = {None, *range(2, max(place or 0 for place in found) + 1)}
    print('the first X out of range: %d files, %s' % (len(files), 'at every place' if found == wanted else 'NOT at every place: %s' % found))
    return found == wanted


# ---- damaged files

# How many damaged files are made.
DAMAGED_FILES = 3000


def damaged_file(rng, file):
    """A file with one to three octets of sections 5 to 7 changed to a number near the old one, to one with another bit, or to any."""
    sections = [section for _, found in reading.messages(file) for section in found if section[0] in (5, 6, 7)]
    for _ in range(rng.randint(1, 3)):
        _, first, end = rng.choice(sections)
        at = rng.randrange(min(first + 5, end - 1), end)
        octet = rng.choice([(file[at] + rng.choice([-1, 1])) % 256, file[at] ^ 1 << rng.randrange(8), rng.randrange(256)])
        file = grib.spliced(file, at, bytes([octet]))
    return file


def damaged(rng):
    """Points of damaged files, in runs of no element to two."""
    values = [rng.randrange(9000) for _ in range(60)]
    given = [grib.two_fields(), grib.grouped(), fields.both_kinds(), decoding.on_cone(grib.grouped(), 3),
             decoding.small_file(decoding.complex_packing(values, [20, 40], extra=4)),
             under_bitmap('1' * 30 + '01' * 30, decoding.complex_packing(values, [1, 29, 30], extra=2))]
    found = []
    for _ in range(DAMAGED_FILES):
        whole = rng.choice(given)
        file, (k, points) = damaged_file(rng, whole), rng.choice(point_counts(whole))
        found += [Question(file, k, rng.randrange(points + 1), rng.choice((0, 1, 1, 1, 2))) for _ in range(4)]
    return found


def damage_is_mixed(questions):
    """Are some points of the damaged files told, some missing and others refused by each number that damage to sections 5 to 7 can bring?"""
    found = {refusal_of(question) or int.from_bytes(lent_after(question)[0][:8], 'big') for question in questions}
    is_mixed = found >= {0, 1, 12, 13, 14, 15, 16, 17}
    print('damaged files: %s' % ('some points are told, and each refusal is among the others' if is_mixed else 'NOT each refusal is among them: %s' % found))
    return is_mixed


# ---- faults that have to be found

def finds_faults(questions):
    """Is each fault of point found that stands between the program and the archive, and none where there is none?"""
    return faulty.are_found(faulty.OF_POINT, 'point', *written(questions))


# ---- full size

FULL_SIZE = {'model levels in groups': shapes.msm, 'a surface under a bitmap': shapes.lfm, 'the seas in groups, under a bitmap': shapes.ocean}


def full_size(program):
    """Points of files as large as the Agency's: at both ends and between them, and the one behind the last."""
    results = []
    for name, make in FULL_SIZE.items():
        print('making: %s' % name, file=sys.stderr, flush=True)
        file = make()
        (k, points), = point_counts(file)
        asked = [0, 1, 55, 56, 57, 1000, points // 3, points // 2, points - 2, points - 1, points]
        results.append(compare(program, name, [Question(file, k, n, 1 + n % 2) for n in asked]))
    return results


def main():
    rng = random.Random(SEED)
    program = archive.program('skeptolyr', 'tests/help/lend.c')
    told, orders = told_points(), told_orders()
    of_told = [Question(file, k, n, 1 + n % 3) for _, file, k, points in told for n in range(len(points) + 2)]
    results = [reads_as_told(told), orders_are_told(orders), compare(program, 'points that are told in words', of_told)]
    results.append(compare(program, 'the order of refusals', [question for question, _ in orders]))
    small, cones, groups = small_files(rng), lambert_files(rng), grouped_fields(rng)
    results.append(compare(program, 'every point of small files', every_point(small)))
    results.append(compare(program, 'every point of small files on Lambert grids', every_point(cones)))
    results.append(compare(program, 'either side of the ends of blocks and groups', near_ends(rng, groups)))
    results.append(agrees_with_decode(program, [file for file in small + cones + groups if decodes(file)]))
    out = first_out_at_every_place(60) + out_in_groups()
    results += [out_of_range_is_everywhere(out), compare(program, 'X out of range at every place, each point', every_point(out))]
    broken = damaged(rng)
    results += [damage_is_mixed(broken), compare(program, 'damaged files', broken)]
    rules = [(file, 0) for _, file, _ in fields.rules()] + [(file, k) for _, file, k, _ in fields.later_fields()]
    results.append(compare(program, 'either side of every rule', [Question(file, k, n, length) for file, k in rules for n, length in ((1, 1), (3, 2), (4, 0))]))
    results.append(finds_faults(of_told + [question for question, _ in orders if len(question.file) <= 1000]))
    results += full_size(program)
    return report.ended(results)


if __name__ == '__main__':
    sys.exit(main())
