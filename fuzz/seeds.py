"""python3 -m fuzz.seeds FOLDER: writes the small files that the fuzzer starts from, each behind the octets of a question (fuzz/question.h).

They are the files of the other tests: samples, the rules' examples, a file for each error that we have met, what an earlier field decides,
refusals 15 and 16, fields in both templates under each indicator, fields of some hundred points; and, each in several questions, a grid whose columns and
rows lie halfway between two millionths of a degree, Lambert grids, fields whose integers leave their range, with points missing among them, and one whose
greys have to be divided for.
"""
import os
import random
import shutil
import sys

from tests import decoding, fields, points
from tests.help import SEED, grib, reading

LONGEST_RUN = 2047
LONGEST_FILE = 4000
BITMAPS = 8
# The largest n that an octet stands for by itself.
LARGEST_NEAR = 223
# How many questions are put about a grid whose places matter: as many as there are pairs of a point and a length of a run for its place.
QUESTIONS_OF_GRID = 12
# How many are put about a field whose integers leave their range: as many as there are pairs of a point and a length of a run for its value.
QUESTIONS_OF_RANGE = 15
# How many are put about a field whose greys matter: as many as there are lengths of a run for its picture.
QUESTIONS_OF_GREYS = 6
# The integers of a field: of the second a product of 64 bits, in place of the division by the largest, makes the next grey.
TO_BE_DIVIDED = [0, 268234647, 269294863]


def long_fields(rng):
    """(file, k) for files whose bitmap has full words, empty ones and mixed ones, and whose groups are long and short."""
    marks = [1] * 200 + [0, 1, 1, 0] * 20 + [1] * 70 + [0] * 70 + [1] * 80
    values = [500 + rng.randrange(60) for _ in range(sum(marks))]
    lengths = [64, 64, 5, 1, 64, 2, 64, 64]
    lengths.append(len(values) - sum(lengths))
    packed = [decoding.simple(values, 12), decoding.complex_packing(values, lengths), decoding.complex_packing(values)]
    marked = [grib.section6(0, decoding.shapes.bitmap(marks)), grib.section6(254), grib.section6(254)]
    under_bitmap = decoding.small_file(*packed, ni=len(marks), sections6=marked)
    return [(under_bitmap, k) for k in range(3)] + [(decoding.small_file(given), 0) for given in packed]


def out_of_range():
    """Files whose integers leave their range: at the second value, behind it, and below 0, with points missing before, between and behind them."""
    second, third = decoding.one_group((7, points.LARGEST_X + 1, 0), [0, 0], 0), decoding.one_group((9, 9, -20), [0, 0, 0, 60, 20], 6)
    found = [points.under_bitmap(marks, second) for marks in ('0011', '0110')] + [points.under_bitmap(marks, third) for marks in ('10010111', '111110')]
    return found + [decoding.on_cone(file) for file in found[:1]]


def files():
    """(name, file, k)"""
    found = [('no octet', b'', 0), ('grouped', grib.grouped(), 0), ('16,777,216 points', fields.blank(4096, 4096), 0)]
    found += [('told', file, k) for _, file, k, _ in fields.told_descriptions()]
    found += [('sample', file, 0) for file in fields.make.samples().values()] + [('sample', grib.two_fields(), k) for k in (1, 2)]
    found += [('example', file, 0) for _, file, _, _ in decoding.examples()] + [('error', file, k) for _, file, k, _ in decoding.errors()]
    found += [('earlier field', file, k) for _, file, k, _ in fields.later_fields() if k < 200]
    groups = [numbers for _, numbers, _ in decoding.integers_out_of_range() if len(numbers[1]) < LONGEST_RUN]
    found += [('integers', decoding.small_file(decoding.one_group(*numbers)), 0) for numbers in groups]
    rng = random.Random(SEED)
    found += [('bitmap', file, number % 3) for number, file in enumerate(decoding.bitmaps(rng)[:BITMAPS])]
    found += [('long', file, k) for file, k in long_fields(rng)]
    found += [('halfway', fields.blank(149, 3, last=(35999799, 135000149), di=1, dj=100), 0)] * QUESTIONS_OF_GRID
    cones = [fields.southern_cone(), fields.lambert(29, 7, dx=2147483647, dy=70000), decoding.on_cone(grib.grouped(), 3)]
    cones += [decoding.on_cone(file) for file, _ in long_fields(rng)[-2:]]
    found += [('cone', file, 0) for file in cones for _ in range(QUESTIONS_OF_GRID)]
    found += [('both kinds', fields.both_kinds(), k) for k in (0, 1) for _ in range(QUESTIONS_OF_GRID)]
    found += [('out of range', file, 0) for file in out_of_range() for _ in range(QUESTIONS_OF_RANGE)]
    return found + [('greys', decoding.small_file(decoding.simple(TO_BE_DIVIDED, 31)), 0)] * QUESTIONS_OF_GREYS


def points_of(file, k):
    """The field's point count as far as the runs reach, or a small number where there is no such field."""
    try:
        questions = decoding.whole_fields(file)
    except reading.Refused:
        return 4
    return min(questions[k][3] - 3, LONGEST_RUN) if k < len(questions) else 4


def picture_length_of(file, k):
    """The length of the field's picture as far as a run reaches, or a small number where there is no such field."""
    try:
        return min(LONGEST_RUN, reading.picture_length(file, k))
    except reading.Refused:
        return 15


def seeds():
    """(name, the input's octets). Of decode one question in four fits exactly, and one lends a run that is one element short. Describe, place, sheet,
    point and picture are lent runs that are too short, that fit, and that are longer, and a third of the points is the one behind the last."""
    for number, (name, file, k) in enumerate(files()):
        count = points_of(file, k)
        start, spare = ((2, 3), (0, 0), (1, 1), (1, -1))[number % 4]
        values = max(0, min(LONGEST_RUN, start + count + spare))
        presence = min(LONGEST_RUN, start + count)
        n = min(LARGEST_NEAR, (1, count - 1, count)[number % 3])
        numbers = [(0, 53, 54, 52, 60, 61, 59)[number % 7], n, (0, 2, 3, 1)[number % 4], (0, 3, 2, 1)[number % 4], (0, 1, 2, 1, 3)[number % 5]]
        drawn = max(0, min(LONGEST_RUN, picture_length_of(file, k) + (3, 0, 1, -1, 0, -LONGEST_RUN)[number % 6]))
        if len(file) <= LONGEST_FILE:
            question = bytes([k, start]) + grib.number(values, 2) + grib.number(presence, 2) + bytes(numbers) + grib.number(drawn, 2)
            yield '%03d %s' % (number, name), question + file


def main():
    folder = sys.argv[1]
    shutil.rmtree(folder, ignore_errors=True)
    os.makedirs(folder)
    for name, octets in seeds():
        with open(os.path.join(folder, name.replace(' ', '-').replace(',', '')), 'wb') as seed:
            seed.write(octets)


if __name__ == '__main__':
    main()
