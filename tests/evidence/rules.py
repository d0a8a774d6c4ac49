"""The files on either side of each rule, with what the rules say of each in words, and points and pictures that are told in words, as the tests in Python
have them. The independent decoder is held to them, and they are cases like others."""
from tests import decoding, fields, pictures, points, tiling
from tests.help import grib

# The kinds of question, and what is told of one that is answered, where the answer is not told.
CHECK, DESCRIBE, DECODE, POINT, PICTURE, TAKEN = 1, 2, 3, 4, 5, 2 ** 64 - 1
# The runs of these questions have room for fewer points.
ROOM = 20


def refused(number, place):
    return 1 << 63 | number << 32 | place


def place_of_section_7(file):
    """Where the last section of a file of one field starts."""
    at = 16
    while file[at + 4] != 7:
        at += int.from_bytes(file[at:at + 4], 'big')
    return at


def told():
    """(kind of question, k, what is told, file)"""
    for _, file, answer in tiling.one_rule_each():
        yield CHECK, 0, answer, file
    for _, file, k, refusal in [(name, file, 0, refusal) for name, file, refusal in fields.rules()] + fields.later_fields():
        yield DESCRIBE, k, refused(*refusal) if refusal else TAKEN, file
    for _, numbers, taken in decoding.integers_out_of_range():
        file, points = decoding.small_file(decoding.one_group(*numbers)), len(numbers[1])
        if points < ROOM:
            yield DECODE, 0, points if taken else refused(16, place_of_section_7(file)), file


def told_of_points():
    """(k, n, the answer that is told, the octets of the double that is put, file) for each point that is told in words. A refusal puts none."""
    for _, file, k, each in points.told_points():
        for n, point in enumerate(each):
            answer = points.told_answer(file, k, point)
            yield k, n, int.from_bytes(answer[:8], 'big'), answer[8:], file


def told_of_pictures():
    """(k, 0, the answer that is told, the octets that are put, file) for each picture that is told in words."""
    for _, file, k, sizes, greys in pictures.told_pictures():
        octets = pictures.told_octets(sizes, greys)
        yield k, 0, len(octets), octets, file


def write(path):
    """Writes the rules as tests/evidence/rules.rs reads them: each has the kind of its question, k, n, the answer, the octets that are put for a point or a
    picture, and its file. Octets have their length before them."""
    rows = [(kind, k, 0, answer, b'', file) for kind, k, answer, file in told()]
    rows += [(POINT, *row) for row in told_of_points()] + [(PICTURE, *row) for row in told_of_pictures()]
    with open(path, 'wb') as rules:
        for *numbers, put, file in rows:
            rules.write(b''.join(grib.number(value, 8) for value in numbers))
            rules.write(b''.join(grib.number(len(octets), 8) + octets for octets in (put, file)))
