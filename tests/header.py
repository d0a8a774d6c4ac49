"""include/skeptolyr.h, which is the manual: its table of refusals against the rules' and against the proved definition, its functions that take an
answer apart against RULES, "What C is given", the order of its parameters and what it says of memory against the archive, and the compilers' view of it in
C and C++. It ends in 'N passed, M failed'.
"""
import itertools
import os
import re
import struct
import subprocess
import sys
import tempfile
from typing import NamedTuple

from tests.help import grib, reading
from tests.help.manual import HEADER, refusals, text_of
from tests.help.report import ended, judged
from tools import TOP, archive, kit, module

NUMBERS = os.path.join(TOP, 'crates', 'refusals', 'specs', 'Refusals.antt')

# RULES, "Refusals by number" and "Tiling a file": the number, the name that the definition has for it, and the place.
TABLE = [
    (1, 'TooLong', '0'), (2, 'Empty', '0'), (3, 'Cut', 'the message'), (4, 'NotGrib2', 'the message'), (5, 'BadLength', 'the message or the section'),
    (6, 'OutOfPlace', 'the section or the closing 7777'), (7, 'NoEnd', 'the message'), (8, 'NoSuchField', '0'), (9, 'BadIdentification', 'section 1'), (10, 'BadGrid', 'section 3'),
    (11, 'BadProduct', 'section 4'), (12, 'BadRepresentation', 'section 5'), (13, 'BadBitmap', 'section 6'), (14, 'BadPacking', 'section 7'), (15, 'NoRoom', '0'),
    (16, 'ValueOutOfRange', 'section 7'), (17, 'NoSuchPoint', '0'), (18, 'InputTooLong', '65536'), (19, 'NotRebuildable', '0'), (20, 'OtherGrid', '0')]

# Words of the rules that the text of a refusal has to have, so that two texts cannot change places.
WORDS = {
    1: '268,435,456', 2: 'empty', 3: 'ends inside', 4: 'GRIB edition 2', 5: 'length', 6: 'may not follow', 7: '7777', 8: 'no field', 9: 'section 1', 10: 'section 3',
    11: 'section 4', 12: 'section 5', 13: 'section 6', 14: 'section 7', 15: 'room', 16: '2,147,483,647', 17: 'no point', 18: '65,536', 19: 'rebuilt',
    20: 'other kind'}

# How the text of a refusal starts, and ends in what to do next: whether the file is damaged, or may also be of a kind that is not read.
DAMAGED = ('Damaged: ', 'Fetch the file again.')
EITHER = ('Damaged, or of a kind that is not read yet: ', 'Fetch the file again. If it is refused again, use another reader.')
WRONGLY = ('Damaged, or written wrongly: ', 'Fetch the file again. If it is refused again, tell those who wrote it.')
VERDICTS = {
    **dict.fromkeys((3, 5, 7), DAMAGED), **dict.fromkeys((4, 6, 9, 10, 11, 12, 13), EITHER), **dict.fromkeys((14, 16), WRONGLY),
    1: ('The file is longer than ', 'Cut it between two messages, and ask about each part.'), 2: ('The file is empty', 'Fetch it again.'),
    8: ('The file has no field', 'skeptolyr_check tells how many there are.'),
    15: ('An array that was passed has no room', 'tells how many points there are, and needs 53 numbers itself, for a Lambert grid 60.'),
    17: ('The field has no point', 'ask for one below the number of points.'), 18: ('The input is longer', 'The command skeptolyr and the functions for C read longer files.'),
    19: ('No value can be rebuilt', 'Give numbers within them.'), 20: ('The grid is of the other kind', 'skeptolyr_describe tells which a field has.')}
# What a text has to say besides: which templates are read, and which question is for which kind of grid.
SAID = {
    10: ['3.0 and 3.30 are'], 11: ['4.0 and 4.8 are'], 12: ['5.0 and 5.3 are'],
    15: ['for the points', 'for one value', 'for the picture', 'at most 19 octets more', 'for the numbers'],
    20: ['skeptolyr_place about a grid in degrees', 'skeptolyr_sheet about a Lambert grid']}
# The numbers that no refusal has, of those that are tried: 0 and all behind the last.
NO_REFUSALS = [0, 21, 22]

# Answers as the rules give them, and what each function of the header is to make of them.
ANSWERS = [
    ('skeptolyr_is_refusal', 1 << 63 | 7 << 32 | 276, 1), ('skeptolyr_is_refusal', (1 << 63) - 1, 0), ('skeptolyr_is_refusal', 0, 0),
    ('skeptolyr_refusal_number', 1 << 63 | 16 << 32 | 4294967295, 16), ('skeptolyr_refusal_number', 1 << 63 | 1 << 32, 1),
    ('skeptolyr_is_refusal', 1 << 63 | 20 << 32, 1), ('skeptolyr_refusal_number', 1 << 63 | 20 << 32, 20), ('skeptolyr_refusal_place', 1 << 63 | 20 << 32, 0),
    ('skeptolyr_refusal_place', 1 << 63 | 16 << 32 | 268435455, 268435455), ('skeptolyr_refusal_place', 1 << 63 | 8 << 32, 0),
    ('skeptolyr_messages', 13421772 << 32 | 5, 13421772), ('skeptolyr_fields', 3 << 32 | 92, 92), ('skeptolyr_points', 16777216, 16777216)]

# RULES, "What the reader takes" and "What C is given", and what each constant of the header is to be.
CONSTANTS = {
    'SKEPTOLYR_MOST_OCTETS': 268435456, 'SKEPTOLYR_MOST_POINTS': 16777216, 'SKEPTOLYR_DESCRIPTION': 53, 'SKEPTOLYR_DESCRIPTION_LAMBERT': 60,
    'SKEPTOLYR_POSITION': 2, 'SKEPTOLYR_SHEET_PLACE': 2, 'SKEPTOLYR_PICTURE_ROOM(16777216)': 16777235, 'SKEPTOLYR_PICTURE_ROOM(1 << 2) * 2': 46}

SENTENCES = NO_REFUSALS[-1] + 1
LANGUAGES = [('gcc', 'c', standard) for standard in ('c99', 'c11', 'c17')] + [('g++', 'c++', standard) for standard in ('c++98', 'c++11', 'c++20')]
WARNINGS = ['-Wall', '-Wextra', '-pedantic', '-Wconversion', '-Wshadow', '-Wundef', '-Werror', '-I' + os.path.dirname(HEADER)]


def constant(name):
    """The header's name of a refusal: NotGrib2 is SKEPTOLYR_NOT_GRIB2."""
    return 'SKEPTOLYR' + re.sub(r'[A-Z]', lambda letter: '_' + letter.group(), name).upper()


def table_is_right():
    """The table of the header lists refusals in the order in which they are told there, which is not that of their numbers."""
    rows = sorted((row[:3] for row in refusals()), key=lambda row: row[1])
    wanted = [(constant(name), number, place) for number, name, place in TABLE]
    return judged("the header's table of refusals is the rules'", ['%s for %s' % pair for pair in zip(rows, wanted) if pair[0] != pair[1]] + ['%d rows' % len(rows)] * (len(rows) != len(wanted)))


def definition_is_the_same():
    cases = sorted((int(number), name) for name, number in re.findall(r'^number_of Why\.(\w+) = (\d+)$', text_of(NUMBERS), re.M))
    return judged("the proved definition's numbers are the rules'", [] if cases == [row[:2] for row in TABLE] else [str(cases)])


# ---- what the header's own functions answer

def printed(folder, compiler, language, standard):
    """What a program over the header prints: the sentence of each number from 0 to the last that is tried, what each function makes of its answer, and each
    constant."""
    source, program = os.path.join(folder, 'header.' + language.replace('+', 'x')), os.path.join(folder, 'header')
    lines = ['printf("%%s\\n", skeptolyr_refusal_text(%du));' % number for number in range(SENTENCES)]
    lines += ['printf("%%lu\\n", (unsigned long)%s(((uint64_t)0x%xu << 32) | 0x%xu));' % (function, answer >> 32, answer & 0xffffffff) for function, answer, _ in ANSWERS]
    lines += ['printf("%%lu\\n", (unsigned long)%s);' % name for name in CONSTANTS]
    with open(source, 'w', encoding='ascii') as text:
        text.write('#include <stdio.h>\n#include <skeptolyr.h>\nint main(void)\n{\n    %s\n    return 0;\n}\n' % '\n    '.join(lines))
    made = subprocess.run([compiler, '-std=' + standard, *WARNINGS, '-x', language, source, '-o', program], stderr=subprocess.PIPE, text=True)
    return made.stderr.splitlines()[:5] if made.returncode else subprocess.run([program], stdout=subprocess.PIPE, text=True, check=True).stdout.splitlines()


def answers_are_right(folder, *language):
    """Compiled without a warning, do the header's functions answer as the rules say?"""
    lines = printed(folder, *language)
    if len(lines) != SENTENCES + len(ANSWERS) + len(CONSTANTS):
        return judged('the header in %s' % language[2], lines)
    sentences, numbers, constants = lines[:SENTENCES], lines[SENTENCES:-len(CONSTANTS)], lines[-len(CONSTANTS):]
    faults = ['%s: %s' % (name, got) for (name, want), got in zip(CONSTANTS.items(), constants) if got != str(want)]
    tried = {name.split('(')[0] for name in CONSTANTS}
    faults += ['%s is not tried' % name for name in re.findall(r'^#define (SKEPTOLYR_\w+)(?:\(| \d+$)', text_of(HEADER), re.M) if name not in tried]
    faults += ['%s of %x: %s' % (function, answer, got) for (function, answer, want), got in zip(ANSWERS, numbers) if got != str(want)]
    faults += ['sentence %d: %s' % (number, sentences[number]) for number, word in WORDS.items() if word not in sentences[number] or not re.fullmatch(r'[A-Z].*\.', sentences[number])]
    known = set(re.findall(r'\bskeptolyr_\w+(?=\()', text_of(HEADER))) | {'skeptolyr-listing'}
    faults += ['text %d names %s' % (number, name) for number, text in enumerate(sentences) for name in re.findall(r'\bskeptolyr[-_]\w+', text) if name not in known]
    faults += ['text %d does not say so: %s .. %s' % (number, *verdict) for number, verdict in VERDICTS.items() if not (sentences[number].startswith(verdict[0]) and sentences[number].endswith(verdict[1]))]
    faults += ['text %d does not say: %s' % (number, said) for number, words in SAID.items() for said in words if said not in sentences[number]]
    faults += ['sentence of %d: %s' % (number, sentences[number]) for number in NO_REFUSALS if sentences[number] != 'No refusal has this number.']
    faults += ['two sentences are the same'] * (len(set(sentences)) != len(TABLE) + 1)
    return judged('the header in %s' % language[2], faults)


# ---- calls by the header's own names

# A caller whose arrays are longer than it says, so that no wrong call reaches past them. Each double is set before to a NaN with a sign and a payload.
CALLER = r'''
#include <skeptolyr.h>
#include <inttypes.h>
#include <stdio.h>
#include <stdlib.h>
#include <string.h>

enum { ROOM = 300 };
static uint8_t file[ROOM], presence[ROOM], picture[ROOM];
static double values[ROOM], value[ROOM];
static int64_t numbers[ROOM], position[ROOM], place[ROOM];

int main(int argc, char **argv)
{
    const uint64_t nan = UINT64_C(0xfff0123456789abc);
    size_t given[11], file_len, k, start, values_len, presence_len, n, numbers_len, position_len, place_len, value_len, picture_len;
    for (int i = 0; i < 11; i++)
        given[i] = i + 1 < argc ? strtoul(argv[i + 1], NULL, 10) : 0;
    file_len = given[0], k = given[1], start = given[2], values_len = given[3], presence_len = given[4];
    n = given[5], numbers_len = given[6], position_len = given[7], place_len = given[8], value_len = given[9], picture_len = given[10];
    if (fread(file, 1, ROOM, stdin) == 0)
        return 2;
    for (int i = 0; i < ROOM; i++) {
        memcpy(values + i, &nan, sizeof nan);
        memcpy(value + i, &nan, sizeof nan);
        presence[i] = picture[i] = 0xa5;
        numbers[i] = position[i] = place[i] = -77;
    }
    printf("%016" PRIx64 "\n", skeptolyr_check(CHECKED));
    printf("%016" PRIx64 "\n", skeptolyr_decode(DECODED));
    printf("%016" PRIx64 "\n", skeptolyr_describe(DESCRIBED));
    printf("%016" PRIx64 "\n", skeptolyr_place(PLACED));
    printf("%016" PRIx64 "\n", skeptolyr_sheet(ON_SHEET));
    printf("%016" PRIx64 "\n", skeptolyr_point(POINTED));
    printf("%016" PRIx64 "\n", skeptolyr_picture(PAINTED));
    for (int i = 0; i < ROOM; i++) {
        uint64_t bits, bits_of_point;
        memcpy(&bits, values + i, sizeof bits);
        memcpy(&bits_of_point, value + i, sizeof bits_of_point);
        printf("%016" PRIx64 " %02x %016" PRIx64 " %02x", bits, presence[i], bits_of_point, picture[i]);
        printf(" %" PRId64 " %" PRId64 " %" PRId64 "\n", numbers[i], position[i], place[i]);
    }
    return 0;
}
'''
ROOM = 300
FUNCTIONS = {
    'CHECKED': 'skeptolyr_check', 'DECODED': 'skeptolyr_decode', 'DESCRIBED': 'skeptolyr_describe', 'PLACED': 'skeptolyr_place', 'ON_SHEET': 'skeptolyr_sheet',
    'POINTED': 'skeptolyr_point', 'PAINTED': 'skeptolyr_picture'}
OTHER_GRID = 1 << 63 | 20 << 32
# What each double is before a call.
NAN = 0xfff0123456789abc


class Sample(NamedTuple):
    """A file of two fields; the numbers of the second, and where its last point but one lies, in degrees or on the sheet; and the arguments of a call. No two
    of these are equal, and a call in which two of them have changed places has another outcome. The array for the question that is refused has no room."""
    file: bytes
    description: list
    position: list
    place: list
    given: dict


def in_degrees():
    """The rules' file. Its second field, in the numbers of RULES, "What C is given", and its last point but one."""
    with open(os.path.join(TOP, 'samples', 'two-fields.grib2'), 'rb') as sample:
        file = sample.read()
    numbers = [
        0, 0, 2017, 5, 15, 12, 0, 0, 6, 6371229, 2, 2, 4, 36000000, 135000000, 35000000, 136000000, 1000000, 1000000, 1, 8, 2, 1, 0, 0, 0,
        8, 2017, 5, 15, 13, 0, 0, 1, 2017, 5, 15, 12, 0, 0, 2, 0, 0, 1, 12, 0, 254, 16, 37, 179, 237, 258, 264]
    given = {
        'file_len': 276, 'k': 1, 'start': 3, 'values_len': 9, 'presence_len': 7, 'n': 2, 'numbers_len': 60, 'position_len': 5, 'place_len': 0, 'value_len': 4,
        'picture_len': 17}
    return Sample(file, numbers, [35000000, 135000000], [], given)


def on_cone():
    """The fields of the rules' file on a Lambert grid, likewise."""
    two = grib.two_fields()
    file = grib.message(two[16:37], grib.section3_lambert(2, 2, (44137789, 102008758), 5000000, 4000000), two[109:272])
    numbers = [
        0, 0, 2017, 5, 15, 12, 0, 0, 1, 6371000, 2, 2, 4, 44137789, 102008758, 0, 0, 0, 0, 1, 8, 2, 1, 0, 0, 0,
        8, 2017, 5, 15, 13, 0, 0, 1, 2017, 5, 15, 12, 0, 0, 2, 0, 0, 1, 12, 0, 254, 16, 37, 188, 246, 267, 273,
        30, 30000000, 140000000, 5000000, 4000000, 60000000, 30000000]
    given = {
        'file_len': 285, 'k': 1, 'start': 3, 'values_len': 9, 'presence_len': 7, 'n': 2, 'numbers_len': 62, 'position_len': 0, 'place_len': 5, 'value_len': 4,
        'picture_len': 17}
    return Sample(file, numbers, [], [0, 4000000], given)


def parameters(function):
    """The names of a function's parameters, in the header's order."""
    return re.findall(r'(\w+)[,)]', re.search(r'^\w[\w ]* %s\(([^)]*\));' % function, text_of(HEADER), re.M).group(1))


def caller(folder):
    """The command that calls each function with each argument where the header has the parameter of its name."""
    source = os.path.join(folder, 'caller.c')
    with open(source, 'w', encoding='ascii') as text:
        text.write(re.sub('|'.join(FUNCTIONS), lambda word: ', '.join(parameters(FUNCTIONS[word.group()])), CALLER))
    return archive.program('skeptolyr', source)


def called(command, sample, numbers):
    done = subprocess.run([*command, *map(str, numbers)], input=sample, stdout=subprocess.PIPE, check=True)
    return done.stdout.decode().split('\n')[:-1]


def bits_of(double):
    return struct.unpack('>Q', struct.pack('>d', double))[0]


def wanted(sample):
    """What the caller is to print, by the independent reading: seven answers, and every element, those outside the field, behind the point and behind the
    picture as they were."""
    file_len, k, start, values_len, presence_len, n = list(sample.given.values())[:6]
    points, present, _, doubles = reading.decode(sample.file[:file_len], k, start, values_len, presence_len)
    mark, value = reading.point(sample.file[:file_len], k, n, sample.given['value_len'])
    picture = reading.picture(sample.file[:file_len], k, sample.given['picture_len'])
    elements, of_point = [(NAN, 0xa5)] * ROOM, [bits_of(value)] + [NAN] * (ROOM - 1)
    elements[start:start + points] = [(bits_of(double), int(bit)) for double, bit in zip(doubles, present)]
    told = (sample.description, sample.position, sample.place)
    answers = ['%016x' % answer for answer in (1 << 32 | 2, points, *(len(numbers) or OTHER_GRID for numbers in told), mark, len(picture))]
    runs = [numbers + [-77] * (ROOM - len(numbers)) for numbers in told]
    octets = picture + b'\xa5' * (ROOM - len(picture))
    return answers + ['%016x %02x %016x %02x %d %d %d' % (*element, *others) for element, *others in zip(elements, of_point, octets, *runs)]


def makes_no_difference(sample, one, other):
    """Is a call the same where two lengths have changed places? So it is where both arrays have room in either."""
    both = {one, other}
    of_point = 'value_len' in both and both <= {'value_len', 'position_len', 'place_len'}
    return both == {'values_len', 'presence_len'} or of_point and min(sample.given[name] for name in both) >= 2


def faults_of_order(command, sample):
    """What is wrong where a sample is put to each function by the names of its parameters, or where two numbers of the call can change places."""
    names, numbers = list(sample.given), list(sample.given.values())
    told, said = wanted(sample), called(command, sample.file, numbers)
    yield from ['line %d: expected %s, got %s' % (number, *pair) for number, pair in enumerate(zip(told, said), 1) if pair[0] != pair[1]][:5]
    for one, other in itertools.combinations(range(len(numbers)), 2):
        swapped = numbers[:]
        swapped[one], swapped[other] = numbers[other], numbers[one]
        if not makes_no_difference(sample, names[one], names[other]) and called(command, sample.file, swapped) == told:
            yield '%s and %s can change places' % (names[one], names[other])


def parameters_are_in_order(folder):
    """Called by the names of its parameters, the archive answers as the rules say, and not if two numbers change places. Which of two arrays has which length
    makes no difference where both have room, so of these the header alone tells: each array's length follows it."""
    command, degrees, cone = caller(folder), in_degrees(), on_cone()
    faults = [fault for sample in (degrees, cone) for fault in faults_of_order(command, sample)]
    for function in FUNCTIONS.values():
        names = parameters(function) + ['']
        follows = [(name, after) for name, after in zip(names, names[1:]) if name + '_len' in degrees.given]
        faults += ['%s: %s is followed by %s' % (function, name, after) for name, after in follows if after != name + '_len']
    return judged("the order of parameters, and every bit of a NaN outside the field", faults)


# ---- the names of the numbers

TIME = ['year', 'month', 'day', 'hour', 'minute', 'second']
# RULES, "A description": each number in its order, by the name that the header has for it.
NAMES = [
    'discipline', 'status', *('reference.' + part for part in TIME), 'earth', 'radius', 'ni', 'nj', 'points', 'first.latitude', 'first.longitude', 'last.latitude',
    'last.longitude', 'di', 'dj', 'category', 'parameter', 'process', 'surface', 'level.is_given', 'level.factor', 'level.scaled', 'product_template',
    *('end.' + part for part in TIME), 'kind', *('valid.' + part for part in TIME), 'present', 'r', 'e', 'd', 'bits', 'data_template', 'indicator',
    *('starts.section_%d' % number for number in (1, 3, 4, 5, 6, 7)), 'grid_template', 'lambert.stated_latitude', 'lambert.upright_meridian', 'lambert.dx',
    'lambert.dy', 'lambert.cutting_latitude_1', 'lambert.cutting_latitude_2']
# The members of the two kinds of place.
POSITION_NAMES, PLACE_NAMES = ['latitude', 'longitude'], ['right', 'down']


def members(struct_name):
    """The members of a struct of the header and of those within it, in order."""
    body = re.search(r'^struct %s \{\n(.*?)^\};' % struct_name, text_of(HEADER), re.M | re.S).group(1)
    for kind, names in re.findall(r'^ +(int64_t|struct \w+) ([\w, ]+);', body, re.M):
        for name in names.split(', '):
            yield from [name] if kind == 'int64_t' else (name + '.' + part for part in members(kind.split()[1]))


# A caller that asks by name for the field and the point that it is given, and prints each answer and each member. Before, each member is -77.
BY_NAME = r'''
#include <skeptolyr.h>
#include <inttypes.h>
#include <stdio.h>
#include <stdlib.h>

static uint8_t file[300];
static union {
    struct skeptolyr_field field;
    int64_t numbers[60];
} all;

int main(int argc, char **argv)
{
    struct skeptolyr_position position = {-77, -77};
    struct skeptolyr_sheet_place place = {-77, -77};
    size_t length = fread(file, 1, sizeof file, stdin), k = argc > 2 ? strtoul(argv[1], NULL, 10) : 0, n = argc > 2 ? strtoul(argv[2], NULL, 10) : 0;
    if (sizeof all != sizeof all.field)
        return 1;
    for (int i = 0; i < 60; i++)
        all.numbers[i] = -77;
    printf("%" PRIu64 "\n", skeptolyr_describe_field(file, length, k, &all.field));
    printf("%" PRIu64 "\n", skeptolyr_place_point(file, length, k, n, &position));
    printf("%" PRIu64 "\n", skeptolyr_sheet_point(file, length, k, n, &place));
    MEMBERS
    return 0;
}
'''


def told_by_name(sample, k, n):
    """What that caller is to print. A description in degrees has a 0 for each number that only a Lambert grid has; a refused call changes nothing."""
    is_field, count, refusal = k < 2, len(sample.description), 1 << 63 | (17 if k < 2 else 8) << 32
    answers, told = [count if is_field else refusal], sample.description + [0] * (60 - count) if is_field else [-77] * 60
    for own in (sample.position, sample.place):
        is_told = own and is_field and n < 4
        answers.append(len(own) if is_told else OTHER_GRID if is_field and not own else refusal)
        told = told + (own if is_told else [-77] * 2)
    return [str(number) for number in answers + told]


def names_are_right(folder):
    """The members of a description are its numbers in their order, with nothing between them, and the three functions that give numbers by name do so. The
    last point but one is asked for, the point behind the last, and a field that is not there."""
    source, faults = os.path.join(folder, 'names.c'), []
    for name, wanted_names in (('skeptolyr_field', NAMES), ('skeptolyr_position', POSITION_NAMES), ('skeptolyr_sheet_place', PLACE_NAMES)):
        faults += [] if list(members(name)) == wanted_names else ['%s: %s' % (name, list(members(name)))]
    parts = [('all.field', NAMES), ('position', POSITION_NAMES), ('place', PLACE_NAMES)]
    lines = ['printf("%%" PRId64 "\\n", %s.%s);' % (whole, name) for whole, names in parts for name in names]
    with open(source, 'w', encoding='ascii') as text:
        text.write(BY_NAME.replace('MEMBERS', '\n    '.join(lines)))
    command = archive.program('skeptolyr', source)
    for sample in (in_degrees(), on_cone()):
        for k, n in ((1, 2), (1, 4), (2, 2)):
            said = subprocess.run([*command, str(k), str(n)], input=sample.file, stdout=subprocess.PIPE)
            lines, told = said.stdout.decode().split(), told_by_name(sample, k, n)
            faults += ['field %d, point %d: status %d: %s, and not %s' % (k, n, said.returncode, lines, told)] * (lines != told)
    return judged('the names of the numbers', faults)


# ---- null pointers, and memory that was never written

def null_is_taken():
    """A null pointer whose length is 0 is an empty file, refused by 2, or a run without room, refused by 15, and nothing is written elsewhere. The question
    about places that is not for the kind of grid is refused by 20."""
    command, faults = archive.program('skeptolyr', 'tests/help/null.c'), []
    for sample, places in ((in_degrees(), (2, 15, 2, 20)), (on_cone(), (2, 20, 2, 15))):
        said = subprocess.run(command, input=sample.file, stdout=subprocess.PIPE)
        told = ''.join('%016x 0\n' % (1 << 63 | number << 32) for number in (2, 2, 2, 15, 15, 15, 15, 2, 15, *places, 2, 15, 15, 2, 15))
        faults += [] if (said.returncode, said.stdout.decode()) == (0, told) else ['status %d' % said.returncode, said.stdout.decode()]
    return judged('a null pointer with length 0', faults)


def nothing_is_assumed():
    """The compiler is told nothing of the pointers that C hands over: not that they are not null, nor that there is memory behind them."""
    text = text_of(module.text('skeptolyr'))
    heads = re.findall(r'^define [^@]*@skeptolyr_\w+\(.*$', text, re.M)
    faults = ['%d functions for C' % len(heads)] * (len(heads) != len(FUNCTIONS))
    return judged('what the compiler is told of pointers', faults + re.findall(r'.*\b(?:nonnull|dereferenceable|noalias)\b.*', text))


def arrays_are_only_written(folder):
    """The optimiser finds that no function reads an element of the arrays that it fills, or keeps more of their pointers than whether they are null, so that
    memory which was never written may be passed. Describe hands its pointer on in memory, which counts as keeping it, so of describe the first alone is
    found. Picture moves greys that it has put into its array, so of picture nothing is found: tests/pictures.py asks with other octets in the array."""
    found = os.path.join(folder, 'optimised.ll')
    kit.run(kit.tool('clang'), '--target=' + kit.TRIPLES['x86_64'], '-O3', '-S', '-emit-llvm', '-Wno-override-module', '-x', 'ir', module.text('skeptolyr'), '-o', found)
    faults, filled = [], 0
    for function in FUNCTIONS.values():
        head = re.search(r'^define [^@]*@%s\((.*)\) ' % function, text_of(found), re.M).group(1)
        named = zip(re.split(r', (?=ptr|i64)', head), parameters(function))
        arrays = [parameter for parameter, name in named if name in ('values', 'presence', 'value', 'numbers', 'position', 'place')]
        filled += len(arrays)
        found_of = r'\bwriteonly\b' if function == 'skeptolyr_describe' else r'\bwriteonly\b.*\bcaptures\((none|address_is_null)\)'
        faults += [head] * (not all(re.search(found_of, words) for words in arrays))
    return judged('arrays that are only written', faults + ['%d arrays' % filled] * (filled != 6))


def main():
    results = [table_is_right(), definition_is_the_same(), null_is_taken(), nothing_is_assumed()]
    with tempfile.TemporaryDirectory() as folder:
        results += [parameters_are_in_order(folder), names_are_right(folder), arrays_are_only_written(folder)]
        results += [answers_are_right(folder, *language) for language in LANGUAGES]
    return ended(results)


if __name__ == '__main__':
    sys.exit(main())
