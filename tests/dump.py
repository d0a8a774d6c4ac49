"""The subcommand `dump`: on the files on either side of each rule, on the samples and on damaged copies of good files, the octets that break a rule are
marked, and no others. What is refused is held to the independent reading of the rules (tests/help/reading.py). It ends in 'N passed, M failed'.

The program is built from command/ over the archive. Where the variable SKEPTOLYR_COMMAND names a program, that one is tried.
"""
import concurrent.futures
import os
import random
import re
import subprocess
import sys
import tempfile
from typing import NamedTuple

from samples import make
from tests import fields
from tests.evidence import rules
from tests.help import SEED, grib, reading, report
from tools import TOP, archive

AT_ONCE = 4
# The section of each refusal of a field.
SECTION_OF = {9: 1, 10: 3, 11: 4, 12: 5, 13: 6, 14: 7, 16: 7}
# A line for octets: the mark, the section, the octets, and the octets in hexadecimal, where they are shown.
LINE = re.compile(r'([! ]) ([0-8?-]) {2,}(?:(\d+(?:-\d+)?(?:, \d+(?:-\d+)?)*|-)  )? *((?:[0-9a-f]{2} ){0,3}(?:[0-9a-f]{2}|\.\.)  )?')
# The columns that a line may have.
WIDEST = 120


class Line(NamedTuple):
    """A line that tells of octets: is it marked, and which octets of which section is it about? What is shown of them is empty where they are not shown."""
    marked: bool
    section: str
    octets: set
    shown: str
    text: str


class Dumped(NamedTuple):
    """What `dump` did: how it ended, its lines for octets, and what it printed on standard output and on standard error."""
    status: int
    lines: list
    text: str
    said: str


# ---- running the program

def numbers_in(octets):
    """The octets that a text such as '7-10, 31-38' names."""
    found = set()
    for first, last in re.findall(r'(\d+)(?:-(\d+))?', octets):
        found |= set(range(int(first), int(last or first) + 1))
    return found


def lines_in(text):
    found = []
    for line in text.split('\n'):
        match = LINE.match(line)
        if match:
            found.append(Line(match.group(1) == '!', match.group(2), numbers_in(match.group(3) or ''), (match.group(4) or '').strip(), line))
    return found


def dumped(program, *words):
    run = subprocess.run([*program, 'dump', *words], stdout=subprocess.PIPE, stderr=subprocess.PIPE, errors='replace')
    return Dumped(run.returncode, lines_in(run.stdout), run.stdout, run.stderr)


def all_dumped(program, asked):
    """What is printed for each (file, k), where k is None for the whole file. A few run at a time, since a start takes long in the emulator."""
    def one(question):
        number, (file, k) = question
        path = os.path.join(folder, '%d.grib2' % number)
        with open(path, 'wb') as out:
            out.write(file)
        return dumped(program, path, *([] if k is None else [str(k)]))

    with tempfile.TemporaryDirectory() as folder, concurrent.futures.ThreadPoolExecutor(AT_ONCE) as workers:
        return list(workers.map(one, enumerate(asked)))


# ---- what is to be marked

def answer_of(file, k):
    """The refusal of field k, or of the file where k is None, as (number, place), by the independent reading; or None."""
    try:
        count = len(reading.fields(file))
        for field in range(count) if k is None else [k]:
            reading.decode(file, field, 0, 1 << 24, 1 << 24)
    except reading.Refused as refused:
        return refused.number, refused.place
    return None


def faults_of(file, k, dump, refusal):
    """What is wrong with a dump of field k where this is what must be refused, as (number, place), or None."""
    marked = [line for line in dump.lines if line.marked]
    if dump.status != (1 if refusal else 0):
        yield 'it ended with %d: %s' % (dump.status, dump.said)
    if any('the table and the library differ' in text for text in (dump.text, dump.said)):
        yield 'the table and the library differ'
    if refusal is None or refusal[0] == 8:
        yield from ('marked, where nothing is wrong: ' + line.text for line in marked[:1])
    elif not re.search(r'^(field \d+|the file) is refused with %d at %d\b' % refusal, dump.text, re.M):
        yield 'it does not say that %d at %d is refused' % refusal
    elif not marked:
        yield 'no octet is marked'
    elif refusal[0] in SECTION_OF and marked[0].section != str(SECTION_OF[refusal[0]]):
        yield 'the first line that is marked is of another section: ' + marked[0].text
    yield from ('%d columns: %s' % (len(line.text), line.text) for line in dump.lines if len(line.text) > WIDEST)
    if refusal and 'refused %d at %d.' % refusal not in dump.said:
        yield 'standard error does not have the refusal: ' + dump.said


def shown(file, k, fault):
    return 'field %s of %s: %s' % (k, file[:400].hex(), fault)


def judged(program, asked, refusals):
    """What is wrong with the dumps of (file, k) that have these refusals."""
    found = []
    for (file, k), dump, refusal in zip(asked, all_dumped(program, asked), refusals):
        found += [shown(file, k, fault) for fault in faults_of(file, k, dump, refusal)]
    return found[:report.MOST_SHOWN]


# ---- the tests

def rules_are_marked(program):
    """Of the files on either side of each rule, those that are refused have a mark in the section that is, and those that are taken have none"""
    told = list(rules.told())
    refusals = [(answer >> 32 & 0x7fffffff, answer & 0xffffffff) if answer >> 63 and answer != rules.TAKEN else None for _, _, answer, _ in told]
    asked = [(file, None if kind == rules.CHECK else k) for kind, k, _, file in told]
    print('%d files, %d of them refused' % (len(told), sum(refusal is not None for refusal in refusals)))
    # Of a file that tiles, the fields are read too, and a field that can be described may have an integer X out of range.
    refusals = [refusal or answer_of(file, k) for (file, k), refusal in zip(asked, refusals)]
    return judged(program, asked, refusals)


def changed_octets_are_marked(program):
    """An octet that is changed to a number outside its limits is marked itself, and one that is changed to a number inside them is not, on either grid"""
    degrees, lambert = fields.Base(grib.two_fields()), fields.Base(fields.two_lambert_fields())
    changes = [(degrees, *change) for change in fields.octets_on_either_side()] + [(lambert, 3, *change) for change in fields.octets_of_lambert()]
    asked, wanted = [], []
    for base, section, first, count, inside, outside in changes:
        for value in inside + outside:
            asked.append((base.with_octets(section, first, value, count), 0))
            wanted.append((str(section), set(range(first, first + count)), value in outside))
    for (file, k), (section, octets, outside), dump in zip(asked, wanted, all_dumped(program, asked)):
        if any(line.marked and line.section == section and line.octets & octets for line in dump.lines) != outside:
            yield shown(file, k, 'octets %s of section %s are %smarked' % (sorted(octets), section, 'not ' if outside else ''))


# The octets of section 3 that have a rule on a Lambert grid, and those that have none.
LAMBERT_JUDGED = [(1, 4), (5, 5), (6, 6), (7, 10), (11, 11), (12, 12), (13, 14), (15, 15), (16, 16), (17, 20), (31, 34), (35, 38), (39, 42), (43, 46), (47, 47),
                  (48, 51), (52, 55), (56, 59), (60, 63), (64, 64), (65, 65), (66, 69), (70, 73)]
LAMBERT_FREE = [(21, 21), (22, 25), (26, 26), (27, 30), (74, 77), (78, 81)]


def lambert_is_told(program):
    """Template 3.30 is known octet by octet: each number has a line with a rule, or one that says that it is not judged; and no line is of template 3.0"""
    lambert = make.samples()['lambert.grib2']
    dump = all_dumped(program, [(lambert, 0)])[0]
    lines = [line for line in dump.lines if line.section == '3']
    for first, last in LAMBERT_JUDGED + LAMBERT_FREE:
        octets, is_free = set(range(first, last + 1)), (first, last) in LAMBERT_FREE
        found = [line for line in lines if line.octets == octets and line.shown and 'octets that are not read' not in line.text]
        if len(found) != 1 or found[0].text.endswith('not judged') != is_free:
            yield 'octets %d-%d: %s' % (first, last, [line.text for line in found])
    together = [line.text[5:].split('  ')[0] for line in lines if not line.shown]
    if together != ['1-4, 13-14', '7-10, 31-38']:
        yield 'rules over several numbers: %s' % together
    if any(line.marked for line in dump.lines) or dump.status:
        yield 'it ended with %d, or something is marked' % dump.status


def kinds_do_not_mix(program):
    """A section of one kind's length with the other kind's template is refused with 10, and the line that is marked first says which go together"""
    degrees, lambert = grib.two_fields(), fields.two_lambert_fields()
    asked = [(grib.spliced(degrees, 37 + 12, grib.number(30, 2)), 0), (grib.spliced(lambert, 37 + 12, grib.number(0, 2)), 0)]
    for (file, k), dump, numbers in zip(asked, all_dumped(program, asked), ('72 and 30', '81 and 0')):
        yield from (shown(file, k, fault) for fault in faults_of(file, k, dump, (10, 37)))
        words = 'section 3, octets 1-4, 13-14: length and template: %s; they must be 72 and 0, or 81 and 30' % numbers
        if words not in dump.said or 'length and template' not in next(line.text for line in dump.lines if line.marked):
            yield 'not there: %s\n%s' % (words, dump.said)


def samples_are_marked(program):
    """Each sample, and each field of it, is dumped: what samples/README.md tells as refused is marked, and nothing else"""
    asked = [(file, None) for file in make.samples().values()]
    asked += [(file, k) for file in make.samples().values() for k in (0, 1, 2)]
    return judged(program, asked, [answer_of(file, k) for file, k in asked])


def sections_in_force(file, k):
    """The stretches of the sections in force for field k, and of those around them."""
    start, force, _ = reading.fields(file)[k]
    end = start + int.from_bytes(file[start + 8:start + 16], 'big')
    return {0: (start, start + 16), 8: (end - 4, end), **force}


def every_octet_is_told(program):
    """Of each section in force for a field, every octet is in a line, and what is shown of octets is what the file has there"""
    files = [grib.two_fields(), grib.grouped(), make.samples()['islands.grib2'], grib.two_fields() * 2, make.samples()['refused/12-scale.grib2']]
    files += [make.samples()['lambert.grib2'], fields.two_lambert_fields() + grib.two_fields()]
    asked = [(file, k) for file in files for k in range(len(reading.fields(file)))]
    for (file, k), dump in zip(asked, all_dumped(program, asked)):
        for section, (start, end) in sections_in_force(file, k).items():
            lines = [line for line in dump.lines if line.section == str(section)]
            missing = set(range(1, end - start + 1)) - set().union(*(line.octets for line in lines))
            if any('octets that are not read' in line.text for line in lines) and answer_of(file, k) is None:
                yield shown(file, k, 'octets of section %d have no name' % section)
            if missing:
                yield shown(file, k, 'no line has octets %s of section %d' % (sorted(missing)[:9], section))
            if 'section %d at %d, %d octets: ' % (section, start, end - start) not in dump.text:
                yield shown(file, k, 'there is no heading of section %d at %d' % (section, start))
            for line in lines:
                octets = bytes.fromhex(line.shown.rstrip('.')) if line.shown else b''
                if file[start + min(line.octets, default=1) - 1:][:len(octets)] != octets:
                    yield shown(file, k, 'other octets are shown: ' + line.text)


def values_are_told(program):
    """Numbers with a sign, times, letters, runs and integers X are shown as they are read by hand"""
    wanted = {
        (grib.two_fields(), 0): [
            '  0  1-4     47 52 49 42  start of a message                 GRIB                   GRIB',
            '  3  31-34   00 00 00 02  Ni, the points in a row            2                      from 1 to 65,535',
            '  3  47-50   02 25 51 00  latitude of the first point        36000000               from -90,000,000 to 90,000,000',
            '  1  13-19                reference time                     2017-05-15 12:00:00    a day that the month has',
            '  4  18, 19-22            valid time                         2017-05-15 13:00:00    not later than 2399',
            '  7  6-8     b6 0a bc     packed values, 2 of 12 bits        2912 2748              not judged'],
        (grib.grouped(), 0): [
            '  5  12-15   c2 c8 00 00  R, the reference value             -100                   a finite number',
            '  5  16-17   80 03        E, the binary scale factor         -3                     from -127 to 127',
            '  6  7-8     bb f0        bitmap                             1011101111110000       judged below',
            '  7  10-11   80 07        Zmin                               -7                     not judged',
            '  7  12-14   07 90 00     references, 3 of 7 bits            3 100 0                not judged',
            '  7  16-17   23 90        lengths of the groups              3 4 3                  at least 1 in each',
            '  7  6-20    00 32 00 ..  integers X                         50 49 47 138 ..        from 0 to 2,147,483,647'],
        (fields.lambert(3, 2, first=(-1, 359999999), dx=1, dy=2147483647, stated=-30000000, upright=140000000, cutting=(-60000000, 90000000)), 0): [
            '  3  1-4     00 00 00 51  length of the section              81                     72 or 81',
            '  3  13-14   00 1e        template of the grid               30                     0 or 30, in degrees or Lambert',
            '  3  1-4, 13-14           length and template                81 and 30              72 and 0, or 81 and 30',
            '  3  39-42   80 00 00 01  latitude of the first point        -1                     from -90,000,000 to 90,000,000',
            '  3  43-46   15 75 29 ff  longitude of the first point       359999999              from 0 to 359,999,999',
            '  3  47      08           resolution and component flags     0x08                   0x08',
            '  3  48-51   81 c9 c3 80  LaD, latitude of stated lengths    -30000000              from -90,000,000 to 90,000,000',
            '  3  52-55   08 58 3b 00  LoV, the upright meridian          140000000              from 0 to 359,999,999',
            '  3  56-59   00 00 00 01  Dx, thousandths of a metre right   1                      from 1 to 2,147,483,647',
            '  3  60-63   7f ff ff ff  Dy, thousandths of a metre down    2147483647             from 1 to 2,147,483,647',
            '  3  65      00           scanning mode                      0x00                   0x00: rightward, then downward',
            '  3  66-69   83 93 87 00  Latin 1, first cutting latitude    -60000000              from -90,000,000 to 90,000,000',
            '  3  70-73   05 5d 4a 80  Latin 2, second cutting latitude   90000000               from -90,000,000 to 90,000,000',
            '  3  74-77   ff ff ff ff  latitude of the southern pole      all ones               not judged']}
    for (file, k), dump in zip(wanted, all_dumped(program, list(wanted))):
        yield from ('not there: %s' % line for line in wanted[file, k] if line not in dump.text.split('\n'))


def faults_are_told(program):
    """Standard error names the octets and the rule that they break, for one number, for several together, and for a file that does not tile"""
    two, groups, lambert = grib.two_fields(), grib.grouped(), fields.two_lambert_fields()
    wanted = [
        (grib.spliced(two, 37 + 54, b'\x20'), 'section 3, octet 55 is 0x20: it must be 0x30 ('),
        (grib.spliced(lambert, 37 + 46, b'\x30'), 'section 3, octet 47 is 0x30: it must be 0x08 ('),
        (grib.spliced(lambert, 37 + 55, bytes(4)), 'section 3, octets 56-59 are 0: they must be from 1 to 2,147,483,647 ('),
        (grib.spliced(lambert, 37 + 65, b'\xff' * 4), 'section 3, octets 66-69 are all ones: they must be from -90,000,000 to 90,000,000 ('),
        (grib.spliced(lambert, 37 + 12, b'\0\1'), 'section 3, octets 13-14 are 1: they must be 0 or 30, in degrees or Lambert ('),
        (grib.spliced(two, 16 + 5, b'\0\7'), 'section 1, octets 6-7 are 7: they must be 34, the Agency ('),
        (grib.spliced(two, 37 + 37, b'\3'), 'section 3, octets 7-10, 31-38: point count and Ni x Nj: 4 and 6; they must be equal'),
        (grib.spliced(two, 164 + 6, b'\xe0'), 'section 6, octet 7: points present, N of section 5: 3 and 2; they must be equal'),
        (grib.spliced(groups, 200 + 15, b'\x22'), 'section 7, octets 16-17: sum of the lengths: 9; it must be 10, which is N'),
        (grib.spliced(two, 7, b'\1'), 'section 0, octet 8 is 1: it must be 2 ('),
        (two[:-1] + b'8', 'section 8, octets 1-4 are 7778: they must be 7777 ('),
        (grib.spliced(two, 41, b'\2'), 'the section at 37, octet 5 is 2: it must be 3, after section 1 ('),
        (grib.message(two[16:37]), 'section 8, octets 1-4: the section before: section 1; it must be section 7, which ends a field'),
        (two + two[:9], 'section 0, octets 9-16 are not there: they must be there (')]
    for (file, words), dump in zip(wanted, all_dumped(program, [(file, None) for file, _ in wanted])):
        if '\nskeptolyr: ' + words not in dump.said:
            yield 'not there: %s\n%s' % (words, dump.said)


def damaged_files():
    """Copies of good files with octets changed, cut out and cut off."""
    rng = random.Random(SEED)
    files = [grib.two_fields(), grib.grouped(), grib.two_fields() + grib.grouped(), fields.two_lambert_fields()]
    for turn in range(400):
        file = bytearray(rng.choice(files))
        for _ in range(rng.choice((1, 1, 1, 2, 5))):
            file[rng.randrange(len(file))] = rng.choice((0, 1, 2, 127, 128, 255, rng.randrange(256)))
        if turn % 10 == 0:
            file = file[:rng.randrange(len(file))]
        if turn % 10 == 1:
            at = rng.randrange(len(file))
            del file[at:at + rng.randrange(1, 40)]
        yield bytes(file)


def damage_is_marked(program):
    """Damaged copies of good files have marks where the independent reading refuses them, and none where it takes them"""
    asked = [(file, None) for file in damaged_files()]
    refusals = [answer_of(file, k) for file, k in asked]
    print('%d damaged files, %d of them refused' % (len(asked), sum(refusal is not None for refusal in refusals)))
    return judged(program, asked, refusals)


def misuse_is_told(program):
    """A command line without a file, with a word that is no number or with a word too many ends with 2, and a file that is not there with 3"""
    two = os.path.join(TOP, 'samples', 'two-fields.grib2')
    misused = [[], [two, 'one'], [two, '-1'], [two, ''], [two, '0', '1'], ['--json', two]]
    for words, status in [(words, 2) for words in misused] + [([two + 'x'], 3), ([two, '2'], 1)]:
        dump = dumped(program, *words)
        if dump.status != status or dump.lines or not dump.said:
            yield '%s: it ended with %d: %s%s' % (words, dump.status, dump.text, dump.said)
    help_text = dumped(program, '--help')
    if help_text.status != 0 or 'dump FILE [K]' not in help_text.text:
        yield 'dump --help: %s' % (help_text,)


TESTS = [
    rules_are_marked, changed_octets_are_marked, lambert_is_told, kinds_do_not_mix, samples_are_marked, every_octet_is_told, values_are_told, faults_are_told,
    damage_is_marked, misuse_is_told,
]


def main():
    program = archive.skeptolyr()
    return report.ended([report.tried(test, program) for test in TESTS])


if __name__ == '__main__':
    sys.exit(main())
