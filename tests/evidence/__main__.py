"""Proved code against the independent decoder of tests/reference, on files made and damaged by the hundred thousand.

  python3 -m tests.evidence                            all of what follows but soak and repeat; the last line is 'N passed, M failed'
  python3 -m tests.evidence soak MINUTES [SEED]        go on with fresh seeds
  python3 -m tests.evidence repeat PART SEED NUMBER    one case again, as a failure says it
"""
import array
import concurrent.futures
import functools
import os
import random
import re
import shutil
import struct
import subprocess
import sys
import tempfile
import time

from samples import shapes
from tests import fields
from tests.evidence import cone, encoder, rules
from tests.evidence.faults import FAULTS
from tests.help import SEED as SEED_OF_TESTS, grib, lending, report
from tests.help.faulty import FAULTS as FAULTY, RENAMED
from tools import TOP, archive, debian

BUILT = os.path.join(TOP, 'target', 'evidence')
RULES = os.path.join(BUILT, 'rules')
RECORD = os.path.join(BUILT, 'answers')
# The Agency's own Lambert field at its full size, and the integers that are packed into it.
FULL = os.path.join(BUILT, 'full.grib2')
FULL_INTEGERS = os.path.join(BUILT, 'full.integers')
FULL_SEED, FULL_LARGEST = 3, 16383
SEED = str(SEED_OF_TESTS)
CASES = '1000000'
LISTINGS = '600'
REBUILDS = '200000'
VALID_FILES = '3000'
# What the interpreter may take for the questions of one program.
MOST_STEPS = '200000000'
RUST = ['rustc', '--edition', '2021', '-C', 'overflow-checks=on']
COMPILER = ['gcc', *archive.FLAGS, '-O2']
LENDER = 'tests/help/lend.c'
VECTORS = os.path.join(TOP, 'tests', 'evidence', 'vectors.rattle')
# All grids of the Agency's paper on the seas: those of heights and temperatures, and those of currents, which lie between them.
SEAS = [
    fields.AROUND_JAPAN, fields.Grid(1423, 1604, (52030000, 116954545), (19970000, 160045455), 30303, 20000),
    fields.NORTH_PACIFIC, fields.Grid(2049, 633, (63150000, 98863636), (-50000, 285045455), 90909, 100000)]


def say(what):
    print(what, file=sys.stderr, flush=True)


def built(name, *words, **environment):
    """Runs a compiler from the top of the tree, and gives the path of what it writes to the folder of built things."""
    out = os.path.join(BUILT, name)
    os.makedirs(os.path.dirname(out), exist_ok=True)
    say('compiling ' + name)
    subprocess.run([*words, '-o', out], cwd=TOP, check=True, env=dict(os.environ, **environment))
    return out


def asked(*command):
    """Does a command end well?"""
    return subprocess.run(command, cwd=TOP).returncode == 0


# ---- what is built

def evidence():
    """The program that makes the cases and compares the answers, over the independent decoder."""
    decoder = built('libreference.rlib', *RUST, '-O', '--crate-type', 'rlib', '--crate-name', 'reference', 'tests/reference/lib.rs')
    rules.write(RULES)
    write_full()
    return built('evidence', *RUST, '-O', '--extern', 'reference=' + decoder, 'tests/evidence/main.rs')


def write_full():
    """Writes the Agency's own Lambert field of 817 x 661 points, and the integers that are packed into it, as samples/shapes.py makes them."""
    with open(FULL, 'wb') as file, open(FULL_INTEGERS, 'wb') as integers:
        file.write(shapes.msm(seed=FULL_SEED, grid=shapes.cone))
        integers.write(b''.join(grib.number(x, 4) for x in shapes.smooth(random.Random(FULL_SEED), cone.NI, cone.NJ, FULL_LARGEST)))


@functools.cache
def lender_of_archive():
    """The command of the program that calls the archive that users link."""
    return archive.program('skeptolyr', LENDER)


def program_of_kit(name):
    """The command of a program that is proved and built."""
    archive.built.program(name)
    return [os.path.join(TOP, 'tools', 'program'), name]


# ---- what is compared

def decoder_tests():
    """The independent decoder's own tests, one by one."""
    tests = built('reference-tests', *RUST, '--test', '--crate-name', 'reference', 'tests/reference/lib.rs')
    said = subprocess.run([tests, '--test-threads', '2'], stdout=subprocess.PIPE, text=True).stdout
    counts = re.search(r'(\d+) passed; (\d+) failed', said)
    if not counts or counts.group(2) != '0':
        print(said)
    passed, failed = (int(word) for word in counts.groups()) if counts else (0, 1)
    print("the independent decoder's own tests: %d passed, %d failed" % (passed, failed), flush=True)
    return [True] * passed + [False] * failed


def compared(program, *words):
    """Does the archive answer as the independent decoder does?"""
    print('the archive that users link, against the independent decoder:', flush=True)
    return asked(program, *words, '--', *lender_of_archive())


def faults_found(program):
    """Is each fault found that stands between the lender and proved code?"""
    faulty = archive.program('skeptolyr', LENDER, 'tests/help/faulty.c', *RENAMED, name='faulty-lend')
    missed = []
    for number, what in list(enumerate(FAULTY))[1:]:
        command = [program, 'compare', RULES, SEED, '0', os.devnull, '--', *faulty]
        done = subprocess.run(command, cwd=TOP, stdout=subprocess.DEVNULL, stderr=subprocess.DEVNULL, env=dict(os.environ, FAULT=str(number)))
        missed += [what] if done.returncode != 1 else []
    print('%d faults between the archive and its caller, %d not found%s' % (len(FAULTY) - 1, len(missed), ''.join('\n  ' + what for what in missed)), flush=True)
    return not missed


def mutant(number, fault):
    """A copy of the independent decoder with one fault, compiled."""
    what, name, old, new = fault
    copy = os.path.join(BUILT, 'mutants', 'fault_%02d' % number)
    shutil.rmtree(copy, ignore_errors=True)
    shutil.copytree(os.path.join(TOP, 'tests', 'reference'), copy)
    path = os.path.join(copy, name)
    with open(path, encoding='utf-8') as source:
        text = source.read()
    if text.count(old) != 1:
        raise SystemExit('the fault "%s" has no single place in %s' % (what, name))
    with open(path, 'w', encoding='utf-8') as source:
        source.write(text.replace(old, new))
    crate = 'fault_%02d' % number
    out = os.path.join(BUILT, 'mutants', 'lib%s.rlib' % crate)
    subprocess.run([*RUST, '-C', 'opt-level=1', '--cap-lints', 'allow', '--crate-type', 'rlib', '--crate-name', crate, os.path.join(copy, 'lib.rs'), '-o', out], check=True)
    return crate, out


def mutants():
    """Is each faulty copy of the independent decoder caught by the corpus, against what proved code answered?"""
    say('compiling %d faulty copies of the independent decoder' % len(FAULTS))
    with concurrent.futures.ThreadPoolExecutor(os.cpu_count()) as pool:
        found = list(pool.map(mutant, range(len(FAULTS)), FAULTS))
    chosen = os.path.join(BUILT, 'mutants', 'chosen.rs')
    with open(chosen, 'w', encoding='utf-8') as source:
        source.write('vec![\n%s]\n' % ''.join('    mutant("%s", answers_of!(%s)),\n' % (fault[0], crate) for fault, (crate, _) in zip(FAULTS, found)))
    externs = [word for crate, out in found + [('reference', os.path.join(BUILT, 'libreference.rlib'))] for word in ('--extern', crate + '=' + out)]
    program = built('all-mutants', *RUST, '-O', '--cap-lints', 'allow', *externs, 'tests/evidence/mutants.rs', MUTANTS=chosen)
    return asked(program, RULES, SEED, CASES, RECORD)


def tried(program, name, seed):
    """Do the interpreter and the code compiled with checks of each index, sum and access print what the independent decoder says? They are built of a copy of
    all crates that stands outside this tree, since `rt ci` refuses a file of Rattle that it does not read."""
    with tempfile.TemporaryDirectory() as place:
        return tried_in(place, program, name, seed)


def tried_in(place, program, name, seed):
    cases = os.path.join(place, 'cases')
    shutil.copytree(os.path.join(TOP, 'crates'), os.path.join(place, 'crates'), ignore=shutil.ignore_patterns('out'))
    os.makedirs(cases)
    source = os.path.join(place, 'crates', 'vectors', 'src', 'main.rt')
    os.makedirs(os.path.dirname(source))
    shutil.copy(VECTORS, source)
    with open(os.path.join(TOP, 'crates.txt'), encoding='utf-8') as crates, open(os.path.join(place, 'crates.txt'), 'w', encoding='utf-8') as more:
        more.write(crates.read() + 'vectors: octets skeptolyr\n')
    if not asked(program, 'vectors', name, seed, cases):
        return False
    command = ['rt', 'try', '--cases', cases, '--steps', MOST_STEPS]
    done = subprocess.run(command, cwd=os.path.join(place, 'crates', name), stdout=subprocess.PIPE, stderr=subprocess.STDOUT, text=True)
    is_right = done.returncode == 0 and 'case=questions run=ended status=0 runners=2 output=expected proved=no' in done.stdout.split('\n')
    if not is_right:
        print(done.stdout)
    print('%s, tried: the interpreter and the code with checks %s what is expected' % (name, 'print' if is_right else 'do not both print'), flush=True)
    return is_right


def samples_listed(listing):
    """Do the program and the independent decoder on the command line list the samples alike?"""
    decoder = built('reference', *RUST, '-O', '--extern', 'reference=' + os.path.join(BUILT, 'libreference.rlib'), 'tests/reference/main.rs')
    listings = [[subprocess.run(command, input=file, stdout=subprocess.PIPE).stdout for command in (listing, [decoder, 'list'])] for file in fields.make.samples().values()]
    different = sum(one != other for one, other in listings)
    print('the independent decoder on the command line: %d samples listed, %d differ' % (len(listings), different), flush=True)
    return different == 0


def off_by(degrees, millionths):
    """How far numbers in degrees are from numbers in millionths of a degree, at most."""
    return max(abs(1e6 * one - other) for one, other in zip(degrees, millionths, strict=True))


def seas_lie_alike():
    """Does the archive put every column and every row of the seas where ecCodes does, to the half millionth that it rounds by?"""
    reader, lender, most = built('places', *COMPILER, 'tests/peers/places.c', '-leccodes'), lender_of_archive(), 0
    for grid in SEAS:
        found = array.array('d', subprocess.run([reader], input=fields.file_on(grid), stdout=subprocess.PIPE, check=True).stdout)
        latitudes, longitudes = found[:grid.ni * grid.nj], found[grid.ni * grid.nj:]
        columns = fields.places_of(lender, [(grid, i) for i in range(grid.ni)])
        rows = fields.places_of(lender, [(grid, j * grid.ni) for j in range(grid.nj)])
        most = max(most, off_by(longitudes[:grid.ni], [east for _, east in columns]), off_by(latitudes[::grid.ni], [north for north, _ in rows]))
    print('%d grids of the seas as ecCodes places them: at most %.3f millionths of a degree apart' % (len(SEAS), most), flush=True)
    return most < 0.501


def sheet_places(asked):
    """Where the archive puts points on the sheet of the Agency's cone: how far to the right of the first point and how far below it, in metres."""
    lender, file, before, lent, size = lender_of_archive(), cone.downward(), None, [], 8 * 3
    for n in asked:
        lent.append(lending.question(lending.SHEET, file, before, 0, n, lengths=(2, 0), written=2))
        before = file
    got = report.answers(lender, b''.join(lent))
    return [tuple(number / 1000 for number in struct.unpack('<2q', got[at + 8:at + size])) for at in range(0, len(got), size)]


def degrees_by_eccodes(reader, file):
    """The latitude and the longitude of each point of a file's one field, as ecCodes tells them."""
    found = array.array('d', subprocess.run([reader], input=file, stdout=subprocess.PIPE, check=True).stdout)
    return list(zip(found[:len(found) // 2], found[len(found) // 2:]))


def sheet_lies_alike():
    """Does the archive put the columns of the first row, the rows of the first column and points between where ecCodes has them? ecCodes takes the first point
    for the lower left one, whatever octet 65 says, so it is told of the same points from below. A millionth of a degree is up to a quarter of a metre."""
    reader, points = built('places', *COMPILER, 'tests/peers/places.c', '-leccodes'), cone.NI * cone.NJ
    asked = [*range(cone.NI), *range(0, points, cone.NI), *range(0, points, 9973), points - 1]
    upward, known = degrees_by_eccodes(reader, cone.upward()), degrees_by_eccodes(reader, cone.downward())
    told = [cone.from_first(*upward[cone.from_below(n)]) for n in asked]
    ours = sheet_places(asked)
    most = max((abs(one - other) for place, own in zip(told, ours, strict=True) for one, other in zip(place, own)), default=0)
    shows = 'shows' if known[points - 1][0] > known[0][0] else 'does not show'
    print('  known: it takes the first point for the lower left one where rows go downward: this %s' % shows)
    print('%d points of a Lambert grid as ecCodes places them: at most %.3f metres apart' % (len(asked), most), flush=True)
    return bool(ours) and most < 0.25


def eccodes(program):
    """Valid files as ecCodes reads them, and the places of the seas and of a Lambert grid. Where it cannot be had, each of these is told as skipped."""
    if not debian.has_header('eccodes.h'):
        debian.install(['libeccodes-dev'])
    if not debian.has_header('eccodes.h'):
        for what in ('valid files as ecCodes reads them', 'the seas as ecCodes places them', 'a Lambert grid as ecCodes places it'):
            print(report.Skipped(what, "Debian's package libeccodes-dev could not be installed"))
        return []
    reader = built('eccodes', *COMPILER, 'tests/peers/eccodes.c', '-leccodes')
    return [asked(program, 'eccodes', FULL, SEED, VALID_FILES, '--', reader), seas_lie_alike(), sheet_lies_alike()]


def whole():
    program = evidence()
    results = decoder_tests() + [asked(program, 'told', RULES), compared(program, 'compare', RULES, SEED, CASES, RECORD)]
    results += [faults_found(program), mutants(), compared(program, 'full', FULL, FULL_INTEGERS)]
    listing = program_of_kit('listing')
    results += [asked(program, 'listing', SEED, LISTINGS, '--', *listing), samples_listed(listing)]
    results.append(asked(program, 'rebuild', SEED, REBUILDS, '--', *program_of_kit('tests_ask')))
    results += [tried(program, name, SEED) for name in ('vectors', 'tests_ask')] + eccodes(program) + encoder.results()
    return report.ended(results)


# ---- commands

def soak(minutes, seed=None):
    seed = seed or str(int(time.time()))
    print('from seed %s on' % seed, flush=True)
    return 0 if asked(evidence(), 'soak', minutes, seed, '--', *lender_of_archive()) else 1


def repeat(part, seed, number):
    program = evidence()
    rules, file = RULES if part == 'all' else 'none', os.path.join(BUILT, 'case.grib2')
    return 0 if asked(program, 'repeat', rules, seed, number, file, '--', *lender_of_archive()) else 1


def main():
    if len(sys.argv) == 1:
        return whole()
    return {'soak': soak, 'repeat': repeat}[sys.argv[1]](*sys.argv[2:])


if __name__ == '__main__':
    sys.exit(main())
