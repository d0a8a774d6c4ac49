"""The program `skeptolyr` under AddressSanitizer, under UndefinedBehaviorSanitizer and under valgrind: every subcommand, on every sample and on damaged files.
It ends in 'N passed, M failed'. A file at which something is found is kept in target/memory. It is no part of the gate: `make memory` runs it.

The command is compiled for this machine, with the proved code as it is: the sanitizers look at what is written in C, and valgrind looks at both. Memory
that is never given back is valgrind's to find, because looking for it takes a sanitizer seconds at the end of each process on some machines.
"""
import concurrent.futures
import glob
import json
import os
import random
import re
import shutil
import subprocess
import sys

from samples import make, shapes
from tests import fields
from tests.help import SEED, grib, report
from tests.peers import damage
from tools import TOP, archive, built, debian

BUILT = os.path.join(TOP, 'target', 'memory')
FILES = os.path.join(BUILT, 'files')
KEPT = os.path.join(BUILT, 'kept')
DAMAGED = 1000
# Under valgrind a process takes about a second. What takes one file a process gets the samples and so many damaged files there.
DAMAGED_ONE_BY_ONE = 100
PATIENCE = 600
# How a sanitizer or valgrind ends a process in which it found something. The command itself ends with 0 to 3.
FOUND = 99
COMPILER = ['gcc', *archive.FLAGS, '-g', '-O1']
SANITIZERS = ['-fsanitize=address,undefined', '-fno-sanitize-recover=all']
OPTIONS = {'ASAN_OPTIONS': 'exitcode=%d:detect_leaks=0' % FOUND, 'UBSAN_OPTIONS': 'exitcode=%d:print_stacktrace=1' % FOUND}
VALGRIND = ['valgrind', '-q', '--error-exitcode=%d' % FOUND, '--leak-check=full', '--errors-for-leak-kinds=definite']
REPORTS = re.compile(r'ERROR: \w+Sanitizer|runtime error: |^==\d+== ', re.M)


def say(what):
    print(what, file=sys.stderr, flush=True)


# ---- damaged files

def good_files():
    """The samples, and small files in the Agency's shapes."""
    levels, lambert = shapes.pressure_levels(fields=3, ni=7, nj=5, present=20), fields.two_lambert_fields()
    small = [grib.grouped(), damage.good_file(), levels, levels + grib.grouped(), grib.two_fields() * 3]
    # Steps that are unlike each other make a picture whose points are unlike, too.
    return list(make.samples().values()) + small + [lambert, lambert + grib.two_fields(), fields.lambert(5, 4, dx=1000, dy=1501)]


def starts_of_sections(file):
    """Where each section of the first message starts, as far as its lengths lead."""
    found, at = [], 16
    while at + 5 <= len(file) and file[at:at + 4] != b'7777':
        found.append(at)
        at += max(5, int.from_bytes(file[at:at + 4], 'big'))
    return found


def odd_octets(rng, count):
    """Octets that readers stumble over: all 0, all 1, the least, the largest, or any."""
    return rng.choice([bytes(count), b'\xff' * count, grib.number(1, count), grib.number(1 << 8 * count - 1, count), rng.randbytes(count)])


def cut(rng, file):
    return file[:rng.randrange(len(file))]


def octets_changed(rng, file):
    for _ in range(rng.randint(1, 4)):
        file = grib.spliced(file, rng.randrange(len(file)), rng.randbytes(1))
    return file


def bit_flipped(rng, file):
    at = rng.randrange(len(file))
    return grib.spliced(file, at, bytes([file[at] ^ 1 << rng.randrange(8)]))


def section_renumbered(rng, file):
    return grib.spliced(file, rng.choice(starts_of_sections(file)) + 4, bytes([rng.choice([0, 1, 2, 3, 4, 5, 6, 7, 8, 9, 255])]))


def section_restated(rng, file):
    """Another length of a section, next to its own or far from it."""
    at = rng.choice(starts_of_sections(file))
    length = int.from_bytes(file[at:at + 4], 'big') + rng.choice([-1, 1, 4, -4])
    return grib.spliced(file, at, rng.choice([grib.number(length % (1 << 32), 4), odd_octets(rng, 4)]))


def number_changed(rng, file):
    """Another number of 1, 2 or 4 octets in a section, past its length and its own number."""
    count = rng.choice([1, 2, 4])
    return grib.spliced(file, rng.choice(starts_of_sections(file)) + rng.randrange(5, 60), odd_octets(rng, count))[:len(file)]


def part_doubled(rng, file):
    """A part of the file stands twice, a part is lost, or a message's length is right again after that."""
    first, end = sorted(rng.randrange(len(file) + 1) for _ in range(2))
    doubled = rng.choice([file[:end] + file[first:], file[:first] + file[end:], file + file])
    return grib.spliced(doubled, 8, grib.number(len(doubled), 8)) if rng.random() < 0.5 and len(doubled) > 16 else doubled


def section_doubled(rng, file):
    """A section stands twice or is lost, and the message's length is right for it."""
    starts = starts_of_sections(file)
    at = rng.choice(starts)
    end = min(len(file), at + int.from_bytes(file[at:at + 4], 'big'))
    changed = rng.choice([file[:end] + file[at:], file[:at] + file[end:]])
    length = int.from_bytes(file[8:16], 'big') + len(changed) - len(file)
    return grib.spliced(changed, 8, grib.number(length % (1 << 64), 8))


KINDS = [cut, octets_changed, bit_flipped, section_renumbered, section_restated, number_changed, number_changed, part_doubled, section_doubled]


def damaged_files():
    """So many files, each a good one that was damaged once, twice or three times. No two are alike."""
    rng, good, found = random.Random(SEED), good_files(), {}
    while len(found) < DAMAGED:
        file = rng.choice(good)
        for _ in range(rng.choice([1, 1, 2, 3])):
            if starts_of_sections(file):
                file = rng.choice(KINDS)(rng, file)
        if file not in good:
            found[file] = None
    return list(found)


def written():
    """Writes all files. The answer is their names, the samples first."""
    for folder in (FILES, KEPT):
        shutil.rmtree(folder, ignore_errors=True)
        os.makedirs(folder)
    files = {name.replace('/', '-'): octets for name, octets in make.samples().items()}
    files.update(('damaged-%04d' % number, octets) for number, octets in enumerate(damaged_files()))
    for name, octets in files.items():
        with open(os.path.join(FILES, name), 'wb') as out:
            out.write(octets)
    return list(files)


# ---- programs

def compiled(name, *words):
    """A program of target/memory, compiled of these words."""
    out = os.path.join(BUILT, name)
    subprocess.run([*COMPILER, *words, '-o', out], cwd=TOP, check=True)
    return out


class Watched:
    """A way to run a program so that faults of memory are found: what it is called, what stands before the program, and what the program is compiled with."""

    def __init__(self, name, before, flags):
        self.name, self.before, self.flags = name, before, flags
        self.program = None

    def run(self, *words, program=None):
        """The exit status, and what was said."""
        streams = {'stdin': subprocess.DEVNULL, 'stdout': subprocess.DEVNULL, 'stderr': subprocess.PIPE}
        done = subprocess.run([*self.before, program or self.program, *words], cwd=FILES, timeout=PATIENCE, env=dict(os.environ, **OPTIONS), **streams)
        return done.returncode, done.stderr.decode('utf-8', 'replace')

    def fault(self, statuses, *words):
        """What was found while the command ran with these words, or None."""
        status, said = self.run(*words)
        if status in statuses and not REPORTS.search(said):
            return None
        return '%s, %s: it exits with %d:\n%s' % (self.name, ' '.join(words[:4]), status, said[:2000])


def watches():
    """The sanitizers and valgrind, or those of them that this machine has. What it does not have is told as skipped."""
    found = []
    try:
        compiled('nothing', *SANITIZERS, '-x', 'c', write_probe())
        found.append(Watched('the sanitizers', [], SANITIZERS))
    except subprocess.CalledProcessError:
        print(report.Skipped('the command under the sanitizers', 'gcc cannot compile with them here'))
    debian.install([] if shutil.which('valgrind') else ['valgrind'])
    if shutil.which('valgrind'):
        found.append(Watched('valgrind', VALGRIND, []))
    else:
        print(report.Skipped('the command under valgrind', "Debian's package valgrind could not be installed"))
    return found


# ---- faults that must be found

# Each number is a fault, and 0 is none. The sanitizers find 1 to 3, and valgrind finds 1, 4 and 5. Nothing is printed of what is read.
PROBE = r'''
#include <limits.h>
#include <stdlib.h>
#include <string.h>
int main(int argc, char **argv)
{
    volatile int fault = argc > 1 ? atoi(argv[1]) : 0, large = INT_MAX, answer = 0;
    char *volatile memory = malloc(16);
    if (memory == NULL)
        return 3;
    if (fault != 4)
        memset(memory, 0, 16);
    if (fault == 1)
        answer = memory[16];
    if (fault == 2)
        answer = large + 1;
    if (fault == 3)
        answer = 1 << (large % 64);
    if (fault == 4 && memory[7] == 1)
        answer = 1;
    if (fault == 5)
        memory = malloc(1);
    free(memory);
    return answer == INT_MAX;
}
'''
PLANTED = {'the sanitizers': (1, 2, 3), 'valgrind': (1, 4, 5)}


def write_probe():
    path = os.path.join(BUILT, 'probe.c')
    with open(path, 'w', encoding='utf-8') as out:
        out.write(PROBE)
    return path


def finds_what_is_planted(watched):
    program = compiled('probe', *watched.flags, write_probe())
    for fault in (0, *PLANTED[watched.name]):
        status, said = watched.run(str(fault), program=program)
        if (status == FOUND and REPORTS.search(said) is not None) != (fault > 0) or (fault == 0 and status):
            yield 'of fault %d it exits with %d and says %r' % (fault, status, said[:300])


# ---- subcommands

# Those that take many files in one run, and those that take one file: what stands before its name, and behind it.
MANY = {'check': ['check'], 'ls': ['ls'], 'ls --json': ['ls', '--json']}
SINGLE = {
    'show': [(['show'], ['0']), (['show'], ['1'])], 'values': [(['values'], ['0']), (['values'], ['1'])],
    'point': [(['point'], ['0', '1']), (['point'], ['0', '35.4', '135.7']), (['point'], ['1', '3'])], 'dump': [(['dump'], []), (['dump'], ['1'])],
    'draw': [(['draw'], ['0', '%s.png']), (['draw', '--range', '-1', '300'], ['1', '-'])], 'pgm': [(['pgm'], ['0', '%s.pgm']), (['pgm'], ['1', '-'])]}
MISUSES = [
    [], ['list'], ['check'], ['ls', '--jason', 'FILE'], ['show', 'FILE'], ['show', 'FILE', '1x'], ['values', 'FILE', '99999999999999999999'],
    ['point', 'FILE', '0'], ['point', 'FILE', '0', '1.5'], ['point', 'FILE', '0', '91', '0'], ['point', 'FILE', '0', '-1', '-'],
    ['dump', 'FILE', '0', '1'], ['draw', 'FILE', '0'], ['draw', '--range', '1', 'FILE', '0', '-'], ['draw', 'FILE', '0', ''],
    ['pgm', 'FILE', '0'], ['pgm', 'FILE', '1x', '-'], ['pgm', 'FILE', '0', 'FILE'], ['help', 'list']]


def kept(name):
    shutil.copy(os.path.join(FILES, name), KEPT)
    return '%s is kept in target/memory/kept\n' % name


def faults_of_many(watched, words, names):
    """One run for all files. Where something is found, each file is run alone, so that it can be named."""
    whole = watched.fault((0, 1), *words, *names)
    if whole is None:
        return
    alone = 0
    for name in names:
        fault = watched.fault((0, 1), *words, name)
        if fault:
            alone += 1
            yield kept(name) + fault
        if alone == report.MOST_SHOWN:
            return
    if not alone:
        yield 'with all files in one run, and with none alone:\n' + whole


def fault_of_one(watched, ways, name):
    """One run for each way in which the subcommand is asked about a file."""
    for before, behind in ways:
        words = [word.replace('%s', name) for word in behind]
        fault = watched.fault((0, 1), *before, name, *words)
        if fault:
            return kept(name) + fault
    return None


def faults_of_single(watched, ways, names):
    """All files one by one, in as many processes at once as the machine has processors."""
    with concurrent.futures.ThreadPoolExecutor(os.cpu_count()) as pool:
        found = [fault for fault in pool.map(lambda name: fault_of_one(watched, ways, name), names) if fault]
    for picture in glob.glob(os.path.join(FILES, '*.p[ng]*')):
        os.remove(picture)
    yield from found[:report.MOST_SHOWN]
    if len(found) > report.MOST_SHOWN:
        yield 'and %d files more' % (len(found) - report.MOST_SHOWN)


def faults_of_misuse(watched):
    for words in MISUSES:
        yield watched.fault((2,), *[word.replace('FILE', 'two-fields.grib2') for word in words])


def reaches_everything(program, names):
    """The damaged files are %d, no two alike. Files are refused for each reason from 3 to 7, fields for each from 9 to 14, and others taken, of both kinds."""
    done = subprocess.run([program, 'ls', '--json', *names], cwd=FILES, stdout=subprocess.PIPE, stderr=subprocess.DEVNULL)
    listed = [file for file in json.loads(done.stdout) if file['file'].startswith('damaged-')]
    if len(listed) != DAMAGED:
        yield 'there are %d' % len(listed)
    everywhere = [file.get('refused') for file in listed] + [field.get('refused') for file in listed for field in file.get('fields', [])]
    met = {refused['number'] for refused in everywhere if refused}
    taken = [field['grid_template'] for file in listed for field in file.get('fields', []) if 'refused' not in field]
    if set(range(3, 15)) - {8} - met or len(taken) < DAMAGED // 10 or taken.count(30) < DAMAGED // 50:
        yield 'refusals %s, and %d fields taken, %d of them on Lambert grids' % (sorted(met), len(taken), taken.count(30))


# ---- the suite

def test(sentence, work, *words):
    """Tries something that yields what is wrong, and tells of it by this sentence."""
    def tried(*given):
        return work(*given)
    tried.__doc__ = sentence
    return report.tried(tried, *words)


def results_of(watched, names):
    """One test for what is planted, one for each subcommand, and one for misuses."""
    few = names[:len(make.samples()) + DAMAGED_ONE_BY_ONE] if watched.name == 'valgrind' else names
    yield test('Faults that are planted in a program are found by %s.' % watched.name, finds_what_is_planted, watched)
    for name, words in MANY.items():
        say('%s: %s' % (watched.name, name))
        yield test('%s: %s of %d files, in one run.' % (watched.name, name, len(names)), faults_of_many, watched, words, names)
    for name, ways in SINGLE.items():
        say('%s: %s' % (watched.name, name))
        yield test('%s: %s of %d files, one by one, in %d ways each.' % (watched.name, name, len(few), len(ways)), faults_of_single, watched, ways, few)
    yield test('%s: %d command lines that are no good.' % (watched.name, len(MISUSES)), faults_of_misuse, watched)


def main():
    os.makedirs(BUILT, exist_ok=True)
    say('proving and compiling skeptolyr')
    names, code, sources = written(), built.library('skeptolyr'), archive.command_sources()
    plain = compiled('skeptolyr', *sources, code, '-lm')
    reaches_everything.__doc__ %= DAMAGED
    results = [report.tried(reaches_everything, plain, names)]
    for watched in watches():
        watched.program = compiled('skeptolyr-watched', *watched.flags, *sources, code, '-lm') if watched.flags else plain
        results += results_of(watched, names)
    return report.ended(results)


if __name__ == '__main__':
    sys.exit(main())
