"""python3 -m bench [ARCHIVE]: measures the proved code natively, in one thread, on files made for it. Times are printed, and decide no test.

With an ARCHIVE, its functions are measured, and nothing is proved: for code whose proof is still under way.
"""
import functools
import os
import statistics
import subprocess
import sys

from bench import listing
from samples import shapes
from tests.help import grib
from tools import TOP, built, debian
from tools.archive import FLAGS

COMPILER = ['gcc', *FLAGS, '-O3']
# The decoders of others: header, package, flags.
PEERS = {'ecCodes': ('eccodes.h', 'libeccodes-dev', ['-DECCODES', '-leccodes']), 'g2c': ('grib2.h', 'libg2c-dev', ['-DG2C', '-lg2c'])}
# The meso-scale model's file is on a grid in degrees, and once more on the Lambert grid that the Agency sends it on.
ON_SHEET = functools.partial(shapes.msm, grid=shapes.cone)
FILES = {'LFM-like': shapes.lfm, 'MSM-like': shapes.msm, 'MSM-like, Lambert': ON_SHEET, 'ocean-like': shapes.ocean, '300 small fields': shapes.small_fields}
GROWING = ('LFM-like', 'MSM-like')
# The files of which one point is asked for: simple packing over a bitmap, complex packing, and complex packing over a bitmap.
POINTED_AT = ('LFM-like', 'MSM-like', 'ocean-like')
TIMES = (1, 2, 4, 8)
PASSES = 5
TINY_FIELDS = 2000
ALLOCATORS = {'malloc', 'calloc', 'realloc', 'free', 'aligned_alloc', 'posix_memalign', 'memalign', 'mmap', 'brk', 'sbrk'}


def say(what):
    print(what, file=sys.stderr, flush=True)


# ---- programs

def own_archive():
    """The archive that users link."""
    say('proving and compiling skeptolyr')
    return built.library('skeptolyr')


def program(name, archive, *more):
    """bench/NAME.c compiled with an archive."""
    out = os.path.join(TOP, 'target', 'bench-' + name)
    os.makedirs(os.path.dirname(out), exist_ok=True)
    subprocess.run(COMPILER + [os.path.join(TOP, 'bench', name + '.c'), archive, *more, '-lm', '-o', out], check=True)
    return out


def answer(command, file):
    """What a program prints about a file, in words."""
    return subprocess.run(command, input=file, stdout=subprocess.PIPE, check=True).stdout.decode().split()


def peers():
    """The flags for the decoders of others that are here, or that could be installed."""
    debian.install([package for header, package, _ in PEERS.values() if not debian.has_header(header)])
    flags = []
    for name, (header, package, words) in PEERS.items():
        if debian.has_header(header):
            flags += words
        else:
            print('%s is left out: the package %s is not installed.' % (name, package))
    return flags


# ---- tables

def table(*rows):
    for first, *rest in rows:
        print('  %-18s' % first + ''.join('%19s' % word for word in rest))


def compare(decode, files):
    """Every decoder on every file, by lines of name, time, ratio to skeptolyr, verdict."""
    rows, notes = [], []
    for name, file in files.items():
        say('timing every decoder on the %s file' % name)
        words = answer([decode], file)
        found = {words[i]: words[i + 1:i + 4] for i in range(0, len(words), 4)}
        notes += ['%s %s on the %s file.' % (who, said, name) for who, (_, _, said) in found.items() if said != 'agrees']
        found = {who: said for who, said in found.items() if said[2] != 'refuses'}
        times = ['%.2f' % float(found[who][0]) if who in found else '-' for who in ('skeptolyr', 'plain', 'ecCodes', 'g2c')]
        ratios = ['%.2f' % float(found[who][1]) if who in found else '-' for who in PEERS]
        rows.append([name] + times + ['%.2f' % (1 / float(found['plain'][1])) if 'plain' in found else '-'] + ratios)
    print('\nDecode of all fields, nanoseconds a point. Ratios are medians over the rounds.')
    table(['', 'skeptolyr', 'plain C', 'ecCodes', 'g2c', 'skeptolyr/plain C', 'ecCodes/skeptolyr', 'g2c/skeptolyr'], *rows)
    print('\n'.join('  ' + note for note in notes or ['All agree: plain C in every bit, the others within their rounding.']))


def pictures(picture, files):
    """Pictures of all fields by skeptolyr and by plain C, by lines of name, time, ratio to skeptolyr, verdict."""
    rows, notes = [], []
    for name, file in files.items():
        say('timing pictures of the %s file' % name)
        _, ours, _, _, _, plain, ratio, said = answer([picture], file)
        rows.append([name, '%.2f' % float(ours), '%.2f' % float(plain), '%.2f' % (1 / float(ratio))])
        notes += ['Plain C %s on the %s file.' % (said, name)] * (said != 'agrees')
    print('\nPicture of all fields, nanoseconds a point. Ratios are medians over the rounds.')
    table(['', 'skeptolyr', 'plain C', 'skeptolyr/plain C'], *rows)
    print('\n'.join('  ' + note for note in notes or ['Both agree in every octet.']))


def one_point(point, files):
    """One point of a field against decode of all of them, and against ecCodes, by lines of which point, its number, whether it is present, its time, its part
    of decode's, up to four times of ecCodes, and a verdict."""
    rows, notes = [], []
    for name in POINTED_AT:
        say('timing one point of the %s file' % name)
        (_, described), (_, decoded), *lines = (line.split() for line in subprocess.run([point], input=files[name], stdout=subprocess.PIPE, check=True).stdout.decode().splitlines())
        rows.append([name, '', 'describe %.0f us' % float(described), 'decode %.0f us' % float(decoded)])
        for which, n, _, took, part, *theirs, said in lines:
            above = float(took) - float(described)
            rows.append(['  ' + which, n, '%.0f us' % float(took), '%.0f us' % above, '%.3f' % float(part), '%.0f' % (1 / float(part))] + ['%.0f us' % float(time) for time in theirs])
            notes += ['The %s point of the %s file %s.' % (which, name, said)] * (said != 'agrees')
    print('\nOne point of a field. Its part of decode is a median over the rounds.')
    heads = ['ecCodes nearest', 'and the next', 'ecCodes element', 'and the next'] * any(len(row) > 6 for row in rows)
    table(['', 'point', 'skeptolyr', 'above describe', 'part of decode', 'times faster', *heads], *rows)
    print('\n'.join('  ' + note for note in notes or ["All agree: the value is decode's, and that of ecCodes is near it."]))


def tiny_fields(fields):
    """A message of so many fields of 2 x 2 points."""
    field = grib.instant(0, 0, 103, (0, 2), 1, 1) + grib.section5(4, bytes(4), 0, 0, 8) + grib.section6(255) + grib.section7(range(4), 8)
    return grib.message(grib.section1(grib.time(2017, 5, 15, 12, 0, 0)), shapes.area(2, 2, (36000000, 135000000), (35000000, 136000000)), field * fields)


def growing_files():
    """Files whose one field grows, and files with ever more fields: each with what it counts, and how many of them."""
    for name in GROWING:
        for times in TIMES:
            say('making the %s file, %d times as large' % (name, times))
            yield '%s x %d' % (name, times), FILES[name](times), 'point', None
    for times in TIMES:
        fields = TINY_FIELDS * times
        yield 'tiny fields x %d' % times, tiny_fields(fields), 'section', 2 + 4 * fields


def grow(decode, growing):
    """Decode of the last field, as its points or the sections before it grow. The passes go through all files, so that a burst of other work on
    the machine falls on one pass of some, and not on every pass of one."""
    took, points = {name: [] for name, *_ in growing}, {}
    for number in range(PASSES):
        say('timing how decode grows, pass %d of %d' % (number + 1, PASSES))
        for name, file, _, _ in growing:
            points[name], time = answer([decode, 'last'], file)
            took[name].append(float(time))
    rows = []
    for name, _, unit, count in growing:
        count, time = count or int(points[name]), statistics.median(took[name])
        rows.append([name, '%d %ss' % (count, unit), '%.1f us' % time, '%.2f ns a %s' % (1e3 * time / count, unit)])
    print('\nGrowth: decode of the last field.')
    table(*rows)


def tell_memory(stack, archive, files):
    """The stack that the functions take, and what the archive calls."""
    say('painting the stack')
    depths = {}
    for name, file in files.items():
        depths.setdefault(name.split(' x ')[0], []).append(int(answer([stack], file)[0]))
    print('\nMemory: the most octets of the stack that a function changed, from the smallest file of a kind to the largest.')
    table(*([name] + found for name, found in depths.items()))
    print('  ' + ('It does not grow with the file.' if all(len(set(found)) == 1 for found in depths.values()) else 'It is NOT the same for all files of a kind.'))
    lines = subprocess.run(['nm', archive], stdout=subprocess.PIPE, check=True).stdout.decode().split('\n')
    symbols = [line.rsplit(' ', 2)[-2:] for line in lines if ' ' in line]
    outside = {name for kind, name in symbols if kind in 'Uw'} - {name for kind, name in symbols if kind not in 'Uw'}
    print('  The archive calls outside itself: %s. Allocators: %s.' % (', '.join(sorted(outside)) or 'nothing', ', '.join(sorted(outside & ALLOCATORS)) or 'none'))


def main():
    archive = sys.argv[1] if len(sys.argv) > 1 else own_archive()
    theirs = peers()
    plain = os.path.join(TOP, 'bench', 'plain.c')
    decode, point, picture = program('decode', archive, plain, *theirs), program('point', archive, *theirs), program('picture', archive, plain)
    # A function of the C library that is looked up at its first call would show on the stack.
    stack = program('stack', archive, '-Wl,-z,now')
    files = {}
    for name, shape in FILES.items():
        say('making the %s file' % name)
        files[name] = shape()
    compare(decode, files)
    pictures(picture, files)
    one_point(point, files)
    growing = list(growing_files())
    grow(decode, growing)
    fixed = {name: file for name, file in files.items() if name not in GROWING}
    tell_memory(stack, archive, dict(fixed, **{name: file for name, file, _, _ in growing}))
    describe, levels = program('describe', archive), shapes.pressure_levels()
    print('\nDescribe, in a file of 92 fields.', flush=True)
    for k in (0, 91):
        subprocess.run([describe, str(k)], input=levels, check=True)
    listing.tell(archive)


if __name__ == '__main__':
    main()
