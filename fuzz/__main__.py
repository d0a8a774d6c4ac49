"""Fuzzes native code of the proved library, with libFuzzer and AddressSanitizer.

  python3 -m fuzz [MINUTES]     fuzz for so many minutes, or for ten
  python3 -m fuzz --self-test   put faults between the target and the library, demand that the target finds each, and end in 'N passed, M failed'

The kit's clang compiles the crate's LLVM module with coverage counters and with checks of every load and store; Debian's clang compiles the
target, without counters, and brings the runtimes of both. So the edges that libFuzzer counts are those of the proved code alone.
"""
import os
import re
import shutil
import subprocess
import sys
import tempfile
import time

from tests.help.faulty import FAULTS as FAULTY, RENAMED
from tools import TOP, debian, kit, module

WORK = os.path.join(TOP, 'target', 'fuzz')
SEEDS, CORPUS, FAULTS, LOG = (os.path.join(WORK, name) for name in ('seeds', 'corpus', 'faults', 'log'))
REFERENCE = os.path.join(TOP, 'tests', 'reference', 'lib.rs')
PACKAGES = ['clang', 'libclang-rt-dev', 'rustc']
# The library allocates nothing: there is no leak to look for, and little that is freed need be kept back.
ENVIRONMENT = dict(os.environ, ASAN_OPTIONS='detect_leaks=0:quarantine_size_mb=8')
LIMITS = ['-max_len=4096', '-timeout=10', '-rss_limit_mb=2048', '-detect_leaks=0', '-mutate_depth=2', '-print_final_stats=1']
SECONDS_BETWEEN_LINES = 10

# What the target must say of each fault of tests/help/faulty.py, in their order.
OVERFLOW = 'AddressSanitizer: heap-buffer-overflow'
STRETCH = "an element outside the field's stretch has changed"
ELEMENT = "an element and the independent decoder's differ"
ANSWER = 'decode and the independent decoder differ'
PRESENCE = 'a presence is neither 0 nor 1'
KIND = 'the questions differ about the kind of grid'
TWICE = 'describe puts numbers twice, and differently'
PLACE = "a refusal's place is not where it can be"
# Of one point: against decode, against the independent decoder, and of the room for it.
VALUE_OF_DECODE = 'the value of a point is not the one that decode writes'
VALUE = "the value of a point and the independent decoder's differ"
POINT_ANSWER = 'point and the independent decoder differ'
POINT_ROOM = 'point refuses a run that has room, or takes one that has none'
# Of a picture: against decode, against the independent decoder, and of the room for it.
PICTURE = "a picture and the independent decoder's differ"
BLACK = 'a point is black that decode has, or one is not that decode has not'
PICTURE_ROOM = 'picture refuses a run that has room, or takes one that has none'
PICTURE_BY_DECODE = 'picture does not tell of a field what decode does'
# Behind the name of describe, of place or of sheet, and two of them behind those of point and of picture.
NUMBER = ' puts another number than the independent decoder'
NUMBERS_ANSWER = ' and the independent decoder differ'
COUNT = ' puts another number of numbers than it has'
NOT_OWN = ' changes a number that is not its own'
NOT_AS_DECODE = ' does not refuse as decode does'
NOT_REFUSED = ' refuses a field that decode does not refuse'
MESSAGES = [
    None,
    'check and the independent decoder differ',
    'check counts no message, or fewer fields than messages',
    'check answers twice, and differently',
    'a file is refused by its length, which is another',
    ELEMENT,
    OVERFLOW,
    OVERFLOW,
    PRESENCE,
    'the point count is 0, or does not fit in both runs',
    'decode answers twice, and differently',
    ANSWER,
    'decode refuses a file that check takes',
    'decode and check differ about the field count',
    STRETCH,
    'decode does not refuse as check does',
    'a refusal has no number of its function',
    ANSWER,
    PLACE,
    OVERFLOW,
    STRETCH,
    ELEMENT,
    'decode fills twice, and differently',
    PRESENCE,
    'a missing point is given a double that is not +0',
    'a double is -0',
    'a double is not finite',
    'describe' + NUMBER,
    'describe' + NUMBER,
    TWICE,
    'describe' + NUMBER,
    'describe' + NUMBER,
    'describe' + NUMBER,
    'describe' + COUNT,
    OVERFLOW,
    'describe' + NOT_OWN,
    'describe' + NOT_AS_DECODE,
    'describe' + COUNT,
    'describe' + NOT_OWN,
    'place' + NUMBER,
    'place' + NUMBER,
    'place' + NUMBER,
    'place' + NUMBERS_ANSWER,
    OVERFLOW,
    'place' + NOT_OWN,
    'place' + NOT_AS_DECODE,
    'place' + NUMBERS_ANSWER,
    'place' + COUNT,
    'place' + NOT_OWN,
    'place' + NUMBER,
    'place' + NUMBER,
    'place' + NUMBER,
    KIND,
    TWICE,
    KIND,
    'describe' + NUMBERS_ANSWER,
    'describe' + NUMBER,
    'describe' + NUMBER,
    'describe' + NUMBER,
    'describe' + NUMBER,
    'describe' + NUMBER,
    KIND,
    'place' + NOT_REFUSED,
    'place' + NUMBERS_ANSWER,
    'place' + NUMBERS_ANSWER,
    PLACE,
    'sheet' + NUMBER,
    'sheet' + NUMBER,
    'sheet' + NUMBER,
    'sheet' + NUMBER,
    'sheet' + NUMBER,
    'sheet' + NUMBER,
    'sheet' + NUMBER,
    'sheet' + NUMBERS_ANSWER,
    KIND,
    'sheet' + NUMBERS_ANSWER,
    'sheet' + NUMBERS_ANSWER,
    OVERFLOW,
    'sheet' + NOT_OWN,
    'sheet' + NOT_AS_DECODE,
    'sheet' + NUMBERS_ANSWER,
    'sheet' + COUNT,
    'sheet' + NOT_OWN,
    VALUE_OF_DECODE,
    VALUE,
    VALUE_OF_DECODE,
    VALUE_OF_DECODE,
    VALUE,
    'point puts a value twice, and differently',
    'point does not tell of a point what decode does',
    VALUE_OF_DECODE,
    VALUE_OF_DECODE,
    'a point has a value behind one that is out of range',
    POINT_ROOM,
    POINT_ANSWER,
    POINT_ANSWER,
    'point refuses a field otherwise than decode does',
    POINT_ANSWER,
    'point' + NOT_REFUSED,
    'point' + NOT_AS_DECODE,
    POINT_ANSWER,
    POINT_ROOM,
    OVERFLOW,
    STRETCH,
    STRETCH,
    PICTURE,
    PICTURE,
    PICTURE_BY_DECODE,
    'a picture does not begin as one',
    BLACK,
    BLACK,
    PICTURE,
    'picture draws twice, and differently',
    BLACK,
    'the largest grey is neither 255 nor 1',
    BLACK,
    BLACK,
    BLACK,
    BLACK,
    BLACK,
    PICTURE,
    PICTURE,
    PICTURE,
    PICTURE_BY_DECODE,
    'picture answers twice, and differently',
    'picture answers another length than its picture has',
    PICTURE_BY_DECODE,
    'picture' + NOT_REFUSED,
    PICTURE_BY_DECODE,
    'picture' + NOT_AS_DECODE,
    PICTURE_ROOM,
    PLACE,
    PICTURE_BY_DECODE,
    PICTURE_ROOM,
    PICTURE_ROOM,
    OVERFLOW,
    STRETCH,
    STRETCH,
    STRETCH,
]


def say(what):
    print(what, flush=True)


# ---- building

def has_runtimes():
    """Can Debian's clang link a fuzz target, and is there a Rust compiler?"""
    if not shutil.which('clang') or not shutil.which('rustc'):
        return False
    with tempfile.TemporaryDirectory() as work:
        source = os.path.join(work, 'empty.c')
        with open(source, 'w') as lines:
            lines.write('int LLVMFuzzerTestOneInput(const unsigned char *data, unsigned long size) { return data == 0 && size == 1; }\n')
        return subprocess.run(['clang', '-fsanitize=fuzzer,address', source, '-o', source + '.out'], stderr=subprocess.DEVNULL).returncode == 0


def install():
    if has_runtimes():
        return
    debian.install(PACKAGES)
    if not has_runtimes():
        sys.exit('fuzz: clang cannot link a fuzz target, or there is no rustc: install %s by hand' % ' '.join(PACKAGES))


def with_checks(text):
    """The module with the attribute on every function that lets AddressSanitizer check its loads and stores."""
    found, count = re.subn(r'(?m)^(define .*\)(?: (?:local_)?unnamed_addr)?)', r'\1 sanitize_address', text)
    if not count or count != len(re.findall(r'(?m)^define ', text)):
        sys.exit('fuzz: the functions of the LLVM module are not as they were thought to be')
    return found


def build_library():
    """The proved code, with counters and checks. It is not optimised: most of its branches would be made into arithmetic, which counts no edge."""
    say('proving and compiling skeptolyr')
    text, code = os.path.join(WORK, 'skeptolyr.ll'), os.path.join(WORK, 'skeptolyr.o')
    with open(module.text('skeptolyr')) as plain, open(text, 'w') as lines:
        lines.write(with_checks(plain.read()))
    kit.run(kit.tool('clang'), '--target=' + kit.TRIPLES['x86_64'], '-O0', '-fPIC', '-fno-omit-frame-pointer', '-fsanitize=fuzzer-no-link,address',
               '-fno-sanitize-ignorelist', '-Wno-override-module', '-x', 'ir', '-c', text, '-o', code)
    return code


def build_reference():
    """The independent decoder, as C calls it. Where it panics, it aborts."""
    say('compiling the independent decoder')
    flags = ['rustc', '--edition', '2021', '-O', '-C', 'overflow-checks=on', '-C', 'panic=abort', '--out-dir', WORK]
    kit.run(*flags, '--crate-type', 'rlib', '--crate-name', 'reference', REFERENCE)
    extern = 'reference=' + os.path.join(WORK, 'libreference.rlib')
    kit.run(*flags, '--crate-type', 'staticlib', '--crate-name', 'shim', '--extern', extern, os.path.join(TOP, 'fuzz', 'shim.rs'))
    return os.path.join(WORK, 'libshim.a')


def build_target(name, libraries, sources):
    """A target over the libraries, from sources that each bring flags of their own."""
    compiler = ['clang', '-std=c99', '-O2', '-g', '-Wall', '-Wextra', '-pedantic', '-Werror', '-fsanitize=address', '-I' + os.path.join(TOP, 'include')]
    objects, out = [], os.path.join(WORK, name)
    for source, own in sources:
        objects.append(os.path.join(WORK, '%s-%s.o' % (name, os.path.basename(source))))
        kit.run(*compiler, *own, '-c', os.path.join(TOP, source + '.c'), '-o', objects[-1])
    kit.run('clang', '-fsanitize=fuzzer,address', *objects, *libraries, '-lpthread', '-ldl', '-lm', '-o', out)
    return out


def build(is_faulty):
    install()
    os.makedirs(WORK, exist_ok=True)
    libraries = [build_library(), build_reference()]
    kit.run(sys.executable, '-m', 'fuzz.seeds', SEEDS)
    if not is_faulty:
        return build_target('target', libraries, [('fuzz/target', []), ('fuzz/mutator', [])])
    return build_target('faulty', libraries, [('fuzz/target', RENAMED), ('fuzz/mutator', []), ('tests/help/faulty', [])])


# ---- running

def in_place():
    """The words that run a command with memory laid out always alike: where a kernel spreads it wide, older runtimes of AddressSanitizer fail."""
    words = ['setarch', '-R']
    return words if shutil.which('setarch') and subprocess.run(words + ['true'], stderr=subprocess.DEVNULL).returncode == 0 else []


def watch(lines):
    """Keeps what libFuzzer says, shows a line of it now and then, and gives it whole."""
    kept, shown = [], 0.0
    with open(LOG, 'w') as log:
        for line in lines:
            log.write(line)
            kept.append(line)
            if re.match(r'#\d+\s', line) and time.monotonic() - shown > SECONDS_BETWEEN_LINES:
                say(line.rstrip()[:150])
                shown = time.monotonic()
    return ''.join(kept)


def fuzz(target, minutes):
    for folder in (CORPUS, FAULTS):
        os.makedirs(folder, exist_ok=True)
    words = ['-max_total_time=%d' % round(60 * minutes), '-dict=' + os.path.join(TOP, 'fuzz', 'dictionary'), '-artifact_prefix=' + FAULTS + os.sep]
    command = in_place() + [target] + words + LIMITS + [CORPUS, SEEDS]
    say('fuzzing for %g minutes; what libFuzzer says is kept in %s' % (minutes, os.path.relpath(LOG, TOP)))
    with subprocess.Popen(command, stdout=subprocess.DEVNULL, stderr=subprocess.PIPE, text=True, errors='replace', env=ENVIRONMENT) as run:
        said = watch(run.stderr)
    return run.returncode, said


def verdict(status, said):
    """Says how the run has ended. A run that has counted no edge has seen nothing."""
    edges = re.findall(r'(?m)^#\d+\s.* cov: (\d+)', said)
    counters = re.search(r'\((\d+) inline 8-bit counters\)', said)
    done = re.search(r'(?m)^Done (\d+) runs in (\d+) second', said)
    if status == 0 and done and counters and edges and int(edges[-1]) > 0:
        run = (done.group(1), int(done.group(2)) / 60, edges[-1], counters.group(1))
        say('%s runs in %.1f minutes, %s of %s edges of the proved code covered, no fault' % run)
        return 0
    kept = re.search(r'Test unit written to (\S+)', said)
    say(said[-6000:])
    if kept:
        say('FAULT: the input is kept. To repeat it: target/fuzz/target ' + os.path.relpath(kept.group(1), TOP))
    else:
        say('FAULT: the run ended with %d, and kept no input' % status)
    return 1


def self_test(target):
    """Each fault alone, on the seeds in their order."""
    command = in_place() + [target, '-exact_artifact_path=' + os.devnull] + [os.path.join(SEEDS, name) for name in sorted(os.listdir(SEEDS))]
    failed = 0
    for number, (what, words) in enumerate(zip(FAULTY, MESSAGES, strict=True)):
        given = dict(ENVIRONMENT, FAULT=str(number))
        done = subprocess.run(command, stdout=subprocess.DEVNULL, stderr=subprocess.PIPE, text=True, errors='replace', env=given)
        is_found = words in done.stderr and done.returncode != 0 if words else done.returncode == 0
        failed += not is_found
        say('%s  %s: %s' % ('ok    ' if is_found else 'FAILED', what, words or 'nothing is found'))
        if not is_found:
            say(done.stderr[-2000:])
    say('%d passed, %d failed' % (len(FAULTY) - failed, failed))
    return 1 if failed else 0


def main():
    words = sys.argv[1:]
    if words == ['--self-test']:
        return self_test(build(True))
    if len(words) > 1 or (words and not re.fullmatch(r'\d+(\.\d+)?', words[0])):
        sys.exit(__doc__)
    return verdict(*fuzz(build(False), float(words[0]) if words else 10))


if __name__ == '__main__':
    sys.exit(main())
