"""What `make install` installs and `make dist` packs: every file with its mode, programs of users that are compiled with it, the manual pages held to
the header and to the programs, and what `make uninstall` leaves. One test a sentence; the last line is 'N passed, M failed'. Each fault is named.

Everything goes into a scratch folder. Programs of users are compiled there, by what pkg-config or CMake says and with no path of our own. All of it is
code for this machine, but for what is packed for the other one, which an emulator runs.
"""
import os
import re
import shlex
import shutil
import stat
import subprocess
import sys
import tarfile
import tempfile

from tests.help import manual, reading, report
from tools import TOP, built

# The machine that the kit runs on, and the other one that it compiles for.
HERE, OTHER = 'x86_64', 'aarch64'
# The number of each machine in the head of its code.
ELF_MACHINES = {'x86_64': 62, 'aarch64': 183}
LANGUAGES = [('gcc', 'c', 'c99'), ('g++', 'c++', 'c++98'), ('g++', 'c++', 'c++20')]
STRICT = ['-Wall', '-Wextra', '-pedantic', '-Werror', '-O2']
SAMPLES = {name: os.path.join(TOP, 'samples', name) for name in ('two-fields.grib2', 'accident.grib2', 'lambert.grib2')}
# A function, a struct or a constant of ours.
NAME = r'\b(?:skeptolyr|SKEPTOLYR)_\w+'


def octets_of(*path):
    with open(os.path.join(*path), 'rb') as file:
        return file.read()


def write(path, text):
    """Writes a file, and makes its folder."""
    os.makedirs(os.path.dirname(path), exist_ok=True)
    with open(path, 'w') as file:
        file.write(text)


# ---- the header

HEADER = manual.text_of(manual.HEADER)
VERSION = re.search(r'^#define SKEPTOLYR_VERSION "(.*)"$', HEADER, re.M).group(1)
MAJOR = VERSION.split('.')[0]
REFUSALS = manual.refusals()
# The declaration of every function that the header declares or defines.
DECLARED = re.findall(r'^(\w[\w ]*[ *](skeptolyr_\w+)\([^)]*\))(?:;|\n\{)', HEADER, re.M)
DECLARATIONS = {name: ' '.join(declaration.split()) + ';' for declaration, name in DECLARED}
STRUCTS = manual.structs()
NAMES = set(DECLARATIONS) | set(STRUCTS) | set(re.findall(r'^#define (SKEPTOLYR_\w+)[ (]', HEADER, re.M)) | {name for name, _, _, _ in REFUSALS}


def header_is_understood():
    """The header is parsed as the compiler does: as many functions and structs as it has."""
    code = re.sub(r'/\*.*?\*/', '', HEADER, flags=re.S)
    functions, structs = set(re.findall(r'(?<!enum )(?<!struct )\bskeptolyr_\w+', code)), set(re.findall(r'\bstruct (skeptolyr_\w+)', code))
    for name in sorted((functions ^ set(DECLARATIONS)) | (structs ^ set(STRUCTS))):
        yield '%s: %s' % (name, 'no declaration found' if name in functions | structs else 'no function, and no struct')


# ---- what is installed

def installed(libdir='lib'):
    """Every file that is installed, by its path, with its mode, or where the link leads."""
    library, modes = 'libskeptolyr.so.' + VERSION, {'include/skeptolyr.h': 0o644, 'bin/skeptolyr': 0o755, 'bin/skeptolyr-listing': 0o755}
    parts = ['libskeptolyr.a', library, 'pkgconfig/skeptolyr.pc', 'cmake/skeptolyr/skeptolyr-config.cmake', 'cmake/skeptolyr/skeptolyr-config-version.cmake']
    modes.update({os.path.join(libdir, part): 0o644 for part in parts})
    modes.update({os.path.join(libdir, link): library for link in ('libskeptolyr.so', 'libskeptolyr.so.' + MAJOR)})
    modes.update({os.path.join('share/doc/skeptolyr', path): 0o644 for path in ['LICENSE'] + EXAMPLES})
    modes.update({'share/man/man1/%s.1' % name: 0o644 for name in ('skeptolyr', 'skeptolyr-listing')})
    modes.update({'share/man/man3/%s.3' % name: 0o644 for name in ['skeptolyr', *DECLARATIONS]})
    return modes


EXAMPLES = sorted('examples/' + name for name in os.listdir(os.path.join(TOP, 'examples')) if name.endswith('.c'))
MODES = installed()
PAGES = [path for path in MODES if path.startswith('share/man/')]
# Files of others, in every folder that files are installed in. They are there before, and have to be there afterwards.
FOREIGN = sorted({os.path.join(os.path.dirname(path), 'of-others') for path in MODES})
# What is machine code.
CODE = ['lib/libskeptolyr.a', 'lib/libskeptolyr.so.' + VERSION, 'bin/skeptolyr', 'bin/skeptolyr-listing']


# ---- installing

def make(word, prefix, path='', **more):
    """Runs `make install`, `make uninstall` or `make dist` as a user does who shares no file with others. A path is looked at before PATH."""
    words = ['make', '-s', '-C', TOP, word, 'PREFIX=' + prefix] + ['%s=%s' % pair for pair in more.items()]
    env = bare(PATH=path + os.environ['PATH'])
    return subprocess.run(words, stdout=subprocess.PIPE, stderr=subprocess.STDOUT, text=True, env=env, umask=0o077)


def bare(**more):
    """The environment without what would lead make, pkg-config or the loader elsewhere."""
    dropped = ('PREFIX', 'DESTDIR', 'LIBDIR', 'MACHINE', 'CC', 'CFLAGS', 'LDFLAGS', 'SOURCE_DATE_EPOCH', 'LD_LIBRARY_PATH')
    kept = {name: value for name, value in os.environ.items() if not name.startswith(('PKG_CONFIG', 'CMAKE', 'MAKE', 'MFLAGS')) and name not in dropped}
    return dict(kept, **more)


def files_under(folder):
    """Every file with its mode, and every link with what it leads to."""
    found = [os.path.join(at, name) for at, folders, names in os.walk(folder) for name in folders + names]
    links = {os.path.relpath(path, folder): os.readlink(path) for path in found if os.path.islink(path)}
    files = {os.path.relpath(path, folder): stat.S_IMODE(os.lstat(path).st_mode) for path in found if not os.path.islink(path) and not os.path.isdir(path)}
    return {**files, **links}


def in_words(mode):
    return 'nothing' if mode is None else 'mode %o' % mode if isinstance(mode, int) else 'a link to ' + mode


def unlike(found, wanted):
    for path in sorted(set(found) | set(wanted)):
        if found.get(path) != wanted.get(path):
            yield '%s: expected %s, found %s' % (path, in_words(wanted.get(path)), in_words(found.get(path)))


def machine_of(octets):
    """The number of the machine that code is for: a program's, a library's, or that of the first file of an archive."""
    at = octets.index(b'\x7fELF')
    return int.from_bytes(octets[at + 18:at + 20], 'little')


def installs(scratch):
    """make install puts these files there with these modes, beside the files of others, and nothing else, and says so."""
    prefix = os.path.join(scratch, 'usr')
    for path in FOREIGN:
        write(os.path.join(prefix, path), 'of others')
    done = make('install', prefix)
    if done.returncode:
        yield done.stdout
    others = {path: mode for path, mode in files_under(prefix).items() if path in FOREIGN}
    yield from unlike(files_under(prefix), {**MODES, **others})
    said = [line for line in done.stdout.splitlines() if not re.match(r'proving and building|at least \d+ of \d+: ', line)]
    if said != ['installed Skeptolyr %s under %s' % (VERSION, prefix)]:
        yield 'it says: ' + done.stdout


def installs_again(scratch):
    """A second make install over the first leaves the same, also where a file, its mode or a link was altered."""
    prefix = os.path.join(scratch, 'usr')
    before = {path: octets_of(prefix, path) for path in MODES}
    os.remove(os.path.join(prefix, 'lib/libskeptolyr.so'))
    os.symlink('of-others', os.path.join(prefix, 'lib/libskeptolyr.so'))
    os.chmod(os.path.join(prefix, 'bin/skeptolyr-listing'), 0o600)
    write(os.path.join(prefix, 'include/skeptolyr.h'), 'of an older version')
    done = make('install', prefix)
    if done.returncode:
        yield done.stdout
    yield from unlike({path: mode for path, mode in files_under(prefix).items() if path not in FOREIGN}, MODES)
    yield from ('%s: not as before' % path for path in MODES if octets_of(prefix, path) != before[path])


def installs_what_is_built(scratch):
    """Header, licence and examples are those of the tree; the archive is the one that is tested and measured; and all code is for this machine."""
    sources = {'include/skeptolyr.h': 'include/skeptolyr.h', **{'share/doc/skeptolyr/' + path: path for path in ['LICENSE'] + EXAMPLES}}
    # tests/evidence and bench ask this archive.
    sources['lib/libskeptolyr.a'], sources['bin/skeptolyr-listing'] = built.library('skeptolyr'), built.program('listing')
    for path, source in sources.items():
        if octets_of(scratch, 'usr', path) != octets_of(TOP, source):
            yield '%s is not %s' % (path, source)
    yield from ('%s: code for another machine' % path for path in CODE if machine_of(octets_of(scratch, 'usr', path)) != ELF_MACHINES[HERE])


def nothing_old_is_taken(scratch):
    """A built file is taken as it was built of the crates as they are, and not when it, a crate, the files of a crate or crates.txt is another."""
    top = os.path.join(scratch, 'tree')
    library, source, crates = os.path.join(top, 'library.a'), os.path.join(top, 'crates', 'one', 'source'), os.path.join(top, 'crates.txt')
    for path in (library, source, crates):
        write(path, 'as it was built')
    if built.is_sealed(library, built.of_crates(top)):
        yield 'a file with no digest beside it is taken'
    write(library + '.made-of', built.seal(library, built.of_crates(top)))
    for path in (library, source, crates):
        write(path, 'as it was bent ')
        if built.is_sealed(library, built.of_crates(top)):
            yield '%s is another, and the built file is taken' % path
        write(path, 'as it was built')
    if not built.is_sealed(library, built.of_crates(top)):
        yield 'the file as it was built is not taken'
    write(source + ' two', '')
    if built.is_sealed(library, built.of_crates(top)):
        yield 'a crate has a file more, and the built file is taken'


def packages(scratch):
    """With DESTDIR, a whole path or one from here, the same files stand under it, none of which names it, in folders that everybody can enter."""
    package = os.path.join(scratch, 'package')
    done = make('install', '/usr', DESTDIR=os.path.relpath(package, TOP))
    if done.returncode:
        yield done.stdout
    yield from unlike(files_under(package), {'usr/' + path: mode for path, mode in MODES.items()})
    for path in MODES:
        as_usual = octets_of(scratch, 'usr', path).replace(os.path.join(scratch, 'usr').encode(), b'/usr')
        if octets_of(package, 'usr', path) != as_usual:
            yield '%s: not as without DESTDIR' % path
    for folder, _, _ in os.walk(package):
        if stat.S_IMODE(os.stat(folder).st_mode) != 0o755:
            yield '%s: a folder of mode %o' % (folder, stat.S_IMODE(os.stat(folder).st_mode))
    done = make('uninstall', '/usr', DESTDIR=package)
    if done.returncode or files_under(package):
        yield 'make uninstall: %s, and %s are left' % (done.stdout, sorted(files_under(package)))


def libraries_elsewhere(scratch):
    """With LIBDIR, a path from PREFIX on or a whole one, the libraries stand there, pkg-config and CMake find them, and make uninstall removes them."""
    prefix, libdir = os.path.join(scratch, 'elsewhere'), 'lib/%s-linux-gnu' % HERE
    for given in (libdir, os.path.join(prefix, libdir)):
        done = make('install', prefix, LIBDIR=given)
        if done.returncode:
            yield done.stdout
        yield from unlike(files_under(prefix), installed(libdir))
        if given == libdir:
            yield from linked(prefix, os.path.join(scratch, 'linked elsewhere'), *LANGUAGES[0], libdir=libdir)
            yield from built_by_cmake(prefix, os.path.join(scratch, 'by CMake elsewhere'))
        make('uninstall', prefix, LIBDIR=given)
        if files_under(prefix):
            yield 'LIBDIR=%s: make uninstall leaves %s' % (given, sorted(files_under(prefix)))


def tells_the_loader(scratch):
    """Where the loader's list has the folder of the libraries, it is made anew when they are installed and when they are removed, and elsewhere not."""
    prefix, fake, log = (os.path.join(scratch, name) for name in ('loaded', 'fake', 'ldconfig.log'))
    write(os.path.join(fake, 'ldconfig'), '#!/bin/sh\n[ "$#" -gt 0 ] && echo "%s/lib: (from a list:1)" || echo "made anew" >>%s\n' % (prefix, log))
    os.chmod(os.path.join(fake, 'ldconfig'), 0o755)
    for word, where, wanted in (('uninstall', scratch + '/nowhere', ''), ('install', prefix, 'made anew\n'), ('uninstall', prefix, 'made anew\n' * 2)):
        done = make(word, where, path=fake + ':')
        told = manual.text_of(log) if os.path.exists(log) else ''
        if done.returncode or told != wanted:
            yield '%s in %s: ended with %d, and the list was %r: %s' % (word, where, done.returncode, told, done.stdout)


def refuses_aloud(scratch):
    """A PREFIX, a LIBDIR or a MACHINE that will not do is refused with what to do, and nothing is written."""
    write(os.path.join(scratch, 'file'), 'no folder')
    refusals = [(scratch + '/a' + sign, {}, 'choose another') for sign in '"\'`\\()#:\n']
    refusals += [('folder/usr', {}, 'not a whole path'), (scratch + '/file/usr', {}, 'cannot be written to')]
    refusals += [(scratch + '/a', {'LIBDIR': libdir}, 'a path from PREFIX on') for libdir in ('/lib', '../lib', 'lib/../../b', scratch + '/ab/lib', 'lib 64')]
    refusals += [(scratch + '/a', {'MACHINE': 'vax'}, 'x86_64 or aarch64')]
    for prefix, more, words in refusals:
        before = files_under(scratch)
        done = make('install', prefix.replace('#', '\\#'), **more)
        if not done.returncode or words not in done.stdout:
            yield 'PREFIX=%s, %s: ended with %d: %s' % (prefix, more, done.returncode, done.stdout)
        if files_under(scratch) != before or os.path.exists(os.path.join(TOP, 'folder')):
            yield 'PREFIX=%s, %s: something was written' % (prefix, more)


# ---- programs of users

def from_pkg_config(prefix, *words, libdir='lib'):
    """What pkg-config says, cut into words as a shell cuts them."""
    where = bare(PKG_CONFIG_PATH=os.path.join(prefix, libdir, 'pkgconfig'))
    said = subprocess.run(['pkg-config', *words, 'skeptolyr'], stdout=subprocess.PIPE, text=True, env=where)
    return shlex.split(said.stdout) if said.returncode == 0 else []


def archive_of(prefix, libdir='lib'):
    """The archive, as pkg-config tells it: a path, which may have spaces."""
    where = bare(PKG_CONFIG_PATH=os.path.join(prefix, libdir, 'pkgconfig'))
    said = subprocess.run(['pkg-config', '--variable=archive', 'skeptolyr'], stdout=subprocess.PIPE, text=True, env=where)
    return [said.stdout.rstrip('\n').replace('\\ ', ' ')]


def compiled(prefix, folder, source, compiler, language, standard, libdir='lib', shared=True):
    """A program of a user, compiled in a folder of its own with the shared library or the archive. The answer is its path, or None and what was said."""
    write(os.path.join(folder, 'source'), source)
    words = [compiler, '-std=' + standard, *STRICT, '-x', language, 'source', '-x', 'none', *from_pkg_config(prefix, '--cflags', libdir=libdir)]
    words += from_pkg_config(prefix, '--libs', libdir=libdir) if shared else archive_of(prefix, libdir)
    done = subprocess.run([*words, '-o', 'program'], cwd=folder, stdout=subprocess.PIPE, stderr=subprocess.STDOUT, text=True)
    return (os.path.join(folder, 'program'), '') if done.returncode == 0 else (None, done.stdout)


def asked(command, sample, **more):
    """What a command writes about a sample on its standard input: exit status, standard output, standard error."""
    with open(SAMPLES[sample], 'rb') as file:
        done = subprocess.run(command, stdin=file, stdout=subprocess.PIPE, stderr=subprocess.PIPE, text=True, env=bare(**more))
    return done.returncode, done.stdout, done.stderr


def points(sample, k, joined, shown):
    """The points of a field as the independent reading has them, each shown by its number and its value or none."""
    _, present, _, values = reading.decode(octets_of(SAMPLES[sample]), k, 0, 16, 16)
    words = ['%.17g' % value if bit == '1' else 'missing' for bit, value in zip(present, values)]
    return joined.join(shown % {'n': n, 'is': word} for n, word in enumerate(words))


def answers(command, **more):
    """Compares what tests/help/linked.c prints of both samples."""
    two = ['1 messages, 2 fields'] + ['4 points: ' + points('two-fields.grib2', k, ' ', '%(is)s') for k in (0, 1)] + [manual.refused(8, 0)]
    for sample, lines in [('two-fields.grib2', two), ('accident.grib2', [manual.refused(7, 0)])]:
        wanted, got = (0, '\n'.join(['Skeptolyr ' + VERSION] + lines) + '\n', ''), asked(command, sample, **more)
        if got != wanted:
            yield '%s, %s: expected %s, got %s' % (command, sample, wanted, got)


def linked(prefix, folder, *language, libdir='lib', kinds=(True, False)):
    """Compiles tests/help/linked.c with an installation, with the shared library and with the archive, which the program does not need to find."""
    for shared in kinds:
        program, said = compiled(prefix, folder, octets_of(TOP, 'tests', 'help', 'linked.c').decode(), *language, libdir=libdir, shared=shared)
        if not program:
            yield '%s: %s' % (language, said)
            continue
        if ('libskeptolyr.so.' + MAJOR in needed(program)) != shared:
            yield '%s: it needs %s' % (language, needed(program))
        yield from answers([program], **({'LD_LIBRARY_PATH': os.path.join(prefix, libdir)} if shared else {}))


def links(scratch):
    """A user's program compiles as C and C++ with what pkg-config says alone, with the shared library and with the archive, and prints what samples hold."""
    for language in LANGUAGES:
        yield from linked(os.path.join(scratch, 'usr'), os.path.join(scratch, 'linked as ' + language[2]), *language)


def links_from_a_path_with_spaces(scratch):
    """So it does where PREFIX has spaces in it."""
    prefix = os.path.join(scratch, 'a path  with spaces')
    done = make('install', prefix)
    if done.returncode:
        yield done.stdout
    yield from linked(prefix, os.path.join(scratch, 'linked from spaces'), *LANGUAGES[0])
    make('uninstall', prefix)
    if files_under(prefix):
        yield 'make uninstall leaves %s' % sorted(files_under(prefix))


# ---- the shared library

def dynamic(path):
    """What a program or a library says to the loader: a list of (kind, value)."""
    said = subprocess.run(['readelf', '--wide', '--dynamic', path], stdout=subprocess.PIPE, text=True, check=True, env=bare(LC_ALL='C'))
    return re.findall(r'\((\w+)\) +(?:.*\[(.*)\]|.*)$', said.stdout, re.M)


def needed(path):
    return [value for kind, value in dynamic(path) if kind == 'NEEDED']


def shared_library(scratch):
    """The shared library has its name and the version's first number, exports the header's functions that are not inline, and needs nothing at all."""
    library = os.path.join(scratch, 'usr', 'lib', 'libskeptolyr.so')
    said = dict(dynamic(library))
    if said.get('SONAME') != 'libskeptolyr.so.' + MAJOR:
        yield 'its name is %s' % said.get('SONAME')
    yield from ('it has %s' % kind for kind in ('NEEDED', 'TEXTREL', 'RPATH', 'RUNPATH') if kind in said)
    symbols = subprocess.run(['nm', '--dynamic', library], stdout=subprocess.PIPE, text=True, check=True).stdout.split('\n')[:-1]
    wanted = sorted(name for name, declared in DECLARATIONS.items() if not declared.startswith('static '))
    if sorted(line.split(' ', 1)[1] for line in symbols) != ['T ' + name for name in wanted]:
        yield 'expected %s, found %s' % (wanted, symbols)
    if 'RWE' in subprocess.run(['readelf', '--wide', '--segments', library], stdout=subprocess.PIPE, text=True, check=True).stdout:
        yield 'its stack can be executed'


def archive_calls_memset(scratch):
    """The archive asks nothing outside itself but memset, and everybody sees of it the header's functions that are not inline alone."""
    archive = os.path.join(scratch, 'usr', 'lib', 'libskeptolyr.a')
    symbols = subprocess.run(['nm', archive], stdout=subprocess.PIPE, text=True, check=True).stdout
    asked = sorted(re.findall(r'^ +[Uw] (\S+)$', symbols, re.M))
    if asked != ['memset']:
        yield 'it asks for %s' % asked
    seen = sorted(re.findall(r'^[0-9a-f]+ [A-TV-Z] (\S+)$', symbols, re.M))
    if seen != sorted(name for name, declared in DECLARATIONS.items() if not declared.startswith('static ')):
        yield 'everybody sees %s' % seen


# ---- CMake

PROJECT = '''cmake_minimum_required(VERSION 3.13)
project(user C)
find_package(skeptolyr %s REQUIRED)
add_executable(with_shared user.c)
target_link_libraries(with_shared PRIVATE skeptolyr::skeptolyr)
add_executable(with_archive user.c)
target_link_libraries(with_archive PRIVATE skeptolyr::static)
'''
# Prints the size of the grid of the first field on standard input, where its last point lies, in degrees or in kilometres, and the value of its first.
USER = r'''#include <skeptolyr.h>
#include <stdio.h>

static uint8_t file[65536];

int main(void)
{
    struct skeptolyr_field field;
    struct skeptolyr_position position;
    struct skeptolyr_sheet_place place;
    double value;
    size_t file_len = fread(file, 1, sizeof file, stdin);
    if (skeptolyr_is_refusal(skeptolyr_describe_field(file, file_len, 0, &field)))
        return 1;
    if (!skeptolyr_is_refusal(skeptolyr_place_point(file, file_len, 0, (size_t)field.points - 1, &position)))
        printf("%d x %d, %.2f %.2f\n", (int)field.ni, (int)field.nj, (double)position.latitude / 1e6, (double)position.longitude / 1e6);
    if (!skeptolyr_is_refusal(skeptolyr_sheet_point(file, file_len, 0, (size_t)field.points - 1, &place)))
        printf("%d x %d, %.0f km and %.0f km\n", (int)field.ni, (int)field.nj, (double)place.right / 1e6, (double)place.down / 1e6);
    if (skeptolyr_point(file, file_len, 0, 0, &value, 1) == 1)
        printf("%.2f\n", value);
    return 0;
}
'''
PRINTED = {'two-fields.grib2': (0, '2 x 2, 35.00 136.00\n291.20\n', ''), 'lambert.grib2': (0, '82 x 67, 4050 km and 3300 km\n263.41\n', '')}


def cmake(prefix, folder, version):
    """Has CMake look for a version, and make what it takes to compile. The answer is the exit status and what is said."""
    write(os.path.join(folder, 'CMakeLists.txt'), PROJECT % version)
    write(os.path.join(folder, 'user.c'), USER)
    words = ['cmake', '-S', folder, '-B', os.path.join(folder, 'made'), '-DCMAKE_PREFIX_PATH=' + prefix, '-DCMAKE_BUILD_TYPE=Release']
    done = subprocess.run(words, stdout=subprocess.PIPE, stderr=subprocess.STDOUT, text=True, env=bare())
    return done.returncode, done.stdout


def built_by_cmake(prefix, folder):
    """Compiles a program of four functions by CMake, with the shared library and with the archive, and runs it. CMake notes where the shared library is."""
    status, said = cmake(prefix, folder, VERSION)
    done = subprocess.run(['cmake', '--build', os.path.join(folder, 'made')], stdout=subprocess.PIPE, stderr=subprocess.STDOUT, text=True, env=bare())
    if status or done.returncode:
        yield said + done.stdout
        return
    for name in ('with_shared', 'with_archive'):
        program = os.path.join(folder, 'made', name)
        for sample, wanted in PRINTED.items():
            if asked([program], sample) != wanted:
                yield '%s: expected %s, got %s' % (name, wanted, asked([program], sample))
        if ('libskeptolyr.so.' + MAJOR in needed(program)) != (name == 'with_shared'):
            yield '%s: it needs %s' % (name, needed(program))


def cmake_finds(scratch):
    """A CMake project finds the package, and builds and runs with the shared library and with the archive; a version that will not do is not found."""
    prefix, folder = os.path.join(scratch, 'usr'), os.path.join(scratch, 'by CMake')
    yield from built_by_cmake(prefix, folder)
    newer = VERSION.split('.')[0] + '.%d' % (int(VERSION.split('.')[1]) + 1)
    for version, found in ((MAJOR, True), (newer, False), ('%d' % (int(MAJOR) + 1), False), (MAJOR + '.0', True)):
        status, said = cmake(prefix, folder, version)
        if (status == 0) != found:
            yield 'version %s: ended with %d: %s' % (version, status, said)


# ---- the installed programs

def programs_run(scratch):
    """The installed programs answer as their pages say: listing on samples, skeptolyr with values, a point, pictures, a refusal, wrong words, and no file."""
    programs, picture, greys = os.path.join(scratch, 'usr', 'bin'), os.path.join(scratch, 'picture.png'), os.path.join(scratch, 'picture.pgm')
    for sample in SAMPLES:
        wanted, got = (0, reading.listing(octets_of(SAMPLES[sample])), ''), asked([os.path.join(programs, 'skeptolyr-listing')], sample)
        if got != wanted:
            yield 'skeptolyr-listing, %s: expected %s, got %s' % (sample, wanted, got)
    program, two, accident = os.path.join(programs, 'skeptolyr'), SAMPLES['two-fields.grib2'], SAMPLES['accident.grib2']
    for words, status, start in [(['--version'], 0, 'skeptolyr %s\n' % VERSION), (['check', two], 0, two + ': 1 message, 2 fields'),
                                 (['check', accident], 1, 'skeptolyr: %s: %s' % (accident, manual.refused(7, 0))), (['chekc', two], 2, 'skeptolyr: '),
                                 (['check', os.path.join(scratch, 'not there')], 3, 'skeptolyr: '), (['draw', two, '1', picture], 0, ''),
                                 (['pgm', two, '1', greys], 0, greys + ': 2 x 2 points, 2 missing\n'),
                                 (['point', two, '0', '35', '134.9'], 0, 'point 2 latitude 35.000000 longitude 135.000000 value 274.80000000000001 distance_km ')]:
        ended, out, said = asked([program, *words], 'two-fields.grib2')
        if ended != status or not (said if status else out).startswith(start):
            yield 'skeptolyr %s: ended with %d: %s' % (' '.join(words), ended, out + said)
    _, out, _ = asked([program, 'values', '-', '0'], 'two-fields.grib2')
    if ' '.join(line.split()[-1] for line in out.splitlines()[1:]) != points('two-fields.grib2', 0, ' ', '%(is)s'):
        yield 'skeptolyr values: ' + out
    if not os.path.exists(picture) or not octets_of(picture).startswith(b'\x89PNG\r\n\x1a\n'):
        yield 'skeptolyr draw: no picture'
    # The integers of the field are 5 and 7, and 254 x 5 div 7 is 181.
    if not os.path.exists(greys) or octets_of(greys) != b'P5\n2 2\n255\n\xb6\0\xff\0':
        yield 'skeptolyr pgm: no picture'


def examples_compile(scratch):
    """Every example compiles where it was installed, as a copy of a user does, with what pkg-config says alone."""
    prefix = os.path.join(scratch, 'usr')
    for path in EXAMPLES:
        source = octets_of(prefix, 'share/doc/skeptolyr', path).decode()
        program, said = compiled(prefix, os.path.join(scratch, 'example of ' + os.path.basename(path)), source, 'gcc', 'c', 'gnu99', shared=False)
        if not program:
            yield '%s: %s' % (path, said)


# ---- what make dist packs

PACKED = os.path.join(TOP, 'target', 'dist', 'skeptolyr-' + VERSION + '-linux-%s.tar.gz')


def packed(machine=HERE, **more):
    """Runs make dist. The answer is the path of what it packs, or None where it has failed, and what it says."""
    done = make('dist', '/usr', MACHINE=machine, **more)
    return (PACKED % machine if done.returncode == 0 else None), done.stdout


def unpacked(path, folder):
    """Unpacks, and answers the one folder that was packed."""
    os.makedirs(folder)
    subprocess.run(['tar', '-xzpf', path, '-C', folder], check=True)
    return os.path.join(folder, os.path.basename(path)[:-len('.tar.gz')])


def packs(scratch):
    """make dist packs what make install installs, with what to do; unpacked elsewhere, the programs run, and pkg-config and CMake find the library."""
    path, said = packed()
    if not path:
        yield said
        return
    there = unpacked(path, os.path.join(scratch, 'unpacked in a path  with spaces'))
    yield from unlike(files_under(there), {**MODES, 'INSTALL.txt': 0o644})
    differing = [name for name, mode in MODES.items() if isinstance(mode, int) and octets_of(there, name) != octets_of(scratch, 'usr', name)]
    if differing != ['lib/pkgconfig/skeptolyr.pc']:
        yield 'not as installed: %s' % differing
    yield from linked(there, os.path.join(scratch, 'linked with unpacked'), *LANGUAGES[0])
    yield from built_by_cmake(there, os.path.join(scratch, 'by CMake with unpacked'))
    ended, out, said = asked([os.path.join(there, 'bin', 'skeptolyr'), 'check', '-'], 'two-fields.grib2')
    if ended or '1 message, 2 fields' not in out:
        yield 'skeptolyr: ended with %d: %s' % (ended, out + said)
    if '@' in manual.text_of(os.path.join(there, 'INSTALL.txt')):
        yield manual.text_of(os.path.join(there, 'INSTALL.txt'))


def packs_the_same_again(scratch):
    """Two who pack the same commit have the same octets, in which everything is root's and as old as the commit."""
    first = octets_of(PACKED % HERE)
    path, said = packed(TZ='Asia/Tokyo', TMPDIR=scratch)
    if not path or octets_of(path) != first:
        yield 'not the same octets: ' + said
    commit = subprocess.run(['git', 'log', '-1', '--format=%ct'], cwd=TOP, stdout=subprocess.PIPE, text=True, check=True).stdout.strip()
    with tarfile.open(PACKED % HERE) as tar:
        yield from (member.name for member in tar if (member.uid, member.gid, str(int(member.mtime))) != (0, 0, commit))


def emulated(program, library):
    """The command by which an emulator runs a program for the other machine, with Debian's C library for that machine."""
    return ['qemu-aarch64', '-L', '/usr/%s-linux-gnu' % OTHER, '-E', 'LD_LIBRARY_PATH=' + library, program]


def packs_for_the_other_machine(scratch):
    """make dist MACHINE=.. packs the same for the other machine, and says so; under emulation its programs answer, and so does one linked with it."""
    if not (shutil.which('aarch64-linux-gnu-gcc') and shutil.which('qemu-aarch64')):
        raise report.Skipped('what is packed for Arm', "Debian's cross compiler for Arm, or its emulator, could not be installed")
    path, said = packed(OTHER)
    if not path or 'what is made is code for ' + OTHER not in said:
        yield said
        return
    there, program = unpacked(path, os.path.join(scratch, 'unpacked for the other')), os.path.join(scratch, 'for the other')
    yield from unlike(files_under(there), {**MODES, 'INSTALL.txt': 0o644})
    yield from ('%s: code for another machine' % name for name in CODE if machine_of(octets_of(there, name)) != ELF_MACHINES[OTHER])
    flags, library = from_pkg_config(there, '--cflags', '--libs'), os.path.join(there, 'lib')
    subprocess.run([OTHER + '-linux-gnu-gcc', *STRICT, os.path.join(TOP, 'tests', 'help', 'linked.c'), *flags, '-o', program], check=True)
    yield from answers(emulated(program, library))
    for sample in SAMPLES:
        wanted, got = (0, reading.listing(octets_of(SAMPLES[sample])), ''), asked(emulated(os.path.join(there, 'bin', 'skeptolyr-listing'), library), sample)
        if got != wanted:
            yield 'skeptolyr-listing, %s: expected %s, got %s' % (sample, wanted, got)
    here, there = (asked([*command, 'values', '-', '1'], 'two-fields.grib2') for command in (
        [os.path.join(scratch, 'usr', 'bin', 'skeptolyr')], emulated(os.path.join(there, 'bin', 'skeptolyr'), library)))
    if here != there or here[0]:
        yield 'skeptolyr values: here %s, and there %s' % (here, there)


# ---- the manual

def rendered(prefix, page, device, *more):
    """A page as groff shows it, with nothing struck over, and groff's warnings."""
    manual = os.path.join(prefix, 'share', 'man')
    done = subprocess.run(['groff', '-man', '-ww', '-T' + device, '-P-cbou', '-I' + manual, *more, os.path.join(prefix, page)], capture_output=True)
    if done.returncode:
        raise OSError('%s cannot be shown: %s' % (page, done.stderr.decode()))
    return done.stdout.decode(), done.stderr.decode()


def in_long_lines(scratch, page):
    """A page in plain letters and in lines that never end before their paragraph: its body, and its foot."""
    _, *body, foot = rendered(os.path.join(scratch, 'usr'), page, 'ascii', '-rLL=2000n', '-rHY=0')[0].strip().split('\n')
    return '\n'.join(body), foot


def part(text, title):
    """What stands under a title of a page."""
    found = re.search(r'^%s\n(.*?)(?=^\S|\Z)' % title, text, re.M | re.S)
    return found.group(1) if found else ''


def pages_render(scratch):
    """Every page is shown without a warning from groff, with all of its parts, and with no name cut at the end of a line."""
    for page in PAGES:
        text, warnings = rendered(os.path.join(scratch, 'usr'), page, 'utf8')
        yield from ('%s: %s' % (page, line) for line in warnings.splitlines())
        if len(re.findall(NAME, '\n'.join(text.strip().split('\n')[1:-1]))) != len(re.findall(NAME, in_long_lines(scratch, page)[0])) or '_\n' in text:
            yield '%s: a name is cut at the end of a line' % page
        wanted = ['NAME', 'SYNOPSIS', 'DESCRIPTION', 'EXAMPLES', 'SEE ALSO', 'EXIT STATUS' if page.endswith('.1') else 'RETURN VALUE']
        yield from ('%s: no %s' % (page, title) for title in wanted if not re.search('^%s$' % title, text, re.M))


def version_is_that_of_the_header(scratch):
    """pkg-config and the foot of every page tell the version that the header has."""
    prefix = os.path.join(scratch, 'usr')
    if from_pkg_config(prefix, '--modversion') != [VERSION]:
        yield 'pkg-config says %s, and the header %s' % (from_pkg_config(prefix, '--modversion'), VERSION)
    for page in PAGES:
        _, foot = in_long_lines(scratch, page)
        if not re.match(r'Skeptolyr %s\s' % re.escape(VERSION), foot) or '@' in octets_of(prefix, page).decode():
            yield '%s: %s' % (page, foot)


def synopses_are_those_of_the_header(scratch):
    """Every function of the header has a page of its name, whose synopsis has the very declaration; and no synopsis has another."""
    for name in DECLARATIONS:
        page = 'share/man/man3/%s.3' % name
        if page not in PAGES:
            yield '%s has no page' % name
            continue
        text, _ = in_long_lines(scratch, page)
        declared = re.sub(r'\s+', ' ', part(text, 'SYNOPSIS')).strip()
        found = [words.strip() + ';' for words in declared.replace('#include <skeptolyr.h>', '').split(';')[:-1]]
        if DECLARATIONS[name] not in found:
            yield '%s: expected %s, found %s' % (page, DECLARATIONS[name], declared)
        yield from ('%s: the header has no %s' % (page, words) for words in found if words not in DECLARATIONS.values())
        if name not in re.split(r'[\s,]+', part(text, 'NAME')):
            yield '%s: not under NAME' % page


def pages_name_what_is_there(scratch):
    """Every function, constant and page that a page names exists."""
    for page in PAGES:
        text, _ = in_long_lines(scratch, page)
        yield from ('%s: no %s' % (page, name) for name in sorted(set(re.findall(NAME, text)) - NAMES))
        for name, section in sorted(set(re.findall(r'\b(skeptolyr[\w-]*)\((\d)\)', text))):
            if 'share/man/man%s/%s.%s' % (section, name, section) not in PAGES:
                yield '%s: no page %s(%s)' % (page, name, section)


def comments_are_told(scratch):
    """Every sentence of the header's comments on what it declares stands in a page of section 3, word for word, and the code that it shows too."""
    pages = [in_long_lines(scratch, page)[0] for page in PAGES if page.endswith('.3')]
    shown = ' '.join(' '.join(pages).replace('(3)', '').split())
    found = 0
    for comment in re.findall(r'^/\* (?!----)(.*?)\*/', HEADER, re.M | re.S):
        plain = re.sub(r'(?m)^ \* ?', '', comment).replace('`', '')
        for part in re.split(r'\n\s*\n|\n(?= +- |Takes |Returns |Never )', plain):
            words = ' '.join(re.sub(r'\A\s*(- |---- |Takes |Returns |Never )', '', part).split())
            found += len(words.split())
            yield from ('not told: ' + sentence for sentence in re.split(r'(?<=[.:?;]) ', words) if sentence not in shown)
    if found < 500:
        yield 'only %d words of comments were found' % found


def refusals_are_those_of_the_header(scratch):
    """skeptolyr.3 lists every refusal with the number, the place and the sentence that the header gives it, in its order, and no other."""
    text = part(in_long_lines(scratch, 'share/man/man3/skeptolyr.3')[0], 'ERRORS')
    listed = re.findall(r'^ +(SKEPTOLYR_\w+) \((\d+)\), place: (.*)\n +(.*)$', text, re.M)
    listed = [(name, int(number), place, re.sub(r'\s+', ' ', sentence)) for name, number, place, sentence in listed]
    for wanted, found in zip(REFUSALS + [None] * len(listed), listed + [None] * len(REFUSALS)):
        if wanted != found:
            yield 'expected %s, found %s' % (wanted, found)


def size(kind):
    """How many numbers a type of a struct's member holds."""
    return sum(size(inner) for inner, _, _ in STRUCTS[kind]) if kind in STRUCTS else 1


def members_with_places(name, first):
    """The members of a struct whose numbers start at a place: what a page says of each, its name with its places, and its comment."""
    place, found = first, []
    for kind, member, comment in STRUCTS[name]:
        last = place + size(kind) - 1
        found.append(('%s (%d)' % (member, place) if last == place else '%s (%d to %d)' % (member, place, last), comment.replace('`', '')))
        place = last + 1
    return found


def constant(name):
    return int(re.search(r'^#define %s (\d+)$' % name, HEADER, re.M).group(1))


def members_are_told(scratch):
    """skeptolyr_describe.3 tells every member of a field and of a Lambert grid with comment and place, as many as the header says; pages have all others."""
    text, sheet = (in_long_lines(scratch, 'share/man/man3/skeptolyr_%s.3' % name)[0].replace('(3)', '') for name in ('describe', 'sheet'))
    shown, of_lambert = ' '.join(text.split()), size('skeptolyr_field') - size('skeptolyr_lambert')
    for head, comment in members_with_places('skeptolyr_field', 0) + members_with_places('skeptolyr_lambert', of_lambert):
        if head not in shown or comment not in shown:
            yield 'not told: %s, %s' % (head, comment)
    # The numbers of a grid in degrees end before its template, which a Lambert grid has too.
    if size('skeptolyr_field') != constant('SKEPTOLYR_DESCRIPTION_LAMBERT') or of_lambert - 1 != constant('SKEPTOLYR_DESCRIPTION'):
        yield 'the members are %d numbers, %d of them before those of a Lambert grid' % (size('skeptolyr_field'), of_lambert)
    for name in sorted(set(STRUCTS) - {'skeptolyr_field', 'skeptolyr_lambert'}):
        told = re.search(r'^ +struct %s\n +(.*)$' % name, text + '\n' + sheet, re.M)
        yield from ('struct %s: no %s' % (name, member) for _, member, _ in STRUCTS[name] if not told or not re.search(r'\b%s\b' % member, told.group(1)))


def example_in_the_manual(scratch):
    """The program in skeptolyr_decode.3, as it is shown, compiles and prints the first field of a sample, or why it is refused."""
    prefix = os.path.join(scratch, 'usr')
    shown, _ = rendered(prefix, 'share/man/man3/skeptolyr_decode.3', 'utf8')
    source = re.search(r'^ *#include <skeptolyr\.h>\n *#include <stdio.*?^ {7}\}$', shown, re.M | re.S)
    if not source:
        yield 'no program is shown'
        return
    program, said = compiled(prefix, os.path.join(scratch, 'example'), source.group() + '\n', *LANGUAGES[0], shared=False)
    if not program:
        yield said
        return
    field = points('two-fields.grib2', 0, '', '%(n)d %(is)s\n')
    for sample, wanted in [('two-fields.grib2', (0, field, '')), ('accident.grib2', (1, '', manual.refused(7, 0) + '\n'))]:
        if asked([program], sample) != wanted:
            yield '%s: expected %s, got %s' % (sample, wanted, asked([program], sample))


def subcommands_are_those_of_the_program(scratch):
    """skeptolyr.1 has the subcommands that `skeptolyr --help` lists, in their order and no other, each with the words that its own help says it takes."""
    program, text = os.path.join(scratch, 'usr', 'bin', 'skeptolyr'), in_long_lines(scratch, 'share/man/man1/skeptolyr.1')[0]
    said = asked([program, '--help'], 'two-fields.grib2')[1]
    listed = re.findall(r'^  (\w+) +\S', said, re.M)
    told = re.findall(r'^ {7}(\w+)\b', part(text, 'SUBCOMMANDS'), re.M)
    if not listed or listed != told:
        yield 'the program lists %s, and the page %s' % (listed, told)
    for name in listed:
        usage = re.match(r'usage: (.*)\n', asked([program, name, '--help'], 'two-fields.grib2')[1])
        if not usage or usage.group(1).lower() not in map(str.strip, part(text, 'SYNOPSIS').split('\n')):
            yield '%s: its help says %r, and the page %s' % (name, usage and usage.group(1), part(text, 'SYNOPSIS'))


def commands_shown(text):
    """The commands that a page shows under EXAMPLES, each with what it shows of the answer."""
    lines = part(text, 'EXAMPLES').split('\n')
    code = '\n'.join(line.strip() if line.startswith(' ' * 11) else '' if not line.strip() else '.' for line in lines) + '\n.'
    return re.findall(r'^\$ (.*)\n((?:(?!\.$|\$ ).*\n)*)', code, re.M)


def pages_show_what_programs_print(scratch):
    """The pages of the programs show what is printed of samples, word for word; three dots stand for what is left out."""
    folder, programs = os.path.join(scratch, 'samples'), os.path.join(scratch, 'usr', 'bin')
    shutil.copytree(os.path.join(TOP, 'samples'), folder)
    for name, least in (('skeptolyr', 13), ('skeptolyr-listing', 2)):
        commands = commands_shown(in_long_lines(scratch, 'share/man/man1/%s.1' % name)[0])
        if len(commands) < least:
            yield '%s.1 shows %d commands' % (name, len(commands))
        for command, shown in commands:
            env = bare(PATH=programs + ':' + os.environ['PATH'])
            done = subprocess.run(command, shell=True, cwd=folder, env=env, stdout=subprocess.PIPE, stderr=subprocess.STDOUT, text=True)
            wanted = ' ?.* ?'.join(re.escape(' '.join(words.split())) for words in shown.split('...'))
            status = 1 if name == 'skeptolyr' and 'refused' in shown else 0
            if not re.fullmatch(wanted, ' '.join(done.stdout.split())) or done.returncode != status:
                yield '%s.1 shows of `%s`: %s\nand what is printed, with status %d, is: %s' % (name, command, shown, done.returncode, done.stdout)


# ---- uninstalling

def uninstalls(scratch):
    """make uninstall removes every file that was installed, and none of others; once more, it has nothing to do and says nothing of it."""
    prefix = os.path.join(scratch, 'usr')
    for turn in ('first', 'second'):
        done = make('uninstall', prefix)
        if done.returncode or len(done.stdout.splitlines()) != 1:
            yield 'the %s time it ended with %d: %s' % (turn, done.returncode, done.stdout)
        if sorted(files_under(prefix)) != FOREIGN:
            yield 'the %s time there are left: %s' % (turn, sorted(files_under(prefix)))


TESTS = [
    installs, installs_again, installs_what_is_built, nothing_old_is_taken, packages, libraries_elsewhere, tells_the_loader, refuses_aloud,
    links, links_from_a_path_with_spaces, shared_library, archive_calls_memset, cmake_finds, programs_run, examples_compile, packs, packs_the_same_again,
    packs_for_the_other_machine, pages_render, version_is_that_of_the_header, synopses_are_those_of_the_header, pages_name_what_is_there,
    comments_are_told, members_are_told, refusals_are_those_of_the_header, example_in_the_manual, subcommands_are_those_of_the_program,
    pages_show_what_programs_print, uninstalls]


def main():
    with tempfile.TemporaryDirectory() as scratch:
        return report.ended([report.tried(header_is_understood)] + [report.tried(test, scratch) for test in TESTS])


if __name__ == '__main__':
    sys.exit(main())
