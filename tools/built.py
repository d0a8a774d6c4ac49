"""What is built of proved crates for others to use: the archive of a library, target/staticlib/libNAME.a, and a program, target/bin/NAME.

The archive of the library NAME is that of the crate NAME_c, which exports the functions of the crate NAME to C.

Beside each stands a file .made-of, with a digest of the kit, of every file of every crate, and of the built file itself. Where it still holds, rt
would prove nothing and build the same again, and is not run. Where anything is another, the built file too, rt decides what is to be done.

What is compiled stands on the libraries that were built of proved crates, crates/NAME/out/rlib. They are taken as `rt lib` or `rt ci` has left them, for
as long as they and the crates stay the same: target/proved/NAME has a digest of what is below the crate NAME.

  python3 -m tools.built library NAME    prove a library unless its archive is of these very files, and print the archive's path
  python3 -m tools.built program NAME    prove, build and try a program unless it is of these very files, and print its path
"""
import hashlib
import os
import re
import shutil
import subprocess
import sys

from tools import TOP, kit


def of_crates(top=TOP):
    """A number that depends on the kit and on every file of every crate, but for what rt has made of them, in the folder out/ of each."""
    files = []
    for folder, folders, names in os.walk(os.path.join(top, 'crates')):
        if os.path.dirname(folder) == os.path.join(top, 'crates') and 'out' in folders:
            folders.remove('out')
        files += [os.path.join(folder, name) for name in names]
    total = hashlib.sha256(subprocess.run(['rt', 'version'], stdout=subprocess.PIPE, check=True).stdout)
    for path in sorted(files) + [os.path.join(top, 'crates.txt')]:
        with open(path, 'rb') as file:
            octets = file.read()
        total.update(b'%s\0%d\0%s' % (os.path.relpath(path, top).encode(), len(octets), octets))
    return total.hexdigest()


def seal(built, crates):
    """What is written beside a built file: a number that depends on it, and on what it was built of."""
    with open(built, 'rb') as file:
        return hashlib.sha256(crates.encode() + file.read()).hexdigest()


def is_sealed(built, crates):
    """Is there such a file, built of these crates, and not altered since?"""
    if not os.path.exists(built) or not os.path.exists(built + '.made-of'):
        return False
    with open(built + '.made-of', encoding='ascii') as made_of:
        return made_of.read() == seal(built, crates)


def put(path, text):
    """Writes a small file, and makes its folder."""
    os.makedirs(os.path.dirname(path), exist_ok=True)
    with open(path, 'w', encoding='ascii') as file:
        file.write(text)


# ---- the crates, and the libraries that were built of them

def lines():
    """The crates of crates.txt, each with its kind, which is empty or staticlib, and with what it stands on."""
    with open(os.path.join(TOP, 'crates.txt'), encoding='utf-8') as text:
        return {name: (kind, words.split()) for name, kind, words in re.findall(r'^(\w+)(?: +(staticlib))? *:([^#\n]*)', text.read(), re.M)}


def under(crate):
    """A crate and all of ours that it stands on."""
    stands_on = {name: words for name, (_, words) in lines().items()}
    found = [crate]
    for name in found:
        found += [word for word in stands_on[name] if word in stands_on and word not in found]
    return found


def folder_of(crate):
    return os.path.join(TOP, 'crates', crate)


def is_program(crate):
    return os.path.exists(os.path.join(folder_of(crate), 'src', 'main.rt'))


def library_of(crate):
    """The folder of the library that was built of a crate."""
    return os.path.join(folder_of(crate), 'out', 'rlib', crate + '.rlib')


def are_built():
    """Is there any library that was built of a crate?"""
    return any(os.path.exists(os.path.dirname(library_of(crate))) for crate in lines())


def mark(crate):
    """A number that depends on the crates, and on each library below one as it was built, or None where one is not built. The file `format` of a library has
    the sums of its other files."""
    total = hashlib.sha256(of_crates().encode())
    for name in under(crate)[1:]:
        path = os.path.join(library_of(name), 'format')
        if not os.path.exists(path):
            return None
        with open(path, 'rb') as file:
            total.update(file.read())
    return total.hexdigest()


def is_noted(crate):
    """Were the libraries below a crate built of the crates as they are, and not altered since?"""
    path = os.path.join(TOP, 'target', 'proved', crate)
    if not os.path.exists(path):
        return False
    with open(path, encoding='ascii') as text:
        return text.read() == mark(crate)


def note(crate):
    """Notes that the libraries below a crate were built just now, of the crates as they are."""
    number = mark(crate)
    if number:
        put(os.path.join(TOP, 'target', 'proved', crate), number)


def prove(crate):
    """Proves a program or a static library and all below it, and tells of each crate that has to be proved. What was proved before is not proved again."""
    said, begun, wanted = [], 0, len(under(crate))
    source = os.path.join(folder_of(crate), 'stdin')
    with open(source if os.path.exists(source) else os.devnull, 'rb') as given:
        run = subprocess.Popen(['rt', 'run' if is_program(crate) else 'lib'], cwd=folder_of(crate), stdin=given, stdout=subprocess.PIPE, stderr=subprocess.STDOUT)
        for octets in run.stdout:
            said.append(octets.decode(errors='replace'))
            name = re.match(r'rt: chose --jobs \d+ for (\w+)', said[-1])
            if name:
                begun += 1
                print('at least %d of %d: %s' % (begun, wanted, name.group(1)), file=sys.stderr, flush=True)
    if run.wait():
        sys.exit(''.join(said).rstrip())


def libraries(crate):
    """Sees to it that the libraries below a crate are those of the crates as they are."""
    if not is_noted(crate):
        prove(crate)
        note(crate)


# ---- what the compiler makes

def compiled(crate, out, machine='x86_64', toolchain=None):
    """Has the kit's compiler write a static library, or the code of a program before it is linked. It checks the crate, and builds what is proved alone."""
    libraries(crate)
    kind, stands_on = lines()[crate]
    ours, rlibs = under(crate)[1:], os.path.join(kit.folder(), 'rlibs')
    words = ['--crate-name', crate, 'src/main.rt' if is_program(crate) else 'src/lib.rt', '-L', 'dependency=' + rlibs]
    for name in ['std'] + stands_on:
        words += ['--extern', '%s=%s' % (name, library_of(name) if name in ours else os.path.join(rlibs, name + '.rlib'))]
    for name in ours:
        words += ['-L', 'dependency=' + os.path.dirname(library_of(name))]
    words += ['--antt-project', os.path.join(kit.folder(), 'rattle', 'logic', 'antt-project.json'), '--logic-built', os.path.join(kit.folder(), 'logic_built')]
    words += ['--crate-type', kind] if kind else []
    words += ['--target', kit.TRIPLES[machine], '--backend', 'llvm', '--toolchain', toolchain or kit.toolchain(), '-o', out]
    kit.run(os.path.join(kit.folder(), 'bin', 'rattle'), 'build', *words, cwd=folder_of(crate))


def compile_archive(built):
    """Writes the archive of the library whose path this is."""
    compiled(exporter(re.match(r'lib(\w+)\.a$', os.path.basename(built)).group(1)), built)


def run_program(built):
    """Proves, compiles and runs the program whose path this is."""
    crate = os.path.basename(built)
    prove(crate)
    note(crate)
    take_program(crate)


def exporter(name):
    """The crate that exports the functions of a library to C."""
    return name + '_c'


def take_program(crate):
    """Takes a program as rt has left it. Whoever runs the old one meanwhile is not disturbed."""
    built = program_at(crate)
    os.makedirs(os.path.dirname(built), exist_ok=True)
    new = '%s.%d' % (built, os.getpid())
    shutil.copy(os.path.join(folder_of(crate), 'out', crate), new)
    os.replace(new, built)
    return built


def keep(were_built):
    """Takes what a whole `rt ci` that has passed just now has left. Its libraries are in out/ only where none were there before: it puts those back."""
    crates = of_crates()
    for crate, (kind, _) in lines().items():
        if is_program(crate):
            built = take_program(crate)
            put(built + '.made-of', seal(built, crates))
        if (kind or is_program(crate)) and not were_built:
            note(crate)


def current(built, *steps):
    """The path of a built file, after the steps that build it have been taken, unless it is of these very files already."""
    crates = of_crates()
    if is_sealed(built, crates):
        return built
    os.makedirs(os.path.dirname(built), exist_ok=True)
    print('proving and building %s' % os.path.basename(built), file=sys.stderr, flush=True)
    for step in steps:
        step(built)
    if of_crates() != crates:
        sys.exit('a crate was changed while %s was built, which may be of the old files or of the new: run this again' % built)
    put(built + '.made-of', seal(built, crates))
    return built


def program_at(crate):
    return os.path.join(TOP, 'target', 'bin', crate)


def library(name):
    """The path of a library's archive, which is of the crates as they are."""
    return current(os.path.join(TOP, 'target', 'staticlib', 'lib%s.a' % name), compile_archive)


def program(crate):
    """The path of a program, which is of the crates as they are."""
    return current(program_at(crate), run_program)


def main():
    kinds = {'library': library, 'program': program}
    if len(sys.argv) != 3 or sys.argv[1] not in kinds:
        sys.exit('usage: python3 -m tools.built library NAME, or python3 -m tools.built program NAME')
    print(kinds[sys.argv[1]](sys.argv[2]))


if __name__ == '__main__':
    main()
