"""Machine code of what is proved, for x86-64 or for Arm.

  python3 -m tools.machine library NAME MACHINE OUT             prove a library, and write its archive
  python3 -m tools.machine program NAME MACHINE OUT COMPILER..  prove a program, and write it; the compiler links it where rt does not

MACHINE is x86_64 or aarch64. The Rattle compiler writes the code for either. It links no program for Arm, since the kit's own part in C is x86-64 code:
tools/package/errno.c has what a program asks of that part.
"""
import os
import shutil
import sys
import tempfile

from tools import TOP, built, kit


def library(name, machine, out):
    """Writes a library's archive."""
    if machine == 'x86_64':
        shutil.copy(built.library(name), out)
    else:
        built.compiled(built.exporter(name), out, machine)


def program(crate, machine, out, *compiler):
    """Writes a program."""
    if machine == 'x86_64':
        shutil.copy(built.program(crate), out)
        return
    with tempfile.TemporaryDirectory() as work:
        code = os.path.join(work, crate + '.o')
        built.compiled(crate, code, machine)
        kit.run(*compiler, '-O2', code, os.path.join(TOP, 'tools', 'package', 'errno.c'), '-o', out)


def main():
    os.umask(0o022)
    kinds, words = {'library': library, 'program': program}, sys.argv[1:]
    if len(words) >= 4 and words[0] in kinds and words[2] in kit.TRIPLES:
        kinds[words[0]](words[1], words[2], os.path.abspath(words[3]), *words[4:])
    else:
        sys.exit('usage: python3 -m tools.machine library|program NAME %s OUT [COMPILER..]' % '|'.join(kit.TRIPLES))


if __name__ == '__main__':
    main()
