"""The LLVM module of a library's exported functions: what the Rattle compiler hands to clang, as text that can be compiled with other flags.

  python3 -m tools.module NAME    prove a library unless its module is of these very files, and print the path of the module's text
"""
import os
import re
import sys
import tempfile

from tools import TOP, built, kit


def mirror(folder, copy, other):
    """A copy of a folder in which every entry but one is a link."""
    os.makedirs(copy)
    for entry in os.listdir(folder):
        if entry != other:
            os.symlink(os.path.join(folder, entry), os.path.join(copy, entry))


def lent_toolchain(work):
    """The kit's tools, by links, with a clang that copies the module that it is handed to work/module."""
    lent = os.path.join(work, 'toolchain')
    mirror(kit.toolchain(), lent, 'bin')
    mirror(os.path.join(kit.toolchain(), 'bin'), os.path.join(lent, 'bin'), 'clang')
    clang = os.path.join(lent, 'bin', 'clang')
    with open(clang, 'w') as script:
        script.write('#!/bin/sh\nfor word; do case $word in *.bc | *.ll) [ ! -f "$word" ] || cp "$word" "%s" ;; esac; done\n' % os.path.join(work, 'module'))
        script.write('exec "%s" "$@"\n' % kit.tool('clang'))
    os.chmod(clang, 0o755)
    return lent


def write_text(path):
    """Writes a module as text, with nothing in it that names a machine. The functions take so little of the stack that they need not look for its end."""
    plain = ['-S', '-emit-llvm', '-O3', '-Xclang', '-disable-llvm-passes', '-Wno-override-module']
    dropped = r'(?m)^(?:target|; ModuleID) .*\n|"target-cpu"="[^"]*"|"probe-stack"="[^"]*"'
    crate = built.exporter(os.path.basename(path)[:-len('.ll')])
    with tempfile.TemporaryDirectory() as work:
        text = os.path.join(work, 'module.ll')
        built.compiled(crate, os.path.join(work, 'archive.a'), toolchain=lent_toolchain(work))
        kit.run(kit.tool('clang'), '--target=' + kit.TRIPLES['x86_64'], '-x', 'ir', os.path.join(work, 'module'), *plain, '-o', text)
        with open(text) as lines:
            told = re.sub(dropped, '', lines.read())
    # Whoever reads the text meanwhile has the old one or the new one, and no part of one.
    new = '%s.%d' % (path, os.getpid())
    with open(new, 'w') as lines:
        lines.write(told)
    os.replace(new, path)


def text(name):
    """The path of the module's text, which is of the crates as they are."""
    return built.current(os.path.join(TOP, 'target', 'module', name + '.ll'), write_text)


if __name__ == '__main__':
    os.umask(0o022)
    print(text(sys.argv[1]))
