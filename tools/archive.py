"""Programs in C over an archive of proved code.

  python3 -m tools.archive SOURCE..   compile each source with the reader, and write the program target/NAME
  python3 -m tools.archive command    compile the command, and write target/skeptolyr
"""
import glob
import os
import subprocess
import sys
import tempfile

from tools import TOP, built

# What every program of ours in C is compiled with.
FLAGS = ['-std=c99', '-D_DEFAULT_SOURCE', '-Wall', '-Wextra', '-pedantic', '-Werror', '-I' + os.path.join(TOP, 'include')]


def program(name_of_library, source, *more, name=None):
    """Proves the library and compiles the source with its archive, and with more if given. The answer is the command that runs the program."""
    archive = built.library(name_of_library)
    out = os.path.join(TOP, 'target', name or os.path.splitext(os.path.basename(source))[0])
    # Two who compile the same program at once, or while it runs, do not disturb each other: what is whole takes the old one's place.
    with tempfile.TemporaryDirectory(dir=os.path.join(TOP, 'target')) as made:
        program_made = os.path.join(made, 'program')
        subprocess.run(['gcc', *FLAGS, '-O2', '-static', source, *more, archive, '-lm', '-o', program_made], cwd=TOP, check=True)
        os.replace(program_made, out)
    return [out]


def command_sources():
    """What the command skeptolyr is compiled of."""
    return sorted(glob.glob(os.path.join(TOP, 'command', '*.c')))


def skeptolyr():
    """The command that runs the program skeptolyr: a ready one that the variable SKEPTOLYR_COMMAND names, or one that is compiled of command/."""
    named = os.environ.get('SKEPTOLYR_COMMAND')
    return [os.path.abspath(named)] if named else program('skeptolyr', *command_sources(), name='skeptolyr')


if __name__ == '__main__':
    for each in sys.argv[1:]:
        if each == 'command':
            skeptolyr()
        else:
            program('skeptolyr', each)
