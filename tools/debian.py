"""What single scripts need from Debian's packages, installed where it is missing and where the packages can be reached."""
import os
import shutil
import subprocess
import sys


def has_header(header):
    """Can a program in C be compiled with this header?"""
    test = ['gcc', '-fsyntax-only', '-include', header, '-x', 'c', os.devnull]
    return shutil.which('gcc') is not None and subprocess.run(test, stderr=subprocess.DEVNULL).returncode == 0


def install(packages):
    """Tries to install the packages. The caller looks whether what it needs is there now, and says aloud what it leaves out."""
    if not packages:
        return
    print('installing ' + ' '.join(packages), file=sys.stderr, flush=True)
    as_root = [] if os.geteuid() == 0 else ['sudo']
    for words in (['update'], ['install', '-y', '--no-install-recommends', *packages]):
        try:
            subprocess.run(as_root + ['apt-get', '-q', *words], stdout=sys.stderr)
        except OSError as fault:
            print(fault, file=sys.stderr)
