"""The Rattle kit, which proves and compiles: where it is, and how its tools are run. It runs on x86-64, and compiles for Arm too."""
import os
import shutil
import subprocess
import sys

from tools import TOP

# The machines that the kit compiles for, and what its compiler calls each.
TRIPLES = {'x86_64': 'x86_64-unknown-linux-gnu', 'aarch64': 'aarch64-unknown-linux-gnu'}


def run(*command, cwd=TOP):
    """Runs a command, and ends with what it says where it fails."""
    done = subprocess.run(command, cwd=cwd, stdin=subprocess.DEVNULL, stdout=subprocess.PIPE, stderr=subprocess.STDOUT, text=True)
    if done.returncode:
        sys.exit(done.stdout)
    return done.stdout


def folder():
    """The folder of the kit, whose bin/ has the command rt."""
    found = shutil.which('rt')
    if not found:
        sys.exit("the Rattle kit's command rt is not on the PATH: install the kit, or add its bin/ folder to PATH")
    return os.path.dirname(os.path.dirname(os.path.realpath(found)))


def toolchain():
    """The folder of the tools that the compiler hands its work to."""
    return os.path.join(folder(), 'toolchain')


def tool(name):
    """One of these tools."""
    return os.path.join(toolchain(), 'bin', name)
