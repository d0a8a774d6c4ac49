"""The gate, tools/test, with suites that are made up: what its last lines say, how it ends, and what it leaves running. The last is asked of tools/sample
too. And the tree as the gate sees it: every suite is run, no file goes looking for its neighbours, and no edit that must fail is passed over in part.
It ends in 'N passed, M failed'.
"""
import contextlib
import io
import os
import re
import shutil
import signal
import subprocess
import sys
import tempfile
import time

from tests.help import report
from tests.suites import SUITES
from tools import TOP

# A suite that is made up: its source, and how many tests the list says that it has.
WELL = ('print("seen"); print("2 passed, 0 failed")', 2)
LOST, NO_COUNT = 'it has %d tests, and tests/suites.py says 2: find the test that is lost', "and not in a line 'N passed, M failed'"
# Suites that the list says have two tests, and that fail once each: the source, how many pass, and what the gate says.
FAILING = {
    'none': ('print("0 passed, 0 failed")', 0, LOST % 0),
    'fewer': ('print("1 passed, 0 failed")', 1, LOST % 1),
    'more': ('print("3 passed, 0 failed")', 3, 'it has 3 tests, and tests/suites.py says 2: write the new number there'),
    'silent': ('pass', 0, NO_COUNT),
    'dying': ('import os, signal; print("2 passed, 0 failed", flush=True); os.kill(os.getpid(), signal.SIGKILL)', 2, 'status -9, and tells of no failure'),
    'quitting': ('import sys; print("2 passed, 0 failed"); sys.exit(1)', 2, 'status 1, and tells of no failure'),
    'raising': ('print("half"); raise ValueError', 0, NO_COUNT),
    'tailing': ('print("2 passed, 0 failed"); print("and more")', 0, NO_COUNT),
    'failing': ('import sys; print("1 passed, 1 failed"); sys.exit(1)', 1, '1 passed, 1 failed'),
    'hiding': ('print("skipped: a, because b"); print("2 passed, 0 failed")', 2, 'it has 3 tests'),
}
# What `rt ci` ends in where all is well.
RT_IS_OK = 'rt: ok; handles allowed: none; must-fail edits: 1 refused%s; every proof and must-fail edit was done in this run'
RT_IS_GREEN = 'echo "%s"; echo "2 passed, 0 failed"' % (RT_IS_OK % '')


class Tree:
    """A tree with the gate in it, a crate with one edit, a command rt, and suites that are made up."""

    def __init__(self, folder, suites, rt=RT_IS_GREEN, setup='exit 0', shared=()):
        self.folder = folder
        for name in ('test', 'gate.py', 'built.py', 'kit.py', '__init__.py'):
            os.makedirs(os.path.join(folder, 'tools'), exist_ok=True)
            shutil.copy(os.path.join(TOP, 'tools', name), os.path.join(folder, 'tools', name))
        self.write('crates.txt', 'one:\n')
        self.write('crates/one/must-fail/wrong.edit', '')
        self.write('tests/__init__.py', '')
        shutil.copy(os.path.join(TOP, 'tests', 'suites.py'), os.path.join(folder, 'tests', 'suites.py'))
        listed = ['Suite(%r, %d, "suite %s", %r)' % (name, tests, name, more == [True]) for name, (_, tests, *more) in suites.items()]
        with open(os.path.join(folder, 'tests', 'suites.py'), 'a', encoding='utf-8') as text:
            text.write('SUITES = [%s]\nSHARED = %r\n' % (', '.join(listed), list(shared)))
        for name, (source, *_) in suites.items():
            self.write('tests/%s.py' % name, source)
        for name, script in (('tools/setup', setup), ('bin/rt', rt)):
            self.write(name, '#!/bin/sh\n%s\n' % script)
            os.chmod(os.path.join(folder, name), 0o755)

    def write(self, name, text):
        os.makedirs(os.path.dirname(os.path.join(self.folder, name)), exist_ok=True)
        with open(os.path.join(self.folder, name), 'w', encoding='utf-8') as file:
            file.write(text)

    def start(self, tool='test'):
        """A tool of the tree that runs, in a group of processes of its own."""
        path = os.path.join(self.folder, 'bin') + ':' + os.environ['PATH']
        command = [os.path.join(self.folder, 'tools', tool)]
        return subprocess.Popen(command, stdout=subprocess.PIPE, stderr=subprocess.PIPE, text=True, env=dict(os.environ, PATH=path), start_new_session=True)

    def ended(self):
        """What it prints on both ways out, and its status."""
        return self.finished(self.start())

    @staticmethod
    def finished(run):
        """The same of a tool that runs. One that does not end in time is ended, with what it has started in its group."""
        try:
            out, said = run.communicate(timeout=30)
        except subprocess.TimeoutExpired:
            os.killpg(run.pid, signal.SIGKILL)
            out, said = '', 'it did not end in 30 seconds'
        return out, said, run.wait()

    def faults(self, lines, status):
        """What is wrong if the gate does not end in these lines and with this status."""
        out, said, ended = self.ended()
        if out.split('\n')[-len(lines) - 1:-1] != lines:
            yield 'it prints %r, and not last %r' % (out + said, lines)
        if ended != status:
            yield 'it ends with %d, and not with %d' % (ended, status)


# ---- the gate

def green(folder):
    """Where every suite has its tests and passes, the last lines are 'nothing was skipped' and 'N passed, 0 failed', and it ends with 0."""
    yield from Tree(folder, {'one': WELL, 'two': WELL}).faults(['nothing was skipped', '6 passed, 0 failed'], 0)


def skipped(folder):
    """What is skipped stands in the line before the last, counts as neither, and is no failure."""
    skips = ('print("skipped: a terminal, because there is none"); print("1 passed, 0 failed")', 2)
    lines = ['skipped: a terminal, because there is none; a terminal, because there is none', '6 passed, 0 failed']
    yield from Tree(folder, {'one': skips, 'two': WELL, 'three': skips}).faults(lines, 0)


def red(folder):
    """A suite without tests, with fewer or more than the list says, that dies, that ends otherwise, that fails or that skips too much: each fails."""
    out, _, status = Tree(folder, {name: (source, 2) for name, (source, _, _) in FAILING.items()}).ended()
    last = '%d passed, %d failed' % (2 + sum(passed for _, passed, _ in FAILING.values()), len(FAILING))
    if out.split('\n')[-2] != last or status != 1:
        yield 'it ends with %d and in %r, and not in %r' % (status, out.split('\n')[-2], last)
    shown = dict(re.findall(r'^== suite (\w+)\n(.*?)(?=\n\n)', out, re.M | re.S))
    yield from ('%s: %r' % (name, shown.get(name)) for name, (_, _, said) in FAILING.items() if said not in shown.get(name, ''))
    if list(shown) != list(FAILING):
        yield 'they are shown as %s' % list(shown)


def rt_is_counted(folder):
    """rt ci with fewer tests than there are crates and edits in the tree fails, and so does one that says nothing, ends badly, or could not try an edit."""
    ways = {
        'fewer': (RT_IS_GREEN.replace('2 passed', '1 passed'), 3), 'silent': ('exit 0', 2), 'quitting': (RT_IS_GREEN + '; exit 2', 4),
        'bad': (RT_IS_GREEN.replace('1 refused', '1 refused, 1 bad'), 4), 'unsaid': ('echo "2 passed, 0 failed"', 4)}
    for name, (rt, last) in ways.items():
        yield from Tree(os.path.join(folder, name), {'one': WELL}, rt).faults(['nothing was skipped', '%d passed, 1 failed' % last], 1)


def what_is_shared_is_built(folder):
    """What cannot be set up or built fails, though every suite passes."""
    unbuilt, unset = (os.path.join(folder, name) for name in ('unbuilt', 'unset'))
    yield from Tree(unbuilt, {'one': WELL}, shared=[('tests.none_such',)]).faults(['nothing was skipped', '4 passed, 1 failed'], 1)
    yield from Tree(unset, {'one': WELL}, setup='exit 2').faults(['skipped: every test, because tools/setup failed', '0 passed, 1 failed'], 1)


# A suite that waits for another to start. Alone, it waits in vain and fails.
MEETS = '''
import os, time
open(%r, "w").close()
deadline = time.monotonic() + 5
while not os.path.exists(%r) and time.monotonic() < deadline:
    time.sleep(0.01)
print("1 passed, 0 failed" if os.path.exists(%r) else "0 passed, 1 failed")
'''
# A module that fails where another of its kind runs at the same time.
ALONE = '''
import os, sys, time
os.mkdir(%r)
time.sleep(0.1)
os.rmdir(%r)
'''


def beside_each_other(folder):
    """Suites run two at a time, the one that is to start first from the first on, and are shown in their order; what they share is built one by one."""
    def mark(name):
        return os.path.join(folder, name)

    def meets(one, other):
        return MEETS % (mark(one), mark(other), mark(other))

    suites = {'one': (meets('one', 'last'), 1), 'two': (meets('two', 'last'), 1), 'last': (meets('last', 'two'), 1, True)}
    tree = Tree(mark('tree'), suites, shared=[('tests.built_alone',)] * 2)
    tree.write('tests/built_alone.py', ALONE % (mark('built'), mark('built')))
    out, said, status = tree.ended()
    if out.split('\n')[-3:-1] != ['nothing was skipped', '5 passed, 0 failed'] or status:
        yield 'it ends with %d and prints %r' % (status, out + said)
    if re.findall(r'^== suite (\w+)$', out, re.M) != list(suites):
        yield 'they are shown as %s' % re.findall(r'^== suite (\w+)$', out, re.M)


# A suite that starts a process of its own, which does not heed Ctrl-C, tells its number, and never ends.
ENDLESS = '''
import subprocess, time
child = subprocess.Popen(["sh", "-c", "trap '' INT; exec sleep 1000"])
print("child %d" % child.pid, flush=True)
child.wait()
'''


def runs_on(process):
    """Does a process run on that has been told to end? If so it is ended, so that a failure of this test leaves nothing behind."""
    deadline = time.monotonic() + 5
    while time.monotonic() < deadline:
        try:
            with open('/proc/%d/stat' % process, encoding='ascii') as stat:
                if stat.read().rsplit(')', 1)[1].split()[0] == 'Z':
                    return False
        except (FileNotFoundError, ProcessLookupError):
            return False
        time.sleep(0.01)
    os.kill(process, signal.SIGKILL)
    return True


def interrupted(folder):
    """Ctrl-C, or the end of the terminal, ends it and all that it has started, and it says so in one line and decides nothing."""
    for number in (signal.SIGINT, signal.SIGHUP, signal.SIGTERM):
        tree, children = Tree(os.path.join(folder, str(int(number))), {'endless': (ENDLESS, 1)}), []
        run = tree.start()
        for line in run.stdout:
            children += [int(word) for word in re.findall(r'^child (\d+)$', line)]
            if children:
                run.send_signal(number)
                break
        out, said, status = tree.finished(run)
        if status != 130 or len(said.split('\n')) != 3 or 'interrupted' not in said or 'passed' in out:
            yield 'signal %d: it ends with %d and says %r' % (number, status, out + said)
        if not children or any([runs_on(child) for child in children]):
            yield 'signal %d: what it started runs on: %s' % (number, children)


# A command rt that proves for ever, in a process of its own whose number it tells in the file `proving`.
PROVING = '''
[ "$1" = lib ] || exit 0
sleep 1000 &
echo $! >"$(dirname "$0")/proving.part"
mv "$(dirname "$0")/proving.part" "$(dirname "$0")/proving"
wait
'''


def sample_is_interrupted(folder):
    """Ctrl-C while tools/sample proves ends it and what it has started, and it says so in one line and no more."""
    tree, told = Tree(folder, {}, rt=PROVING), os.path.join(folder, 'bin', 'proving')
    for name in ('sample', 'archive.py'):
        shutil.copy(os.path.join(TOP, 'tools', name), os.path.join(folder, 'tools', name))
    tree.write('crates.txt', 'listing: skeptolyr\nskeptolyr:\nskeptolyr_c staticlib: skeptolyr\n')
    tree.write('crates/skeptolyr_c/src/lib.rt', '')
    tree.write('command/main.c', '')
    run = tree.start('sample')
    deadline = time.monotonic() + 30
    while not os.path.exists(told) and run.poll() is None and time.monotonic() < deadline:
        time.sleep(0.01)
    # A terminal sends it to every process of the group.
    os.killpg(run.pid, signal.SIGINT)
    out, said, status = tree.finished(run)
    if (status, out, said) != (130, '', 'proving and building libskeptolyr.a\nsample: interrupted\n'):
        yield 'it ends with %d and says %r' % (status, out + said)
    if not os.path.exists(told):
        yield 'it has not started to prove'
        return
    with open(told, encoding='ascii') as process:
        if runs_on(int(process.read())):
            yield 'what it started runs on'


def comparisons_can_fail(_):
    """A comparison passes where every question has its answer, and fails where none was asked, one is answered otherwise or not at all, or one too many."""
    cases = [([1, 2], [1, 2], True), ([], [], False), ([1, 2], [1, 3], False), ([1, 2], [1], False), ([1, 2], [1, 2, 3], False)]
    for wanted, got, is_same in cases:
        with contextlib.redirect_stdout(io.StringIO()):
            result = report.compared('made up', wanted, wanted, got, '{} {} {}'.format)
        if result is not is_same:
            yield '%s for %s: %s' % (got, wanted, result)


# ---- the tree

def tracked(*endings):
    said = subprocess.run(['git', 'ls-files', '--cached', '--others', '--exclude-standard'], cwd=TOP, stdout=subprocess.PIPE, text=True, check=True).stdout
    return [name for name in said.split('\n')[:-1] if name.endswith(endings) and os.path.exists(os.path.join(TOP, name))]


def lines_of(name):
    with open(os.path.join(TOP, name), encoding='utf-8') as text:
        return text.read().split('\n')


def every_suite_is_run():
    """Each module that stands directly in tests/ is a suite of the list, and each folder that can be run is one or is told of in tests/README.md."""
    files = {name.split('/')[1][:-3] for name in tracked('.py') if name.startswith('tests/') and name.count('/') == 1} - {'__init__', 'suites'}
    folders = {name.split('/')[1] for name in tracked('/__main__.py') if name.startswith('tests/')}
    listed = {suite.name for suite in SUITES}
    yield from ('tests/%s.py is no suite of tests/suites.py' % name for name in sorted(files - listed))
    yield from ('tests/suites.py: there is no tests/%s' % name for name in sorted(listed - files - folders))
    told = re.findall(r'^\| tests/(\w+) \|', '\n'.join(lines_of('tests/README.md')), re.M)
    places = {name.split('/')[1] for name in tracked('') if name.startswith('tests/') and name.count('/') > 1}
    yield from ('tests/README.md does not tell of tests/%s, or tells of what is not there' % name for name in sorted(places ^ set(told)))


def nobody_looks_for_neighbours():
    """No module edits the path that Python looks along: all are run from the top of the tree, and import from there."""
    word = 'sys' + '.path'
    for name in tracked('.py'):
        yield from ('%s:%d' % (name, number) for number, line in enumerate(lines_of(name), 1) if word in line)


def paths_lead_somewhere():
    """Each file of the tree that a text or a comment names is there. NAME and other words in capitals stand for any."""
    for name in tracked('.md', '.py', '.c', '.h', '.rs', 'Makefile'):
        for number, line in enumerate(lines_of(name) if name not in ('tests/gate.py', 'tests/house.py') else [], 1):
            for path in re.findall(r'(?<![\w./-])(?:tests|tools|samples|fuzz|bench|docs|examples|include)/[\w./-]*\w\.\w+', line):
                if not os.path.exists(os.path.join(TOP, path)) and not re.search(r'/[A-Z]+\.', path):
                    yield '%s:%d: %s' % (name, number, path)


def named_by(name):
    """The files of tools/ that one of them names, or imports."""
    text = '\n'.join(lines_of(name))
    words = re.findall(r'\btools[./](\w+)', text) + [word for line in re.findall(r'^from tools import (.*)$', text, re.M) for word in line.split(', ')]
    return {file for word in words for file in ('tools/' + word, 'tools/%s.py' % word) if os.path.isfile(os.path.join(TOP, file))}


def nothing_reaches_into_tests():
    """What users run, tools/sample and tools/install and all of tools/ that these reach, needs nothing that tests are made of."""
    reached, found = {'tools/sample', 'tools/install'}, set()
    while reached - found:
        found |= reached
        reached = set().union(*map(named_by, found))
    if 'tools/archive.py' not in found:
        yield 'tools/sample does not reach tools/archive.py: this test sees too little'
    for name in sorted(found):
        yield from ('%s:%d' % (name, number) for number, line in enumerate(lines_of(name), 1) if re.search(r'\btests[./]\w', line))


def edits_are_whole():
    """Each file of must-fail/ is an edit that rt tries in full: one of another name, an old line without its new one, and a second line would be bad."""
    for name in tracked(''):
        if '/must-fail/' not in name:
            continue
        kinds = ''.join('#' if line.startswith('#') else (re.match(r'(file|old|new):(?: |$)', line) or ['?'])[0][0] for line in lines_of(name) if line)
        if not name.endswith('.edit') or not re.fullmatch(r'#+(f(on)+)+', kinds):
            yield '%s: its lines are %s' % (name, kinds)


GATE = [green, skipped, red, rt_is_counted, what_is_shared_is_built, beside_each_other, interrupted, sample_is_interrupted, comparisons_can_fail]
TREE = [every_suite_is_run, nobody_looks_for_neighbours, nothing_reaches_into_tests, paths_lead_somewhere, edits_are_whole]


def tried(test):
    with tempfile.TemporaryDirectory() as folder:
        return report.tried(test, folder)


def main():
    return report.ended([tried(test) for test in GATE] + [report.tried(test) for test in TREE])


if __name__ == '__main__':
    sys.exit(main())
