"""What tools/test does: `rt ci`, which proves every crate, tries every edit that must fail and runs every program, and then the suites of tests/suites.py.

`rt ci` uses every processor. It has also failed where an edit could not be tried, which it calls bad. What it has built is what the suites use. Of the suites,
most of which use one processor, two run beside each other. What each prints is shown whole, in the order of the list. The line before the last tells what was
skipped, and the last is 'N passed, M failed', summed over all. A suite whose number of tests is another than the list says has failed, and so has one that
ends in no such line.
"""
import glob
import os
import re
import signal
import subprocess
import sys
import tempfile
import time
from typing import NamedTuple

from tests.suites import SHARED, SUITES
from tools import TOP, built

AT_ONCE = 2
SECONDS_BETWEEN_LOOKS = 0.05
SECONDS_TO_END = 3


class Task(NamedTuple):
    """A command that is run, what it is called, how many tests it must have and where that number is told, and whether it is started before others."""
    what: str
    command: tuple
    tests: int
    told: str
    starts_first: bool = False


class Verdict(NamedTuple):
    """How many tests of a task passed and failed, what it skipped, and what is wrong with the task itself."""
    passed: int
    failed: int
    skipped: list
    faults: list


# ---- what is to be run

def tests_of_rt():
    """How many tests `rt ci` has: a crate is one, a program with its runs too, and so is every edit of a crate's must-fail/."""
    return sum(len(glob.glob(os.path.join(TOP, 'crates', *path))) for path in (['*'], ['*', 'must-fail', '*.edit']))


def proofs():
    what = 'every crate proved, every must-fail edit refused, every program run'
    return Task(what, ('rt', 'ci'), tests_of_rt(), 'the folders of crates/ and the edits of their must-fail/ are')


def preparations():
    return [Task('built once for all suites: ' + ' '.join(words), (sys.executable, '-m', *words), 0, '') for words in SHARED]


def suites():
    return [Task(suite.what, (sys.executable, '-m', 'tests.' + suite.name), suite.tests, 'tests/suites.py says', suite.starts_first) for suite in SUITES]


# ---- judging

def of_count(task, count):
    """What is wrong if a task has so many tests."""
    if count == task.tests:
        return []
    if count < task.tests:
        return ['it has %d tests, and %s %d: find the test that is lost, or write the new number there' % (count, task.told, task.tests)]
    return ['it has %d tests, and %s %d: write the new number there' % (count, task.told, task.tests)]


def judged(task, said, status):
    """The verdict on a task that printed this and ended with this status."""
    lines = said.rstrip('\n').split('\n')
    skipped = [line[len('skipped: '):] for line in lines if line.startswith('skipped: ')]
    counts = re.fullmatch(r'(\d+) passed, (\d+) failed', lines[-1])
    if not counts:
        return Verdict(0, 1, skipped, ["it ended with status %d, and not in a line 'N passed, M failed'" % status])
    passed, failed = int(counts.group(1)), int(counts.group(2))
    faults = of_count(task, passed + failed + len(skipped))
    if failed == 0 and status != 0:
        faults.append('it ended with status %d, and tells of no failure' % status)
    return Verdict(passed, failed + len(faults), skipped, faults)


def of_rt(task, said, status):
    """The verdict on `rt ci`. Its line that begins 'rt: ok' tells of edits that cannot be applied or read: they show nothing, and count as failed here."""
    verdict = judged(task, said, status)
    lines = re.findall(r'^rt: ok\b.*', said, re.M)
    bad = [int(count) for line in lines for count in re.findall(r', (\d+) bad\b', line)]
    faults = ['%d of its edits are bad: mend them' % sum(bad)] * (sum(bad) > 0)
    faults += ["it tells of no failure, and has no line that begins 'rt: ok'"] * (not lines and status == 0 and verdict.failed == 0)
    return verdict._replace(failed=verdict.failed + len(faults), faults=verdict.faults + faults)


def of_preparation(task, said, status):
    """The verdict on a task that has no tests: it ends well, or it is one that failed."""
    return Verdict(0, 0, [], []) if status == 0 else Verdict(0, 1, [], ['it ended with status %d' % status])


# ---- running

class Run:
    """A task that runs, in a session of its own, so that it can be ended with all that it has started. What it prints is kept in a file."""

    def __init__(self, task):
        self.task, self.said = task, tempfile.TemporaryFile()
        self.process = subprocess.Popen(task.command, cwd=TOP, stdin=subprocess.DEVNULL, stdout=self.said, stderr=subprocess.STDOUT, start_new_session=True)

    def has_ended(self):
        return self.process.poll() is not None

    def printed(self, start):
        """What it has printed behind so many octets."""
        return os.pread(self.said.fileno(), os.fstat(self.said.fileno()).st_size - start, start)

    def end(self):
        """Ends it, if it runs: by what Ctrl-C sends, so that it can remove its scratch files, and then without asking, since not all heed that."""
        if self.has_ended():
            return
        os.killpg(self.process.pid, signal.SIGINT)
        try:
            self.process.wait(SECONDS_TO_END)
        except subprocess.TimeoutExpired:
            pass
        try:
            os.killpg(self.process.pid, signal.SIGKILL)
        except ProcessLookupError:
            pass
        self.process.wait()


class Runner:
    """Runs two tasks at a time, and shows each in its turn."""

    def __init__(self, tasks):
        self.waiting, self.runs = sorted(tasks, key=lambda task: not task.starts_first), {}

    def start(self):
        """Starts the tasks that are next, as many as may run."""
        while self.waiting and sum(not run.has_ended() for run in self.runs.values()) < AT_ONCE:
            task = self.waiting.pop(0)
            self.runs[task] = Run(task)

    def shown(self, task):
        """Shows what a task prints, as it comes, and gives its run when it has ended and all is shown."""
        shown, is_whole = 0, False
        while not is_whole:
            self.start()
            run = self.runs.get(task)
            if run:
                is_whole = run.has_ended()
                octets = run.printed(shown)
                shown += len(octets)
                sys.stdout.buffer.write(octets)
                sys.stdout.buffer.flush()
            time.sleep(0 if is_whole else SECONDS_BETWEEN_LOOKS)
        return run

    def end(self):
        for run in self.runs.values():
            run.end()


def all_judged(tasks, judge=judged):
    """The verdict on each task, in their order."""
    runner, verdicts = Runner(tasks), []
    try:
        for task in tasks:
            print('\n== ' + task.what, flush=True)
            run = runner.shown(task)
            verdicts.append(judge(task, run.printed(0).decode(errors='replace'), run.process.returncode))
            print(''.join('FAILED: %s\n' % fault for fault in verdicts[-1].faults), end='', flush=True)
    finally:
        runner.end()
    return verdicts


def interrupted(*_):
    raise KeyboardInterrupt


def main():
    for number in (signal.SIGTERM, signal.SIGHUP):
        signal.signal(number, interrupted)
    try:
        were_built = built.are_built()
        verdicts = all_judged([proofs()], of_rt)
        if not verdicts[0].failed:
            built.keep(were_built)
        for task in preparations():
            verdicts += all_judged([task], of_preparation)
        verdicts += all_judged(suites())
    except KeyboardInterrupt:
        print('\ntest: interrupted; all that was started has been ended, and nothing is decided', file=sys.stderr)
        return 130
    skipped = [what for verdict in verdicts for what in verdict.skipped]
    passed, failed = (sum(column) for column in zip(*(verdict[:2] for verdict in verdicts)))
    print('\n%s\n%d passed, %d failed' % ('skipped: ' + '; '.join(skipped) if skipped else 'nothing was skipped', passed, failed))
    return 1 if failed else 0


if __name__ == '__main__':
    sys.exit(main())
