"""What a suite prints: a line for each test, what is wrong below it, and at the end 'N passed, M failed'. tools/gate.py reads the last line, and each
line that starts with 'skipped: '."""
import operator
import subprocess

MOST_SHOWN = 5


class Skipped(Exception):
    """Raised by a test that this machine cannot run: what is not tried, and why."""

    def __init__(self, what, why):
        super().__init__('skipped: %s, because %s' % (what, why))


def judged(what, faults):
    """Tells of a test and of what is wrong, if anything is."""
    print('%s  %s' % ('FAILED' if faults else 'ok    ', what))
    for fault in faults:
        print('        ' + fault.strip().replace('\n', '\n        '))
    print(end='', flush=True)
    return not faults


def tried(test, *words):
    """Runs a test, a function that yields what is wrong, and tells of it by its docstring. One that cannot go on, as where a file is missing, has
    failed. The answer is whether it passed, or None where it was skipped."""
    faults = []
    try:
        faults += filter(None, test(*words))
    except Skipped as skipped:
        print(skipped, flush=True)
        return None
    except (OSError, subprocess.SubprocessError) as fault:
        faults.append(str(fault))
    return judged(test.__doc__, faults)


def ended(results):
    """Tells how many tests passed and failed. The answer is the suite's exit status. What was skipped counts as neither."""
    passed, failed = (sum(result is wanted for result in results) for wanted in (True, False))
    print('%d passed, %d failed' % (passed, failed))
    return 1 if failed else 0


def compared(name, asked, wanted, got, told, same=operator.eq, unit='questions'):
    """Are there questions, is each answered as wanted, and nothing more answered? The first few that are not are shown in the words of
    told(question, want, have); a question without an answer has None."""
    got, wrong = iter(got), 0
    if len(asked) != len(wanted):
        raise ValueError('%s: %d questions and %d wanted answers' % (name, len(asked), len(wanted)))
    for question, want in zip(asked, wanted):
        have = next(got, None)
        if not same(want, have):
            wrong += 1
            if wrong <= MOST_SHOWN:
                print('%s: %s' % (name, told(question, want, have)))
    more = sum(1 for _ in got)
    print('%s: %d %s, %d answered otherwise%s' % (name, len(asked), unit, wrong, ', and %d answers to no question' % more if more else ''), flush=True)
    return len(asked) > 0 and not wrong and not more


def answers(program, octets):
    """What a program that calls proved code writes when it is given these octets. One that does not end well has answered nothing."""
    run = subprocess.run(program, input=octets, stdout=subprocess.PIPE)
    if run.returncode:
        print('%s ended with %d' % (program[0], run.returncode))
        return b''
    return run.stdout
