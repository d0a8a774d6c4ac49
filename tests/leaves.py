"""The leaf layers against computations of their own.

The program `tests_ask` answers questions about doubles, bits and times. This script makes the questions at random, works out each answer in its
own way (whole numbers and fractions, Python's calendar), and compares. What it shows is that the definitions, which the code is proved to
meet, are the ones that the world uses. And it asks all questions of a run before it reads an answer, as any caller may.

  python3 -m tests.leaves           compare, and end in 'N passed, M failed'
  python3 -m tests.leaves --write   write the worked examples as the program's own sample, crates/tests_ask/stdin and stdout
"""
import datetime
import fcntl
import os
import random
import subprocess
import sys
import threading
from fractions import Fraction

from tests.help import SEED, report
from tools import TOP, built

RECORD = 32
RECORDS_A_RUN = 65536 // RECORD
CASES = {'rebuild': 120_000, 'bits': 40_000, 'later': 40_000, 'order': 20_000}


def sign_and_size(value, octets, minus_zero=False):
    """The octets of a signed number: the sign in the top bit, the size in the rest."""
    sign = 1 if value < 0 or minus_zero else 0
    return (sign << (8 * octets - 1) | abs(value)).to_bytes(octets, 'big')


# ---- doubles

def single(bits):
    """The fraction that the single with these bits is, or None where it is not finite."""
    sign, exponent, fraction = bits >> 31, bits >> 23 & 255, bits & 0x7fffff
    if exponent == 255:
        return None
    size = Fraction(fraction, 2 ** 149) if exponent == 0 else Fraction(2 ** 23 + fraction) * Fraction(2) ** (exponent - 150)
    return -size if sign else size


def nearest_double(value):
    """The bits of the double nearest to a fraction, ties to even, by whole numbers alone. Zero is +0."""
    sign, value = (1 << 63 if value < 0 else 0), abs(value)
    if value == 0:
        return 0
    exponent = value.numerator.bit_length() - value.denominator.bit_length()
    if value < Fraction(2) ** exponent:
        exponent -= 1
    exponent = max(exponent, -1022)
    unit = Fraction(2) ** (exponent - 52)
    count, rest = divmod(value, unit)
    if 2 * rest > unit or (2 * rest == unit and count % 2 == 1):
        count += 1
    bits = count if exponent == -1022 and count < 2 ** 52 else (exponent + 1022 << 52) + count
    assert bits < 0x7ff << 52, 'past the largest double'
    return sign | bits


def double_of(bits):
    """The fraction that the finite double with these bits is."""
    sign, exponent, fraction = bits >> 63, bits >> 52 & 2047, bits & (1 << 52) - 1
    size = Fraction(fraction, 2 ** 1074) if exponent == 0 else Fraction(2 ** 52 + fraction) * Fraction(2) ** (exponent - 1075)
    return -size if sign else size


def rebuilt(r, e, d, x):
    """The answer to question 1, by exact fractions that are rounded twice."""
    reference = single(r)
    if reference is None or abs(e) > 127 or abs(d) > 22 or not 0 <= x <= 2147483647:
        return 'refused 19 at 0'
    exact = reference + x * Fraction(2) ** e
    total = double_of(nearest_double(exact))
    bits = nearest_double(total / Fraction(10) ** d)
    assert 2 ** 51 * abs(double_of(bits) - exact / Fraction(10) ** d) <= abs(exact / Fraction(10) ** d), 'demand 3'
    return 'double %016x' % bits


def ask_rebuild(r, e, d, x, minus_zero=False):
    record = b'\1' + r.to_bytes(4, 'big') + sign_and_size(e, 2, minus_zero and e == 0) + sign_and_size(d, 2, minus_zero and d == 0)
    return record + sign_and_size(x, 8, minus_zero and x == 0), rebuilt(r, e, d, x)


def random_rebuild(rng):
    """Mostly within the limits; zeros, subnormals, infinities, the limits' neighbours and sums that cancel among them."""
    kind = rng.randrange(8)
    if kind == 0:
        r = rng.choice([0, 0x80000000, 1, 0x80000001, 0x7fffff, 0x807fffff, 0x7f7fffff, 0xff7fffff, 0x7f800000, 0xff800000, 0x7fc00000])
    elif kind == 1:
        r = rng.getrandbits(1) << 31 | rng.getrandbits(23)
    else:
        r = rng.getrandbits(32)
    e = rng.choice([0, 127, -127, 128, -128]) if rng.randrange(10) == 0 else rng.randint(-127, 127)
    d = rng.choice([0, 22, -22, 23, -23]) if rng.randrange(10) == 0 else rng.randint(-22, 22)
    x = rng.choice([0, 1, 2147483647, 2147483648, -1, 2 ** 62]) if rng.randrange(10) == 0 else rng.getrandbits(rng.randint(1, 31))
    if kind == 7 and 0 < x < 2 ** 24 and -126 <= e + x.bit_length() - 1 <= 127:
        # R is minus X x 2^E, or its neighbour: the sum is zero, or nearly.
        top = x.bit_length() - 1
        r = 1 << 31 | e + top + 127 << 23 | (x << 23 - top) - 2 ** 23
        r += rng.choice([0, 0, 1]) if r & 0x7fffff != 0x7fffff else 0
    if kind == 6:
        e, d = rng.randint(-32767, 32767), rng.randint(-32767, 32767)
    return ask_rebuild(r, e, d, x, minus_zero=rng.randrange(2) == 1)


# ---- bits

def ask_bits(at, b, run):
    run = run.ljust(24, b'\0')
    digits = ''.join(format(octet, '08b') for octet in run) + '0' * 512
    return bytes([2, at, b]) + bytes(5) + run, 'bits %d' % int('0' + digits[at:at + b], 2)


def random_bits(rng):
    return ask_bits(rng.randrange(256), rng.randrange(33), bytes(rng.getrandbits(8) for _ in range(24)))


# ---- times

def octets_of_time(year, month, day, hour, minute, second):
    return year.to_bytes(2, 'big') + bytes([month, day, hour, minute, second])


def time_of(octets):
    """The time in seven octets by Python's calendar, or None."""
    try:
        time = datetime.datetime(int.from_bytes(octets[:2], 'big'), *octets[2:])
    except ValueError:
        return None
    return time if 1900 <= time.year <= 2399 else None


def later(time, unit, count):
    if time is None:
        return 'no time'
    try:
        end = time + datetime.timedelta(seconds=count * (60, 3600, 86400)[unit])
    except OverflowError:
        return 'passes 2399'
    return 'time ' + end.strftime('%Y%m%d%H%M%S') if end.year <= 2399 else 'passes 2399'


def ask_later(octets, unit, count):
    return b'\3' + octets + bytes([unit]) + count.to_bytes(4, 'big'), later(time_of(octets), unit, count)


def random_time(rng):
    """Mostly a time; its neighbours past each limit, and the ends of months and of years, among them."""
    kind = rng.randrange(6)
    year = rng.choice([1899, 1900, 1999, 2000, 2100, 2399, 2400]) if kind == 0 else rng.randint(1900, 2399)
    month = rng.choice([0, 1, 2, 12, 13]) if kind == 1 else rng.randint(1, 12)
    day = rng.choice([0, 1, 28, 29, 30, 31, 32]) if kind < 4 else rng.randint(1, 28)
    clock = [rng.choice([0, 23, 24]), rng.choice([0, 59, 60]), rng.choice([0, 59, 60])] if kind == 5 else [rng.randrange(24), rng.randrange(60), rng.randrange(60)]
    return octets_of_time(year, month, day, *clock)


def random_later(rng):
    count = rng.getrandbits(32) if rng.randrange(3) == 0 else rng.getrandbits(rng.randint(1, 22))
    return ask_later(random_time(rng), rng.randrange(3), count)


def random_order(rng):
    first = random_time(rng)
    shared = rng.randrange(8)
    second = first[:shared] + random_time(rng)[shared:]
    a, b = time_of(first), time_of(second)
    answer = 'no time' if a is None or b is None else 'before' if a < b else 'after' if b < a else 'same'
    return b'\4' + first + b'\0' + second, answer


# ---- asking

def answers(program, records):
    """The program's answer to each record, or None. A run of it takes so many records."""
    for at in range(0, len(records), RECORDS_A_RUN):
        part = records[at:at + RECORDS_A_RUN]
        lines = report.answers(program, b''.join(record.ljust(RECORD, b'\0') for record in part)).decode().splitlines()
        yield from lines + [None] * (len(part) - len(lines))


def compare(program, name, make, count):
    rng = random.Random('%s %d' % (name, SEED))
    records, wanted = zip(*(make(rng) for _ in range(count)))

    def told(record, want, have):
        return '%s: expected %s, got %s' % (record.hex(), want, have)

    return report.compared('%s (SEED=%d)' % (name, SEED), records, wanted, answers(program, records), told)


def worked_examples():
    """Each worked example of the rules that the leaf layers answer: its words, the record, the answer."""
    half = 0x3fc00000
    noon = octets_of_time(2017, 5, 15, 12, 0, 0)
    return [
        ('R 1.5, E 1, D 0, X 3 is 7.5',) + ask_rebuild(half, 1, 0, 3),
        ('R 0, E 0, D 1, X 1 is the double nearest to a tenth',) + ask_rebuild(0, 0, 1, 1),
        ('R -0, E 0, D 0, X 0 is +0',) + ask_rebuild(0x80000000, 0, 0, 0),
        ('D 22 passes',) + ask_rebuild(half, 1, 22, 3),
        ('D 23 is refused',) + ask_rebuild(half, 1, 23, 3),
        ('octets 12 3A BC at 12 bits, the first number',) + ask_bits(0, 12, bytes.fromhex('123abc')),
        ('octets 12 3A BC at 12 bits, the second number',) + ask_bits(12, 12, bytes.fromhex('123abc')),
        ('2017-05-15 12:00 + 84 hours',) + ask_later(noon, 1, 84),
        ('2017-05-15 12:00 + 2^32 - 1 days',) + ask_later(noon, 2, 2 ** 32 - 1),
        ('the time 1900-02-29',) + ask_later(octets_of_time(1900, 2, 29, 0, 0, 0), 0, 0),
    ]


# What a pipe is told to hold here, and how long the program may take, in seconds.
PIPE = 4096
PATIENCE = 60


def asked_before_told(program):
    """Whoever writes all of a run's questions before reading an answer is answered: the program reads them all first, however little a pipe holds."""
    _, record, answer = worked_examples()[0]
    records = record.ljust(RECORD, b'\0') * RECORDS_A_RUN
    with subprocess.Popen(program, stdin=subprocess.PIPE, stdout=subprocess.PIPE) as running:
        for end in (running.stdin, running.stdout):
            fcntl.fcntl(end, fcntl.F_SETPIPE_SZ, PIPE)
        late = threading.Timer(PATIENCE, running.kill)
        late.start()
        try:
            running.stdin.write(records)
            running.stdin.close()
            told = running.stdout.read()
        except BrokenPipeError:
            told = b''
        late.cancel()
    answered = told == (answer + '\n').encode() * RECORDS_A_RUN
    print('all questions written before an answer is read: %s' % ('answered' if answered else 'not answered within %d seconds, or wrongly' % PATIENCE))
    return answered


def main():
    ask = os.path.join(TOP, 'crates', 'tests_ask')
    examples = worked_examples()
    sample = b''.join(record.ljust(RECORD, b'\0') for _, record, _ in examples)
    expected = ''.join(answer + '\n' for _, _, answer in examples).encode()
    if '--write' in sys.argv:
        for name, text in (('stdin', sample), ('stdout', expected)):
            with open(os.path.join(ask, name), 'wb') as out:
                out.write(text)
        return 0
    built.program('tests_ask')
    program = [os.path.join(TOP, 'tools', 'program'), 'tests_ask']
    results = []
    with open(os.path.join(ask, 'stdin'), 'rb') as given, open(os.path.join(ask, 'stdout'), 'rb') as wanted:
        results.append(given.read() == sample and wanted.read() == expected)
    print('the sample of the program tests_ask: %s' % ('as made here' if results[0] else 'not as made here; run python3 -m tests.leaves --write'))
    words, records, wanted = zip(*examples)
    results.append(report.compared('worked examples', words, wanted, answers(program, records), '{}: expected {}, got {}'.format))
    makers = {'rebuild': random_rebuild, 'bits': random_bits, 'later': random_later, 'order': random_order}
    results += [compare(program, name, makers[name], count) for name, count in CASES.items()]
    results.append(asked_before_told(program))
    return report.ended(results)


if __name__ == '__main__':
    sys.exit(main())
