"""Questions in the form that tests/help/lend.c reads, and the elements of the runs that come back."""
import struct

from tests.help import grib

CHECK, DECODE, DESCRIBE, PLACE, SHEET, POINT, PICTURE = 1, 2, 3, 4, 5, 6, 7
# What stands for the file of the question before, and for no elements that are to be written: the call is to be refused.
SAME = NONE = 2 ** 64 - 1
# What every octet of a run holds before a call, and what a number of a run then is.
UNTOUCHED = b'\xa5'
UNTOUCHED_NUMBER, = struct.unpack('<q', UNTOUCHED * 8)


def question(kind, file, before, k, n=0, start=0, lengths=(0, 0), written=NONE):
    """The octets of a question about a file, which is sent as one patch, or as none where it is all zeros. One that is the file before is not sent again."""
    numbers = [kind, k, n, start, *lengths, written]
    if file is before:
        return b''.join(grib.number(value, 8) for value in numbers + [SAME])
    is_zero = file.count(0) == len(file)
    numbers += [len(file), 0] if is_zero else [len(file), 1, 0, len(file)]
    return b''.join(grib.number(value, 8) for value in numbers) + (b'' if is_zero else file)


def run_of(numbers, length):
    """A run of so many numbers as it lies in memory after a call that has put these at its start."""
    return struct.pack('<%dq' % len(numbers), *numbers) + UNTOUCHED * 8 * (length - len(numbers))


def cut(octets, wanted):
    """What a program has brought back, cut into as many octets for each answer as the wanted one has, and the octets behind them."""
    found, at = [], 0
    for want in wanted:
        if at < len(octets):
            found.append(octets[at:at + len(want)])
        at += len(want)
    return found + [octets[at:]] * (at < len(octets))
