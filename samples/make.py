"""Writes the sample files beside this script, from the rules alone. README.md beside it says what each shows."""
import os
from typing import NamedTuple, Optional

from samples import islands, lows
from tests.help import grib

HERE = os.path.dirname(os.path.abspath(__file__))
TOO_LONG = 268435457


class Refusal(NamedTuple):
    """A refusal that the rules give, by its number and place; the file and the field that are asked about; and what is wrong there. Where that is what is
    wrong, it also has how many points the lent runs have room for, or the number of the point whose place in degrees is asked for."""
    number: int
    place: int
    file: str
    what: str
    field: int = 0
    room: Optional[int] = None
    point: Optional[int] = None

    def is_for_commands(self):
        """Does a program get it that has room for any field and asks for no place that a field does not have? Such a one is never given 15, 17 or 20."""
        return self.room is None and self.point is None


# One of each that C can be given. Every file is one of `samples`, but for the first: it is TOO_LONG octets of zero, which are not kept.
REFUSALS = [
    Refusal(1, 0, 'too-long.grib2', 'one octet more than the longest file that is read'),
    Refusal(2, 0, 'refused/02-empty.grib2', 'a transfer that never began'),
    Refusal(3, 276, 'refused/03-cut.grib2', 'a transfer that was cut inside the second of two messages'),
    Refusal(4, 276, 'refused/04-edition.grib2', 'a second message that says it is of edition 1'),
    Refusal(5, 37, 'refused/05-length.grib2', 'one wrong bit in the length of section 3, which then runs past the message'),
    Refusal(6, 37, 'refused/06-local-use.grib2', 'a section 2, which is not read yet'),
    Refusal(7, 0, 'accident.grib2', 'a transfer that was cut inside one message, with the next following directly'),
    Refusal(8, 0, 'two-fields.grib2', 'field 2 of a file that has fields 0 and 1', field=2),
    Refusal(9, 16, 'refused/09-centre.grib2', 'a file of centre 7, where the Agency is centre 34'),
    Refusal(10, 37, 'refused/10-grid.grib2', 'two columns and three rows, with four points in all'),
    Refusal(11, 179, 'refused/11-end.grib2', 'rain summed over one hour, with an end that is two hours later', field=1),
    Refusal(12, 143, 'refused/12-scale.grib2', 'a decimal scale factor D of 23, where 22 is the largest'),
    Refusal(13, 164, 'refused/13-bitmap.grib2', 'a bitmap with three points present, and two values'),
    Refusal(14, 200, 'refused/14-groups.grib2', 'groups of nine values in all, and ten values'),
    Refusal(15, 0, 'two-fields.grib2', 'a field of four points, and arrays with room for three', room=3),
    Refusal(16, 200, 'refused/16-difference.grib2', 'differences that lead to an integer below 0'),
    Refusal(17, 0, 'two-fields.grib2', 'a field of four points, which are counted from 0 to 3', point=4),
    Refusal(20, 0, 'lambert.grib2', 'degrees are asked for, and the grid is a Lambert grid', point=0),
]


def refused():
    """The files that are refused, each made from a good one by what could happen to it."""
    two, groups = grib.two_fields(), grib.grouped()
    return {
        '02-empty': b'',
        '03-cut': two + two[:200],
        '04-edition': two + grib.spliced(two, 7, b'\1'),
        '05-length': grib.spliced(two, 37, grib.number(72 | 1 << 16, 4)),
        '06-local-use': grib.message(two[16:37], grib.section(2, b'run 7'), two[37:272]),
        '09-centre': grib.spliced(two, 16 + 5, grib.number(7, 2)),
        '10-grid': grib.spliced(two, 37 + 34, grib.number(3, 4)),
        '11-end': grib.spliced(two, 179 + 34, grib.time(2017, 5, 15, 15, 0, 0)),
        '12-scale': grib.spliced(two, 143 + 17, grib.signed(23, 2)),
        '13-bitmap': grib.spliced(two, 164 + 6, b'\xe0'),
        '14-groups': grib.spliced(groups, 200 + 15, grib.packed(([2, 2, 9], 4))),
        '16-difference': grib.spliced(groups, 200 + 7, grib.number(4, 2)),
    }


def samples():
    """Each file's name and octets."""
    two = grib.two_fields()
    return {
        # The file of RULES, "Listing": one message, two fields.
        'two-fields.grib2': two,
        'islands.grib2': islands.file(),
        'lambert.grib2': lows.file(),
        # The accident: a transfer was cut inside the first message's second field, and the next message followed directly.
        'accident.grib2': two[:210] + two,
        **{'refused/%s.grib2' % name: file for name, file in refused().items()},
    }


def table():
    """The refusals as rows of README.md's table: number, place, what is asked, what is wrong."""
    for refusal in REFUSALS:
        asked = refusal.file if refusal.number == 1 else '[%s](%s)' % (refusal.file, refusal.file)
        asked += ', field %d' % refusal.field if refusal.field else ''
        asked += ', room for %d points' % refusal.room if refusal.room else ''
        asked += ', latitude and longitude of point %d' % refusal.point if refusal.point is not None else ''
        yield '| %d | %d | %s | %s |' % (refusal.number, refusal.place, asked, refusal.what)


def longest_listed():
    """A file of 65,536 octets, which is as long as the program `listing` takes one: one field, whose section 7 fills what is left."""
    two = grib.two_fields()
    start, end = two[16:171], 4
    return grib.message(start, grib.section(7, bytes(65536 - 16 - len(start) - 5 - end)))


def listing_sample():
    """What the program `listing` reads and prints when `rt ci` tries it. Its contract says what is printed of the octets that were read, and none can
    say how many are read. So they are one more than are taken: a program that reads one octet less lists the file before it."""
    return {'stdin': longest_listed() + b'\0', 'stdout': b'refused 18 at 65536\n'}


def main():
    """Writes the samples here, and what the program `listing` is tried on where that program stands; and prints the rows of README.md's table."""
    program = os.path.join(os.path.dirname(HERE), 'crates', 'listing')
    for folder, files in ((HERE, samples()), (program, listing_sample())):
        for name, octets in files.items():
            path = os.path.join(folder, name)
            os.makedirs(os.path.dirname(path), exist_ok=True)
            with open(path, 'wb') as out:
                out.write(octets)
    print('\n'.join(table()))


if __name__ == '__main__':
    main()
