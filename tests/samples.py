"""The samples, as people meet them: made as the script makes them, told of as they are, and drawn or refused by `skeptolyr draw` with the number, the place
and the sentence that belong there. It ends in 'N passed, M failed'.
"""
import os
import re
import subprocess
import sys
import tempfile

from samples import make
from tests.help import manual, reading, report
from tools import TOP, archive

SAMPLES = os.path.join(TOP, 'samples')
MADE = make.samples()


def are_as_made():
    """The files beside the script are those that it makes, and there is no other."""
    faults = []
    for name, octets in MADE.items():
        with open(os.path.join(SAMPLES, name), 'rb') as sample:
            faults += [name] if sample.read() != octets else []
    kept = [os.path.relpath(os.path.join(folder, name), SAMPLES) for folder, _, names in os.walk(SAMPLES) for name in names if name.endswith('.grib2')]
    return report.judged('the samples are as the script makes them; if not, run python3 -m samples.make', faults + sorted(set(kept) ^ set(MADE)))


def are_told_of():
    """samples/README.md has the row of each refusal, and names each file."""
    text = manual.text_of(os.path.join(SAMPLES, 'README.md'))
    rows = re.findall(r'^\| \d+ .*$', text, re.M)
    faults = [row for row in make.table() if row not in rows] + ['%d rows' % len(rows)] * (len(rows) != len(make.REFUSALS))
    return report.judged("the samples' table", faults + [name for name in MADE if '](%s)' % name not in text])


def asked(refusal):
    """Asks the independent reading what the refusal is given for: a place in degrees, or all values."""
    file = bytes(make.TOO_LONG) if refusal.number == 1 else MADE[refusal.file]
    room = refusal.room or 1 << 24
    if refusal.point is not None:
        reading.place(file, refusal.field, refusal.point)
    else:
        reading.decode(file, refusal.field, 0, room, room)


def are_read_as_told():
    """Refusals 1 to 17 and 20 are there, each once, and the independent reading gives each."""
    faults = [] if [refusal.number for refusal in make.REFUSALS] == [*range(1, 18), 20] else ['not each of 1 to 17 and 20']
    for refusal in make.REFUSALS:
        try:
            asked(refusal)
            faults.append('%s is not refused' % refusal.file)
        except reading.Refused as refused:
            faults += ['%s: %s' % (refusal.file, refused)] if (refused.number, refused.place) != (refusal.number, refusal.place) else []
    return report.judged('the samples in the independent reading', faults)


def places_are_told():
    """Where the last points lie, as samples/README.md tells it, is where the independent reading places them."""
    text = manual.text_of(os.path.join(SAMPLES, 'README.md'))
    islands, lambert = (reading.describe(MADE[name], 0)['grid'] for name in ('islands.grib2', 'lambert.grib2'))
    degrees = reading.place(MADE['islands.grib2'], 0, islands['ni'] * islands['nj'] - 1)
    lengths = reading.sheet(MADE['lambert.grib2'], 0, lambert['ni'] * lambert['nj'] - 1)
    wanted = ['ends at %d.%06d %d.%06d,' % (*divmod(degrees[0], 10 ** 6), *divmod(degrees[1], 10 ** 6))]
    wanted += ['ends at %d.%03d %d.%03d,' % (*divmod(lengths[0], 1000), *divmod(lengths[1], 1000))]
    return report.judged("the last points of the samples' table", [words for words in wanted if words not in text])


def pictures_are_told():
    """What samples/README.md tells of pictures in shades of grey is what the independent reading makes."""
    text = ' '.join(manual.text_of(os.path.join(SAMPLES, 'README.md')).split())
    two, islands = (reading.picture(MADE[name], 0, 1 << 24) for name in ('two-fields.grib2', 'islands.grib2'))
    wanted = ['has the lines `%s`, `%s` and `%s`, and then the greys %d, %d, %d and %d' % (*two[:-4].decode().split('\n')[:3], *two[-4:])]
    wanted += ['That of islands.grib2 has %s x %s points' % tuple(islands[:15].decode().split()[1:3])]
    return report.judged("the pictures that the samples' page tells of", [words for words in wanted if words not in text])


# ---- the programs

def run(*command):
    """What a program prints on both ways out, and its status."""
    done = subprocess.run(command, stdout=subprocess.PIPE, stderr=subprocess.PIPE, text=True)
    return done.returncode, done.stdout, done.stderr


def is_refused(skeptolyr, refusal, folder):
    """`skeptolyr draw` says the refusal's number, place and sentence on the way out for errors, ends with 1, and leaves no picture."""
    path, picture = os.path.join(SAMPLES, refusal.file), os.path.join(folder, 'picture.png')
    if refusal.number == 1:
        path = os.path.join(folder, refusal.file)
        with open(path, 'wb') as file:
            file.truncate(make.TOO_LONG)
    status, out, said = run(*skeptolyr, 'draw', path, str(refusal.field), picture)
    of_field = ', field %d' % refusal.field if refusal.number >= 8 else ''
    wanted = 'skeptolyr: %s%s: %s' % (path, of_field, manual.refused(refusal.number, refusal.place))
    faults = ['it ended with %d' % status] * (status != 1) + ['it said: %s%s' % (out, said)] * (out != '' or said.split('\n')[0] != wanted) + ['it left a picture'] * os.path.exists(picture)
    return report.judged('refusal %d at %d, %s' % (refusal.number, refusal.place, refusal.what), faults)


def are_drawn(skeptolyr, folder):
    """The samples that are not refused are drawn, each field of them."""
    faults = []
    for name, field in (('two-fields.grib2', '0'), ('two-fields.grib2', '1'), ('islands.grib2', '0'), ('lambert.grib2', '0')):
        status, _, said = run(*skeptolyr, 'draw', os.path.join(SAMPLES, name), field, os.path.join(folder, name + field))
        faults += ['%s, field %s: %d %s' % (name, field, status, said)] * (status != 0 or said != '' or not os.path.exists(os.path.join(folder, name + field)))
    return report.judged('the samples that are drawn', faults)


def sees_full_disk(numbers, path):
    """Does the program numbers see that nothing can be printed?"""
    with open('/dev/full', 'wb') as full:
        done = subprocess.run([*numbers, path, '0'], stdout=full, stderr=subprocess.PIPE)
    return done.returncode == 2 and b'could be printed' in done.stderr


def numbers_of(name):
    """What the program numbers is to print of the first field of a sample whose points are all present."""
    return ''.join('%d %.15g\n' % pair for pair in enumerate(reading.decode(MADE[name], 0, 0, 1 << 24, 1 << 24)[3]))


def are_printed():
    """The program numbers prints a field's values, and says why it does not."""
    numbers = archive.program('skeptolyr', 'examples/numbers.c')
    two = os.path.join(SAMPLES, 'two-fields.grib2')
    wanted = [
        ((os.path.join(SAMPLES, 'lambert.grib2'), '0'), (0, numbers_of('lambert.grib2'), '')),
        ((two, '0'), (0, '0 291.2\n1 missing\n2 274.8\n3 missing\n', '')), ((two, '1'), (0, '0 0.5\n1 missing\n2 0.7\n3 missing\n', '')),
        ((two, '2'), (1, '', manual.refused(8, 0) + '\n')), ((os.path.join(SAMPLES, 'accident.grib2'), '0'), (1, '', manual.refused(7, 0) + '\n'))]
    faults = ['%s: %s' % (words[1], run(*numbers, *words)) for words, want in wanted if run(*numbers, *words) != want]
    misused = [(two,), (two, '0', '0'), ('no such file', '0'), (SAMPLES, '0')] + [(two, word) for word in ('first', '', '-1', '+1', ' 1', '1x', '0x1', '9' * 30)]
    faults += ['%s: no usage' % (words,) for words in misused if run(*numbers, *words)[:2] != (2, '')]
    faults += [] if sees_full_disk(numbers, two) else ['a full disk is not seen']
    return report.judged('the program numbers', faults)


def are_pointed_at():
    """The program point prints the value under a pointer, and says why it does not: also of a damaged field, up to the damage, and of a column behind the last."""
    point, faults = archive.program('skeptolyr', 'examples/point.c'), []
    two, damaged, lambert = (os.path.join(SAMPLES, name) for name in ('two-fields.grib2', 'refused/16-difference.grib2', 'lambert.grib2'))
    of_lambert = reading.decode(MADE['lambert.grib2'], 0, 0, 1 << 24, 1 << 24)[3]
    wanted = [((two, '1', column, row), (0, printed, '')) for column, row, printed in (('0', '0', '0.5\n'), ('1', '0', 'missing\n'), ('0', '1', '0.7\n'))]
    wanted += [((lambert, '0', '81', '66'), (0, '%.15g\n' % of_lambert[-1], '')), ((lambert, '0', '5', '2'), (0, '%.15g\n' % of_lambert[2 * 82 + 5], ''))]
    wanted += [((two, '0', *words), (1, '', manual.refused(17, 0) + '\n')) for words in (('2', '0'), ('0', '2'), ('18446744073709551615', '0'), ('0', '9223372036854775808'))]
    wanted += [((two, '2', '0', '0'), (1, '', manual.refused(8, 0) + '\n')), ((os.path.join(SAMPLES, 'accident.grib2'), '0', '0', '0'), (1, '', manual.refused(7, 0) + '\n'))]
    # Of the damaged field the first two integers are in their range, and point 5 is missing. RULES, "From X to a double": (R + X 2^E) / 10^D.
    wanted += [((damaged, '0', str(n % 4), str(n // 4)), (0, printed, '')) for n, printed in ((0, '-9.375\n'), (1, 'missing\n'), (2, '-9.95\n'), (5, 'missing\n'))]
    wanted += [((damaged, '0', str(n % 4), str(n // 4)), (1, '', manual.refused(16, 200) + '\n')) for n in (3, 4, 6, 11)]
    faults += ['%s: %s, and not %s' % (words, run(*point, *words), want) for words, want in wanted if run(*point, *words) != want]
    misused = [(two,), (two, '0', '0'), (two, '0', '0', '0', '0'), ('no such file', '0', '0', '0'), (SAMPLES, '0', '0', '0')]
    misused += [(two, *('0' if i != at else word for i in range(3))) for at in range(3) for word in ('first', '', '-1', '+1', ' 1', '1x', '9' * 30)]
    faults += ['%s: no usage' % (words,) for words in misused if run(*point, *words)[:2] != (2, '') or 'usage: point ' not in run(*point, *words)[2]]
    with open('/dev/full', 'wb') as full:
        faults += ['a full disk is not seen'] * (subprocess.run([*point, two, '0', '0', '0'], stdout=full).returncode != 2)
    return report.judged('the program point', faults)


# Asks about a field of the file on standard input: for its values, in arrays with so little room, or for the place in degrees of a point.
ASKS = r'''
#include <skeptolyr.h>
#include <stdio.h>
#include <stdlib.h>

static uint8_t file[65536], presence[65536];
static double values[65536];

int main(int argc, char **argv)
{
    struct skeptolyr_position position;
    size_t length = fread(file, 1, sizeof file, stdin), field = argc > 3 ? strtoul(argv[2], NULL, 10) : 0, number = argc > 3 ? strtoul(argv[3], NULL, 10) : 0;
    uint64_t answer = argc > 3 && argv[1][0] == 'p' ? skeptolyr_place_point(file, length, field, number, &position)
                                                    : skeptolyr_decode(file, length, field, 0, values, number, presence, number);
    if (skeptolyr_is_refusal(answer))
        printf("refused %u at %u. %s\n", (unsigned)skeptolyr_refusal_number(answer), (unsigned)skeptolyr_refusal_place(answer),
               skeptolyr_refusal_text(skeptolyr_refusal_number(answer)));
    return 0;
}
'''


def are_given_to_c(folder):
    """What the command never asks, a program in C does: it gets refusals 15, 17 and 20 for the samples that the table names, in the header's words."""
    source, faults = os.path.join(folder, 'asks.c'), []
    with open(source, 'w', encoding='utf-8') as out:
        out.write(ASKS)
    program, by_c = archive.program('skeptolyr', source), [refusal for refusal in make.REFUSALS if not refusal.is_for_commands()]
    sentences = {number: sentence for _, number, _, sentence in manual.refusals()}
    for refusal in by_c:
        words = ['decode', str(refusal.field), str(refusal.room)] if refusal.room else ['place', str(refusal.field), str(refusal.point)]
        done = subprocess.run([*program, *words], input=MADE[refusal.file], stdout=subprocess.PIPE)
        if done.stdout.decode() != 'refused %d at %d. %s\n' % (refusal.number, refusal.place, sentences[refusal.number]):
            faults.append('%d: %r' % (refusal.number, done.stdout))
    faults += [] if [refusal.number for refusal in by_c] == [15, 17, 20] else ['they are %s' % by_c]
    return report.judged('refusals that a program in C gets', faults)


def main():
    skeptolyr = archive.skeptolyr()
    results = [are_as_made(), are_told_of(), are_read_as_told(), places_are_told(), pictures_are_told(), are_printed(), are_pointed_at()]
    with tempfile.TemporaryDirectory() as folder:
        results += [are_given_to_c(folder), are_drawn(skeptolyr, folder)]
        results += [is_refused(skeptolyr, refusal, folder) for refusal in make.REFUSALS if refusal.is_for_commands()]
    return report.ended(results)


if __name__ == '__main__':
    sys.exit(main())
