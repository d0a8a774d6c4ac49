"""The README shows what commands print, a picture, and which files are read. This runs the commands, draws the picture and makes such files, and compares.

  python3 -m tests.readme             compare, and end in 'N passed, M failed'
  python3 -m tests.readme --picture   draw the picture anew, docs/islands.png
"""
import os
import re
import subprocess
import sys
import tempfile
import zlib

from tests import drawing
from tests.help import grib, manual, reading, report
from tools import TOP, archive

README = os.path.join(TOP, 'README.md')
PICTURE = os.path.join(TOP, 'docs', 'islands.png')
# Where the README installs. The test installs elsewhere, and reads this for it.
PREFIX = '/tmp/skeptolyr'


def difference(shown, printed):
    """The first line in which two texts differ, in words."""
    lines, others = shown.split('\n'), printed.split('\n')
    for number in range(max(len(lines), len(others))):
        one, other = lines[number:number + 1], others[number:number + 1]
        if one != other:
            return ['line %d of what is shown is %s, and what is printed there is %s' % (number + 1, one, other)]
    return []


def opening_is_plain():
    """The README opens with five sentences before the picture. The first says GRIB2, and none has a word that one must have learnt here."""
    opening = re.match(r'# Skeptolyr\n\n(.*?)\n\n!\[', manual.text_of(README), re.S)
    sentences = re.split(r'(?<=[.?]) ', ' '.join(opening.group(1).split())) if opening else []
    faults = ['%d sentences' % len(sentences)] * (len(sentences) != 5) + ['no GRIB2 in the first'] * ('GRIB2' not in ''.join(sentences[:1]))
    learnt = r'`|\b(?:theorem|lemma|contract|refus\w+|octet|lent|tile|taken|demand|outcome|specification)s?\b'
    return report.judged("the README's opening", faults + ['"%s" in: %s' % (found.group(), sentence) for sentence in sentences for found in re.finditer(learnt, sentence)])


def not_read_yet():
    """(the row of the README's table, a file of a kind that it says is not read yet)"""
    two, grouped = grib.two_fields(), grib.grouped()
    at, groups = {number: where[0] for number, where in reading.fields(two)[0][1].items()}, reading.fields(grouped)[0][1][5][0]
    packings = [grib.spliced(two, at[5] + 9, grib.number(template, 2)) for template in (2, 40, 41, 42)]
    packings += [grib.spliced(grouped, groups + octet - 1, b'\1') for octet in (23, 48)]
    return [('Format', grib.spliced(two, 7, b'\1')), ('Centre, section 1', grib.spliced(two, at[1] + 5, grib.number(7, 2))),
            ('Local use, section 2', grib.message(two[16:at[3]], grib.section(2, b'local'), two[at[3]:-4])),
            ('Grid, section 3', grib.spliced(two, at[3] + 12, grib.number(30, 2))), ('Grid, section 3', grib.spliced(two, at[3] + 71, b'\x40')),
            ('Product, section 4', grib.spliced(two, at[4] + 7, grib.number(1, 2))), ('Product, section 4', grib.spliced(two, at[4] + 28, b'\1' + bytes(5))),
            *(('Packing, sections 5 and 7', file) for file in packings), ('Bitmap, section 6', grib.spliced(two, at[6] + 5, b'\1')),
            ('Bitmap, section 6', grib.spliced(two, at[6] + 5, b'\xfd'))]


def kinds_are_refused(folder):
    """A file of each kind that the README says is not read yet is refused, with the number that stands there in brackets."""
    numbers, path, faults = archive.program('skeptolyr', 'examples/numbers.c'), os.path.join(folder, 'kind.grib2'), []
    rows = dict(re.findall(r'^\| ([A-Z][^|]*) \|[^|]*\|[^|]*\((\d+)\) \|$', manual.text_of(README), re.M))
    for row, file in not_read_yet():
        with open(path, 'wb') as out:
            out.write(file)
        said = subprocess.run([*numbers, path, '0'], stdout=subprocess.PIPE, stderr=subprocess.STDOUT, text=True).stdout
        faults += ['%s: %s' % (row, said)] * (not said.startswith('refused %s at ' % rows.get(row)))
    faults += ['no file for the row %s' % row for row in sorted(set(rows) - {row for row, _ in not_read_yet()} - {'Size'})]
    return report.judged('the kinds of files that the README says are not read yet', faults)


def sample_is_shown():
    """What tools/sample prints stands in the README."""
    shown = re.search(r'The first prints:\n\n```\n(.*?)```\n', manual.text_of(README), re.S)
    done = subprocess.run([os.path.join(TOP, 'tools', 'sample')], stdout=subprocess.PIPE, text=True)
    return report.judged('tools/sample prints what the README shows', difference(shown.group(1) if shown else '', done.stdout) + ['it ended with %d' % done.returncode] * (done.returncode != 0))


def commands_print(folder):
    """Each command of the README's console block, in one shell, prints what the block shows behind it."""
    blocks = re.findall(r'^```console\n(.*?)^```$', manual.text_of(README), re.S | re.M)
    script = ['exec 2>&1']
    for command in re.findall(r'^\$ (.*)$', ''.join(blocks), re.M):
        script += ["cat <<'END'\n$ %s\nEND" % command, command]
    prefix = os.path.join(folder, 'installed')
    done = subprocess.run(['sh'], input='\n'.join(script).replace(PREFIX, prefix), cwd=TOP, stdout=subprocess.PIPE, text=True)
    printed = done.stdout.replace(prefix, PREFIX)
    faults = [] if blocks else ['there is no console block']
    return report.judged("the commands of the README's console block", faults + difference(''.join(blocks), printed))


# ---- the picture

def drawn(folder):
    """The picture of the sample, as `skeptolyr draw` makes it."""
    path = os.path.join(folder, 'picture.png')
    subprocess.run([*archive.skeptolyr(), 'draw', os.path.join(TOP, 'samples', 'islands.grib2'), '0', path], stdout=subprocess.DEVNULL, check=True)
    with open(path, 'rb') as picture:
        return picture.read()


def content(octets):
    """What a PNG holds: its chunks but for the pixels and for the version of the program that made it, and the pixels as they are before they are compressed."""
    chunks = drawing.chunks_of(octets)
    others = [chunk for chunk in chunks if chunk[0] != b'IDAT' and not chunk[1].startswith(b'Software\0')]
    return others, zlib.decompress(b''.join(body for name, body in chunks if name == b'IDAT'))


def picture_is_drawn(folder):
    """The README's picture is that of the sample."""
    with open(PICTURE, 'rb') as picture:
        same = content(picture.read()) == content(drawn(folder))
    faults = ([] if same else ['it is another; run python3 -m tests.readme --picture']) + ([] if '](docs/islands.png)' in manual.text_of(README) else ['the README does not show it'])
    return report.judged("the README's picture", faults)


def main():
    with tempfile.TemporaryDirectory() as folder:
        if '--picture' in sys.argv:
            with open(PICTURE, 'wb') as picture:
                picture.write(drawn(folder))
            return 0
        results = [opening_is_plain(), kinds_are_refused(folder), sample_is_shown(), commands_print(folder), picture_is_drawn(folder)]
    return report.ended(results)


if __name__ == '__main__':
    sys.exit(main())
