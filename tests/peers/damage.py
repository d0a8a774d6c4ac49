"""Damaged files, from the rules alone: one good file of three messages, and what can befall it. Each kind of damage has a name in plain words. The good file
is on a grid in degrees, and for damage that a Lambert grid alone can have it is on a Lambert grid.

Where nothing else is said, the damage is in the middle message, so that a reader has a good message before it and another after it.
"""
import sys

from samples import shapes
from tests.help import grib

NI, NJ = 8, 6
MARKS = [int(point % 6 != 5) for point in range(NI * NJ)]
PRESENT = sum(MARKS)
LENGTHS = [9, 12, 8, 11]
# The sections of a message by their order: those of its first field, and those of its second.
FIRST = {1: 0, 3: 1, 4: 2, 5: 3, 6: 4, 7: 5}
SECOND = {4: 6, 5: 7, 6: 8, 7: 9}
DAMAGED = 1
FIELDS = 6
# The accident that cost the user forty animations, by its name among the kinds of damage.
ACCIDENT = 'the accident: cut in section 7, the next message follows directly'


# ---- the good file

def good_message(m):
    """Temperature by 5.0 under a bitmap, and the wind eastward at 10 m by 5.3 under the same bitmap, so many hours ahead."""
    temperatures = [(700 + 31 * m + 7 * point + point * point % 13) % 1024 for point in range(PRESENT)]
    winds = [200 + 9 * m + (point - 20) ** 2 // 3 + point * 5 % 7 for point in range(PRESENT)]
    five, seven = shapes.complex_packing(winds, LENGTHS, bytes.fromhex('c1a00000'), -3, 0, 8, 3)
    return [
        grib.section1(grib.time(2017, 5, 15, 12, 0, 0)),
        grib.section3(NI, NJ, (36000000, 135000000), (35000000, 136400000), 200000, 200000),
        grib.instant(0, 0, 100, (-2, 850), 1, 1 + m), grib.section5(PRESENT, bytes.fromhex('45200000'), 0, 1, 12),
        grib.section6(0, shapes.bitmap(MARKS)), grib.section7(temperatures, 12),
        grib.instant(2, 2, 103, (0, 10), 1, 1 + m), five, grib.section6(254), seven]


def good_messages():
    return [good_message(m) for m in range(3)]


def file_of(messages):
    return b''.join(grib.message(*sections) for sections in messages)


def good_file():
    return file_of(good_messages())


def lambert_section():
    """A section 3 for the same points on the Agency's cone, further apart to the right than downward."""
    return grib.section3_lambert(NI, NJ, (36000000, 135000000), 5000000, 4000000)


def lambert_file(damaged=None):
    """The good file on a Lambert grid. The middle message may have another section 3."""
    messages = [sections[:FIRST[3]] + [lambert_section()] + sections[FIRST[3] + 1:] for sections in good_messages()]
    messages[DAMAGED][FIRST[3]] = damaged or lambert_section()
    return file_of(messages)


def starts():
    """Where each message starts, and where the file ends."""
    found = [0]
    for sections in good_messages():
        found.append(found[-1] + len(grib.message(*sections)))
    return found


def place(order, octet=1):
    """The place in the file of an octet of a section of the damaged message."""
    return starts()[DAMAGED] + 16 + sum(map(len, good_messages()[DAMAGED][:order])) + octet - 1


# ---- ways to damage it

def written_over(at, octets):
    return grib.spliced(good_file(), at, octets)


def octets_changed(order, octet, octets):
    """Other octets in a section, from an octet of its own on."""
    return written_over(place(order, octet), octets)


def resectioned(change):
    """The good file with the damaged message's list of sections changed, and that message's length right."""
    messages = good_messages()
    messages[DAMAGED] = change(messages[DAMAGED])
    return file_of(messages)


def section_instead(order, section):
    return resectioned(lambda sections: sections[:order] + [section] + sections[order + 1:])


def bit_flipped(at, bit=0):
    file = good_file()
    return written_over(at, bytes([file[at] ^ 128 >> bit]))


def length_stated(length):
    return written_over(starts()[DAMAGED] + 8, grib.number(length, 8))


def section_length_stated(order, change):
    """The length that a section states, made longer or shorter."""
    return octets_changed(order, 1, grib.number(change(len(good_messages()[DAMAGED][order])), 4))


def accident(at):
    """The middle message is cut at a place, and the last message follows directly."""
    return good_file()[:at] + good_file()[starts()[2]:]


def interleaved(left, right, block=64):
    """Two runs of octets, a block of each in turn."""
    longest = max(len(left), len(right))
    return b''.join(left[at:at + block] + right[at:at + block] for at in range(0, longest, block))


# ---- kinds of damage

def transfers():
    """The file as a whole came over badly."""
    file, (_, second, third, end) = good_file(), starts()
    inside = place(SECOND[7], 20)
    return [
        ('cut in the middle of the last message', file[:(third + end) // 2]),
        ('cut inside the last section 7', file[:end - 10]),
        ('cut in the closing 7777', file[:end - 2]),
        ('cut in the first 16 octets of the last message', file[:third + 10]),
        ('cut just where the last message begins', file[:third]),
        (ACCIDENT, accident(inside)),
        ('the accident, cut in the first field\'s section 7', accident(place(FIRST[7], 20))),
        ('the accident, cut in section 3', accident(place(FIRST[3], 20))),
        ('the accident, cut in section 4', accident(place(SECOND[4], 20))),
        ('the accident, cut in the closing 7777', accident(third - 2)),
        ('9 octets lost from a section 7', file[:inside] + file[inside + 9:]),
        ('9 octets lost from a section 7, the message\'s length put right',
         grib.spliced(file[:inside] + file[inside + 9:], second + 8, grib.number(third - second - 9, 8))),
        ('3 octets put into a section 7', file[:inside] + b'\x00\x11\x22' + file[inside:]),
        ('64 octets in the middle are zeros', written_over(place(SECOND[5], 30), bytes(64))),
        ('each line feed became two octets, as in text mode', file.replace(b'\n', b'\r\n')),
        ('the top bit of every octet was lost', bytes(octet & 127 for octet in file)),
        ('8 zeros after the last message', file + bytes(8)),
        ('40 other octets after the last message', file + b'x' * 40),
        ('a line of text before the first message', b'Content-Type: application/grib\r\n\r\n' + file),
        ('a line of text between two messages', file[:third] + b'-- the next part follows here --\r\n' + file[third:]),
        ('two messages interleaved', file[:second] + interleaved(file[second:third], file[third:])),
        ('no octet at all', b''),
        ('a page of text in place of the file', b'<html><body>503 Service Unavailable</body></html>\n'),
    ]


def heads():
    """Section 0 is not what was written."""
    second, length = starts()[1], starts()[2] - starts()[1]
    return [
        ('RGIB for GRIB', written_over(second, b'RG')),
        ('edition 1', written_over(second + 7, b'\x01')),
        ('the message\'s length is 1 too large', length_stated(length + 1)),
        ('the message\'s length is 1 too small', length_stated(length - 1)),
        ('the message\'s length is that of two messages', length_stated(starts()[3] - second)),
        ('the message\'s length is 2^32 too large', length_stated(length + 2 ** 32)),
        ('the message\'s length is 0', length_stated(0)),
        ('X777 for 7777', written_over(starts()[2] - 4, b'X')),
    ]


def tilings():
    """The sections of a message do not fit one another."""
    left = sum(map(len, good_messages()[DAMAGED][FIRST[5]:]))
    return [
        ('section 5 states the length 0', section_length_stated(FIRST[5], lambda length: 0)),
        ('section 5 states the length 4', section_length_stated(FIRST[5], lambda length: 4)),
        ('section 5 states a length past the file\'s end', section_length_stated(FIRST[5], lambda length: 2 ** 31)),
        ('section 5 states a length into 7777', section_length_stated(FIRST[5], lambda length: left + 2)),
        ('section 5 states a length 1 too large', section_length_stated(FIRST[5], lambda length: length + 1)),
        ('section 7 states a length 1 too small', section_length_stated(FIRST[7], lambda length: length - 1)),
        ('the last section 7 states a length 1 too large', section_length_stated(SECOND[7], lambda length: length + 1)),
        ('sections 4 and 5 have changed places', resectioned(lambda s: s[:2] + [s[3], s[2]] + s[4:])),
        ('a section 4 is missing', resectioned(lambda s: s[:6] + s[7:])),
        ('a section 5 stands twice', resectioned(lambda s: s[:4] + s[3:])),
        ('the last section 7 is missing', resectioned(lambda s: s[:9])),
        ('section 3 is missing', resectioned(lambda s: s[:1] + s[2:])),
        ('nothing between section 0 and 7777', resectioned(lambda s: [])),
        ('section 7 bears the number 9', octets_changed(FIRST[7], 5, b'\x09')),
    ]


def bitmaps():
    """Section 6 and the number of values."""
    marks = shapes.bitmap(MARKS)
    return [
        ('the bitmap is 1 octet short', section_instead(FIRST[6], grib.section6(0, marks[:-1]))),
        ('the bitmap marks 1 point less than there are values', bit_flipped(place(FIRST[6], 7))),
        ('the bitmap marks 1 point more than there are values', bit_flipped(place(FIRST[6], 7), 5)),
        ('254 with no bitmap before it in the file', file_of([good_message(1)[:4] + [grib.section6(254)] + good_message(1)[5:]] + good_messages()[1:])),
        ('254 with a bitmap only in the message before', section_instead(FIRST[6], grib.section6(254))),
        ('indicator 3, a bitmap that the centre defines', section_instead(FIRST[6], grib.section6(3))),
        ('255, all present, with fewer values than points', section_instead(FIRST[6], grib.section6(255))),
        ('N is 1 too large', octets_changed(FIRST[5], 6, grib.number(PRESENT + 1, 4))),
        ('N is 1 too small', octets_changed(FIRST[5], 6, grib.number(PRESENT - 1, 4))),
        ('N is 2^32 - 1', octets_changed(FIRST[5], 6, b'\xff' * 4)),
    ]


def packings():
    """Sections 5 and 7."""
    seven = good_messages()[DAMAGED][SECOND[7]]
    return [
        ('12 bits became 13', octets_changed(FIRST[5], 20, b'\x0d')),
        ('12 bits became 11', octets_changed(FIRST[5], 20, b'\x0b')),
        ('12 bits became 32', octets_changed(FIRST[5], 20, bytes([32]))),
        ('12 bits became 33', octets_changed(FIRST[5], 20, bytes([33]))),
        ('12 bits became 255', octets_changed(FIRST[5], 20, b'\xff')),
        ('R is not a number', octets_changed(FIRST[5], 12, bytes.fromhex('7fc00000'))),
        ('R is infinite', octets_changed(FIRST[5], 12, bytes.fromhex('7f800000'))),
        ('E is 300', octets_changed(FIRST[5], 16, grib.signed(300, 2))),
        ('D is 23', octets_changed(FIRST[5], 18, grib.signed(23, 2))),
        ('D is 400', octets_changed(FIRST[5], 18, grib.signed(400, 2))),
        ('5.3: the group lengths add up to 1 more than N', octets_changed(SECOND[5], 43, grib.number(LENGTHS[-1] + 1, 4))),
        ('5.3: the group lengths add up to 1 less than N', octets_changed(SECOND[5], 43, grib.number(LENGTHS[-1] - 1, 4))),
        ('5.3: the last group\'s length is 2^32 - 1', octets_changed(SECOND[5], 43, b'\xff' * 4)),
        ('5.3: 0 groups', octets_changed(SECOND[5], 32, grib.number(0, 4))),
        ('5.3: more groups than values', octets_changed(SECOND[5], 32, grib.number(PRESENT + 1, 4))),
        ('5.3: widths from 40 bits on', octets_changed(SECOND[5], 36, bytes([40]))),
        ('5.3: section 7 is 4 octets short', section_instead(SECOND[7], grib.section(7, seven[5:-4]))),
        ('5.3: section 7 is 4 octets long', section_instead(SECOND[7], grib.section(7, seven[5:] + bytes(4)))),
        ('5.3: section 7 holds nothing', section_instead(SECOND[7], grib.section(7, b''))),
        ('5.3: Zmin is -32,767, and X falls below 0', octets_changed(SECOND[7], 10, b'\xff' * 2)),
        ('5.3: octet 49 is 0', octets_changed(SECOND[5], 49, b'\x00')),
        ('5.0: a bit of a packed value is flipped', bit_flipped(place(FIRST[7], 30), 3)),
        ('5.3: a bit of a packed value is flipped', bit_flipped(place(SECOND[7], len(seven) - 3), 4)),
    ]


def meanings():
    """Sections 1, 3 and 4."""
    return [
        ('Ni is 9 and the points stay 48', octets_changed(FIRST[3], 31, grib.number(9, 4))),
        ('Ni is 0', octets_changed(FIRST[3], 31, grib.number(0, 4))),
        ('Ni is 2^32 - 1', octets_changed(FIRST[3], 31, b'\xff' * 4)),
        ('the points are 49 and Ni x Nj stays 48', octets_changed(FIRST[3], 7, grib.number(49, 4))),
        ('the last latitude is lost to zeros', octets_changed(FIRST[3], 56, bytes(4))),
        ('the scanning mode says south to north', octets_changed(FIRST[3], 72, b'\x40')),
        ('hour 25', octets_changed(FIRST[1], 17, bytes([25]))),
        ('month 13', octets_changed(FIRST[1], 15, bytes([13]))),
        ('30 February', octets_changed(FIRST[1], 15, bytes([2, 30]))),
        ('unit of time 77', octets_changed(FIRST[4], 18, bytes([77]))),
        ('a bit of the parameter is flipped', bit_flipped(place(FIRST[4], 11), 7)),
    ]


def lambert_changed(octet, octets):
    """Other octets in the Lambert section 3, from an octet of its own on."""
    return lambert_file(grib.spliced(lambert_section(), octet - 1, octets))


def sheets():
    """Section 3 of a Lambert grid."""
    section3 = lambert_section()
    return [
        ('Lambert: Ni is 9 and the points stay 48', lambert_changed(31, grib.number(9, 4))),
        ('Lambert: the template says 3.0', lambert_changed(13, grib.number(0, 2))),
        ('Lambert: section 3 is 9 octets short', lambert_file(grib.section(3, section3[5:-9]))),
        ('Lambert: section 3 is 1 octet long', lambert_file(grib.section(3, section3[5:] + b'\xff'))),
        ('Lambert: the first latitude is 100 degrees', lambert_changed(39, grib.signed(100000000, 4))),
        ('Lambert: the upright meridian is 400 degrees', lambert_changed(52, grib.number(400000000, 4))),
        ('Lambert: a cutting latitude is lost to ones', lambert_changed(66, b'\xff' * 4)),
        ('Lambert: Dx is 0', lambert_changed(56, grib.number(0, 4))),
        ('Lambert: Dx is 2^32 - 1', lambert_changed(56, b'\xff' * 4)),
        ('Lambert: Dy is 2^31', lambert_changed(60, grib.number(2 ** 31, 4))),
        ('Lambert: the scanning mode says upward', lambert_changed(65, b'\x40')),
        ('Lambert: a bit of Dx is flipped', lambert_changed(59, bytes([section3[58] ^ 1]))),
    ]


GROUPS = [('The transfer', transfers), ('Section 0 and the end', heads), ('The order and the lengths of sections', tilings),
          ('The bitmap and the count', bitmaps), ('The packing', packings), ('Time, grid and product', meanings), ('A Lambert grid', sheets)]


def good_of(group):
    """The good file that the files of a group were before they were damaged."""
    return lambert_file() if dict(GROUPS)[group] is sheets else good_file()


def kinds():
    """(group, name, file) of every kind of damage. Two kinds of one name, or a file that is not damaged, are a fault of this page."""
    found = [(group, name, file) for group, make in GROUPS for name, file in make()]
    names = {name for _, name, _ in found}
    if len(names) < len(found) or any(file == good_of(group) for group, _, file in found):
        sys.exit('damage: a kind of damage stands twice, or does no damage')
    return found
