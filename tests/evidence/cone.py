"""A grid on the Agency's cone by the formulas of its projection, Lambert's conformal one of a sphere: places in degrees on the sheet, and back. ecCodes tells
places in degrees only, so that a place on the sheet can be compared with it by these formulas."""
import math

from tests.help import grib

NI, NJ = 817, 661
# The first point in millionths of a degree, and Dx and Dy in metres. The Agency's rows are 5 km apart as well, but then Dx could be taken for Dy unseen.
FIRST, DX, DY = (44137789, 102008758), 5000, 4000
# Of the cone the radius in metres, and the upright meridian and the cutting latitudes in degrees.
RADIUS, UPRIGHT, CUTTING = 6371000, 140.0, (60.0, 30.0)
# Octet 65 where rows go upward.
UPWARD = 0x40


def stretched(latitude):
    """What a latitude comes to along a meridian of the sheet of a cylinder, from which that of the cone is made."""
    return math.tan(math.pi / 4 + math.radians(latitude) / 2)


SHARE = math.log(math.cos(math.radians(CUTTING[0])) / math.cos(math.radians(CUTTING[1]))) / math.log(stretched(CUTTING[1]) / stretched(CUTTING[0]))
SCALE = RADIUS * math.cos(math.radians(CUTTING[0])) * stretched(CUTTING[0]) ** SHARE / SHARE


def on_sheet(latitude, longitude):
    """How far a place lies to the right of the cone's tip and above it, in metres. On the earth's northern half it lies below."""
    far, turned = SCALE / stretched(latitude) ** SHARE, SHARE * math.radians(longitude - UPRIGHT)
    return far * math.sin(turned), -far * math.cos(turned)


def in_degrees(right, above):
    """The latitude and the longitude of a place on the sheet."""
    far, turned = math.hypot(right, above), math.atan2(right, -above)
    return math.degrees(2 * math.atan((SCALE / far) ** (1 / SHARE)) - math.pi / 2), UPRIGHT + math.degrees(turned / SHARE)


def file_on(section3):
    """A file of one field on a grid, whose points take no bits."""
    field = [grib.instant(0, 0, 103, (0, 2), 1, 1), grib.section5(NI * NJ, bytes(4), 0, 0, 0), grib.section6(255), grib.section7([], 0)]
    return grib.message(grib.section1(grib.time(2017, 5, 15, 12, 0, 0)), section3, *field)


def downward():
    """The grid as the Agency tells its own: from its upper left corner."""
    return file_on(grib.section3_lambert(NI, NJ, FIRST, 1000 * DX, 1000 * DY))


def upward():
    """The same points told from the lower left corner, in rows that follow one another upward. The rules do not take it, since octet 65 is not 0."""
    right, above = on_sheet(*(angle / 1e6 for angle in FIRST))
    corner = tuple(round(1e6 * angle) for angle in in_degrees(right, above - DY * (NJ - 1)))
    return file_on(grib.spliced(grib.section3_lambert(NI, NJ, corner, 1000 * DX, 1000 * DY), 64, bytes([UPWARD])))


def from_below(n):
    """The number of the same point where the rows are counted from below."""
    j, i = divmod(n, NI)
    return (NJ - 1 - j) * NI + i


def from_first(latitude, longitude):
    """How far a place in degrees lies to the right of the first point, and how far below it, in metres."""
    right, above = on_sheet(latitude, longitude)
    first_right, first_above = on_sheet(*(angle / 1e6 for angle in FIRST))
    return right - first_right, first_above - above
