"""Two made-up lows, which wind cold air and warm air around themselves: a temperature as a field by template 5.3, on the sheet of a Lambert map. It is worked
out with sums, products, quotients and square roots alone, which come out the same on every machine."""
import math

from samples import shapes
from tests.help import grib

# Every tenth column and every tenth row of the grid of 817 x 661 points in the Agency's paper on model levels. They lie 50 km apart.
COLUMNS, ROWS, STEP = 82, 67, 50000000
# The column and the row where the North Pole would lie on the sheet: parallels are circles around it.
POLE = 56.4, -109.8
# Lows: column, row, how wide, and how far they turn what lies around them.
LOWS = [(52, 29, 12, 1.5), (17, 25, 6, 1.1)]


def hump(x, y):
    """A hump of height 1 around (0, 0)."""
    return 1 / (1 + x * x + y * y)


def turned(x, y, tangent):
    """A place that is turned around (0, 0), by the angle half of which has this tangent."""
    square = tangent * tangent
    cosine, sine = (1 - square) / (1 + square), 2 * tangent / (1 + square)
    return cosine * x - sine * y, sine * x + cosine * y


def origin(i, j):
    """Where the air of a point was before the lows turned it. Near a low it has come all the way around."""
    for column, row, width, turn in LOWS:
        x, y = i - column, j - row
        near = hump(x / width, y / width)
        for _ in range(3):
            x, y = turned(x, y, turn * near * near)
        i, j = column + x, row + y
    return i, j


def warmth(i, j):
    """The packed integer of a point, in thirty-seconds of a kelvin: warmer southward, with a front along a parallel."""
    x, y = origin(i, j)
    across = (math.sqrt((x - POLE[0]) * (x - POLE[0]) + (y - POLE[1]) * (y - POLE[1])) - 140) / 6
    return int(32 * (30 + 0.9 * across + 16 * across / (1 + abs(across))))


def file():
    values = [warmth(i, j) for j in range(ROWS) for i in range(COLUMNS)]
    lengths = [32] * (len(values) // 32) + [len(values) % 32] * (len(values) % 32 > 0)
    five, seven = shapes.complex_packing(values, lengths, bytes.fromhex('43780000'), -5, 0, 32, 1)
    return grib.message(
        grib.section1(grib.time(2020, 1, 1, 0, 0, 0)), grib.section3_lambert(COLUMNS, ROWS, (44137789, 102008758), STEP, STEP),
        grib.instant(0, 0, 103, (1, 15), 1, 3), five, grib.section6(255), seven)
