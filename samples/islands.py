"""A made-up sea around made-up islands: its temperature as a field by template 5.3, missing on land. It is worked out with sums, products and quotients
alone, which come out the same on every machine."""
from samples import shapes
from tests.help import grib

COLUMNS, ROWS = 181, 151
# Humps of land: column, row, how wide. Many of them lean, and make chains of islands.
LANDS = [(26, 96, 13), (40, 84, 9), (58, 80, 7), (76, 72, 9), (92, 62, 11), (104, 50, 11), (112, 36, 9), (128, 20, 12), (16, 40, 22), (0, 20, 26), (22, 128, 3), (36, 138, 3), (150, 112, 3)]
# Eddies: column, row, how wide, and how warm.
EDDIES = [(70, 96, 9, -1.0), (112, 80, 9, 0.9), (136, 58, 8, -0.8), (150, 82, 10, 1.0), (96, 112, 8, 0.5), (166, 50, 8, 0.6)]


def wave(x):
    """A wave of height 1, of parabolas, that passes 0 at each whole number."""
    turn, part = divmod(x, 1)
    return (1 - 2 * (turn % 2)) * 4 * part * (1 - part)


def hump(x, y, slant=0.0):
    """A hump of height 1 around (0, 0)."""
    return 1 / (1 + x * x + y * y + slant * x * y)


def is_land(i, j):
    heights = [hump((i - column) / width, (j - row) / width, 0.9) for column, row, width in LANDS]
    return sum(h * h * h * h * h * h for h in heights) > 0.12


def warmth(i, j):
    """The packed integer of a point: warmer southward, with a front that bends, a warm current along it, and eddies."""
    front = 74 - 0.16 * (i - 60) + 9 * wave(i / 34 + 0.3)
    across = (j - front) / 7
    eddies = [size * hump((i - column) / width, (j - row) / width) for column, row, width, size in EDDIES]
    signs = [h * abs(h) for h in eddies]
    return int(3600 + 45 * j + 1900 * across / (1 + abs(across)) + 900 * hump(0, (j - front - 6) / 6) + 1700 * sum(signs))


def file():
    marks = [int(not is_land(i, j)) for j in range(ROWS) for i in range(COLUMNS)]
    values = shapes.marked([warmth(i, j) for j in range(ROWS) for i in range(COLUMNS)], marks)
    lengths = [32] * (len(values) // 32) + [len(values) % 32] * (len(values) % 32 > 0)
    five, seven = shapes.complex_packing(values, lengths, bytes.fromhex('43868000'), -9, 0, 32, 1)
    return grib.message(
        grib.section1(grib.time(2020, 1, 1, 0, 0, 0)), shapes.area(COLUMNS, ROWS, (46000000, 124000000), (21000000, 154000000)),
        grib.instant(3, 0, 1, None, 1, 0), five, grib.section6(0, shapes.bitmap(marks)), seven, discipline=10)
