"""The suites that `make test` runs beside `rt ci`, in the order in which they are shown, and how many tests each has.

The numbers stand here and not in the suites, so that a suite which loses a test is noticed: a suite with fewer tests than this, or with more, fails.
Whoever adds a test or takes one away writes the new number here.
"""
from typing import NamedTuple


class Suite(NamedTuple):
    """A module of tests/, the number of its tests, what it is called when it is shown, and whether it is started before the others, since it takes
    about as long as all of them."""
    name: str
    tests: int
    what: str
    starts_first: bool = False


SUITES = [
    Suite('gate', 14, 'the gate itself, with suites that lose tests, die, skip and fail'),
    Suite('house', 32, 'the rules of the house'),
    Suite('header', 13, 'the header, which is the manual, against the rules and the proved definition'),
    Suite('leaves', 7, 'the leaf layers against computations of their own'),
    Suite('tiling', 3, 'the archive that C links against an independent reading'),
    Suite('fields', 28, 'descriptions, places, sheets and listings against an independent reading'),
    Suite('decoding', 16, 'every double and every presence against an independent reading'),
    Suite('points', 17, 'the value of one point against an independent reading and against decode'),
    Suite('samples', 24, 'the samples: one of each refusal, put to the command and to example programs'),
    Suite('drawing', 16, 'pictures of fields, pixel by pixel'),
    Suite('pictures', 33, 'pictures in shades of grey, octet for octet, and in the readers of others'),
    Suite('install', 30, 'what make install installs, and its pages against the header'),
    Suite('command', 29, 'the command skeptolyr: what each of its subcommands prints, and bad inputs'),
    Suite('nearest', 12, 'one point of a field: by its number, the nearest one to a place, and those of damaged fields'),
    Suite('dump', 10, 'what dump marks, on either side of each rule and on damaged files'),
    Suite('readme', 5, 'the README: what its commands print, its picture, and which files it says are read'),
    Suite('evidence', 97, 'the independent decoder, on files made and damaged by the hundred thousand', starts_first=True),
]

# What several suites use, by the module that builds it and the words it is given. It is built before they start, so that no two of them build it at once.
SHARED = [
    ('tools.built', 'library', 'skeptolyr'), ('tools.module', 'skeptolyr'), ('tools.built', 'program', 'listing'), ('tools.built', 'program', 'tests_ask')]
