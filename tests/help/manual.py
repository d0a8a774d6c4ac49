"""What include/skeptolyr.h, which is the manual, says of refusals and of structs, for the suites that hold programs and pages to it."""
import os
import re

from tools import TOP

HEADER = os.path.join(TOP, 'include', 'skeptolyr.h')


def text_of(path):
    with open(path, encoding='utf-8') as text:
        return text.read()


def refusals():
    """The header's refusals: constant, number, place, and the words that follow the constant in skeptolyr_refusal_text, whose string may be cut in two."""
    strings = dict(re.findall(r'^    case (\w+): return ((?:"[^"]*"\s*)+);$', text_of(HEADER), re.M))
    rows = re.findall(r'^    (SKEPTOLYR_\w+) = +(\d+),? +/\* (.*) \*/$', text_of(HEADER), re.M)
    return [(name, int(number), place, ''.join(re.findall(r'"([^"]*)"', strings.get(name, '')))) for name, number, place in rows]


def structs():
    """The header's structs: of each, its members as (type, name, the comment that stands behind it or an empty one)."""
    found = {}
    for name, body in re.findall(r'^struct (skeptolyr_\w+) \{$(.*?)^\};$', text_of(HEADER), re.M | re.S):
        lines = re.findall(r'^    (?:struct )?(\w+) (.*?);(?: */\* (.*) \*/)?$', body, re.M)
        found[name] = [(kind, member, comment) for kind, members, comment in lines for member in members.split(', ')]
    return found


def refused(number, place):
    """What a program of ours says of a refusal."""
    return 'refused %d at %d. %s' % (number, place, next(text for _, other, _, text in refusals() if other == number))
