"""Writes the manual pages.

  python3 -m tools.manual FOLDER    write them into a folder, which is made if it is not there
  python3 -m tools.manual           print their names

What a page says as include/skeptolyr.h says it is taken from the header's comments, so that it stands once. What a page alone has stands in
docs/man/PAGE.in. There @VERSION@ is the header's version, and a line that starts with @ stands for a part of the header:

  @opening             the comment that opens the header, with its titles
  @synopsis NAME..     the declarations of these functions
  @description NAME    what the comment of a function says, but for what it returns
  @returns NAME        what it returns
  @functions NAME..    a list of functions, each with its comment
  @structs NAME..      a list of structs, each with its comment, and with its members where they have no comments of their own
  @numbers NAME FIRST  a list of a struct's members, each with its place where the struct is a run of numbers that starts at FIRST, or at 0, and with its
                       comment
  @constants           a list of the constants that are defined, with their comments
  @order               the comment on all refusals
  @refusals            a list of the refusals: constant, number, place and text
  @names FIRST LAST    the constants of the refusals of these numbers

A function that has no page of its own gets one that leads to the page which has its declaration.
"""
import os
import re
import sys

from tools import TOP

PAGES = os.path.join(TOP, 'docs', 'man')
# The most columns of a declaration: a page is shown in 80, of which 7 are left free.
COLUMNS = 71
# How a paragraph of a function's comment starts that has a label, and how it is said in a sentence.
LABELS = {'Takes': 'It takes ', 'Returns': 'It returns ', 'Never': 'It never '}


def text_of(*path):
    with open(os.path.join(TOP, *path), encoding='utf-8') as file:
        return file.read()


# ---- the header

class Header:
    """The parts of include/skeptolyr.h."""

    def __init__(self, text):
        self.version = re.search(r'^#define SKEPTOLYR_VERSION "(.*)"$', text, re.M).group(1)
        self.opening = re.match(r'/\* (.*?)\s*\*/\n', text, re.S).group(1)
        comments = re.findall(r'^/\* ((?:[^*]|\*(?!/))*?)\s*\*/\n((?:#define .*\n)+|.*\n)', text, re.M)
        self.constants = [(re.findall(r'#define (\w+)', below), comment) for comment, below in comments if below.startswith('#define SKEPTOLYR_')]
        self.order = next(comment for comment, below in comments if below.startswith('enum '))
        self.comments = {name: comment for comment, below in comments for name in re.findall(r'^(?!#|enum).*[ *](skeptolyr_\w+)\(', below)}
        self.declarations = {name: ' '.join(words.split()) for words, name in re.findall(r'^(\w[\w ]*[ *](skeptolyr_\w+)\([^)]*\))(?:;|\n\{)', text, re.M)}
        bodies = re.findall(r'^struct (\w+) \{\n((?: .*\n)+)\};$', text, re.M)
        self.structs = {name: re.findall(r'^ +(?:struct )?(\w+) ([\w, ]+);(?: +/\* (.*) \*/)?$', body, re.M) for name, body in bodies}
        self.struct_comments = {name: comment for comment, below in comments for name in re.findall(r'^struct (\w+) \{', below)}
        self.parameters = {name for words in self.declarations.values() for name in re.findall(r'(\w+)[,)]', words)}
        texts = {name: ''.join(re.findall(r'"([^"]*)"', said)) for name, said in re.findall(r'^    case (\w+): return ((?:"[^"]*"\s*)+);$', text, re.M)}
        rows = re.findall(r'^    (SKEPTOLYR_\w+) = +(\d+),? +/\* (.*) \*/$', text, re.M)
        self.refusals = [(name, int(number), place, texts[name]) for name, number, place in rows]

    def size(self, kind):
        """How many numbers a type of a member holds."""
        return sum(self.size(inner) * len(names.split(', ')) for inner, names, _ in self.structs[kind]) if kind in self.structs else 1

    def comment(self, name):
        """The comment of a function."""
        if name not in self.comments:
            sys.exit('include/skeptolyr.h: no comment stands right above %s: a page is made of it' % name)
        return self.comments[name]


def blocks(comment):
    """A comment, cut into what it consists of: [kind, text], where the kind is 'title', 'text', 'item', 'code' or a label."""
    found, open_block = [], None
    for line in [re.sub(r'^ \* ?', '', line) for line in comment.split('\n')]:
        label, item = re.match(r'(%s) +(.*)' % '|'.join(LABELS), line), re.match(r' +- (.*)', line)
        if line.startswith('---- '):
            found.append(['title', line[5:]])
            open_block = None
        elif label or item:
            open_block = [label.group(1), label.group(2)] if label else ['item', item.group(1)]
            found.append(open_block)
        elif not line:
            open_block = None
        elif line.startswith('    ') and (open_block is None or open_block[0] == 'code'):
            if open_block is None:
                open_block = ['code', line]
                found.append(open_block)
            else:
                open_block[1] += '\n' + line
        elif open_block is not None and (line.startswith(' ') or open_block[0] == 'text'):
            open_block[1] += ' ' + line.strip()
        else:
            open_block = ['text', line]
            found.append(open_block)
    return found


# ---- the language of manual pages

def escaped(text):
    """A text in which no sign is taken for more than itself."""
    text = text.replace('\\', '\\e').replace('^', '\\(ha')
    return re.sub(r'(?<!\w)-|-(?!\w)', r'\\-', text)


def listed(names):
    """Names in bold, in a sentence."""
    bold = ['\\fB%s\\fP' % name for name in names]
    return ', '.join(bold[:-1]) + ' and ' * (len(bold) > 1) + bold[-1]


def sentences(text):
    """One sentence a line. A line that would start with a sign of its own does not."""
    return [re.sub(r"^([.'])", r'\\&\1', line) for line in re.split(r'(?<=[.:?]) (?=[A-Z])', text)]


class Writer:
    """Turns parts of the header into lines of a page."""

    def __init__(self, header, own):
        self.header, self.own = header, own

    def words(self, text):
        """A text with its names in their fonts: those of functions and constants in bold, of parameters in italics."""
        text = escaped(re.sub(r'"([^"]*)"', r'\\[lq]\1\\[rq]', text).replace('\\[', '\0')).replace('\0', '\\[')
        text = re.sub(r'`([^`]*)`', lambda code: self.code(code.group(1)), text)
        text = re.sub(r'\bSKEPTOLYR_\w+', r'\\fB\g<0>\\fP', text)
        return re.sub(r'\bskeptolyr_\w+', lambda name: '\\fB%s\\fP%s' % (name.group(), '(3)' * self.is_elsewhere(name.group())), text)

    def is_elsewhere(self, name):
        """Is it a function that has another page?"""
        return name in self.header.declarations and name not in self.own

    def code(self, text):
        if any(name in self.header.parameters for name in re.findall(r'\w+', text)):
            return re.sub(r'\w+', lambda name: '\\fI%s\\fP' % name.group() if name.group() in self.header.parameters else name.group(), text)
        return '\\fB%s\\fP' % re.sub(r'\\?-', r'\\-', text)

    def text(self, text):
        return sentences(self.words(text))

    def comment(self, parts):
        """The lines of a comment's parts, the first of which follows a title."""
        lines, before = [], 'title'
        for kind, text in parts:
            if kind == 'title':
                lines += ['.SS ' + text]
            elif kind == 'item':
                lines += ['.IP \\(bu 2'] + self.text(text)
            elif kind == 'code':
                indent = min(len(line) - len(line.lstrip()) for line in text.split('\n'))
                lines += ['.PP', '.in +4n', '.nf'] + [escaped(line[indent:]) for line in text.split('\n')] + ['.fi', '.in']
            else:
                lines += ['.PP'] * (before != 'title') + self.text(LABELS.get(kind, '') + text)
            before = kind
        return lines

    # ---- what a line of a page that starts with @ stands for

    def opening(self):
        return self.comment(blocks(self.header.opening))

    def synopsis(self, *names):
        """Declarations, with each pointer at the start of a line where one line does not do."""
        lines = []
        for name in names:
            before, start, rest = re.match(r'(.*?)(skeptolyr_\w+\()(.*)\)', self.header.declarations[name]).groups()
            # The type stands on a line of its own where a parameter would not fit behind it and the name.
            if len(before + start) + max(map(len, rest.split(', '))) + 2 > COLUMNS:
                lines.append('\\fB%s\\fP' % before.strip())
            else:
                start = before + start
            is_long, parts = len(start + rest + ');') > COLUMNS, ['']
            for parameter in rest.split(', '):
                joined = parts[-1] + ', ' * bool(parts[-1]) + parameter
                if is_long and parts[-1] and ('*' in parameter or len(start + joined + ',') > COLUMNS):
                    parts.append(parameter)
                else:
                    parts[-1] = joined
            parts = [re.sub(r'(\w+)(?=,|$)', r'\\fI\1\\fB', part) for part in parts]
            lines += ['\\fB%s\\fP' % line for line in (start + (',\n' + ' ' * len(start)).join(parts) + ');').split('\n')]
        return lines

    def description(self, name):
        return self.comment([block for block in blocks(self.header.comment(name)) if block[0] != 'Returns'])

    def returns(self, name):
        return self.comment([block for block in blocks(self.header.comment(name)) if block[0] == 'Returns'])

    def functions(self, *names):
        lines = []
        for name in names:
            lines += ['.TP', '.B ' + name] + self.comment(blocks(self.header.comment(name)))
        return lines

    def structs(self, *names):
        lines = []
        for name in names:
            kinds, joined, comments = zip(*self.header.structs[name])
            lines += ['.TP', '.B struct ' + name] + self.comment(blocks(self.header.struct_comments[name]))
            # Members that have comments of their own are told by @numbers.
            if not any(comments):
                lines += ['Its members are \\fB%s\\fP: %s.' % (kind, listed(names.split(', '))) for kind, names in zip(kinds, joined)]
        return lines

    def numbers(self, name, first='0'):
        """A member that has no comment stands with the one before it, or has the comment of its struct."""
        place, rows = int(first), []
        for kind, joined, comment in self.header.structs[name]:
            text = comment or self.header.struct_comments.get(kind, '')
            for member in joined.split(', '):
                last = place + self.header.size(kind) - 1
                where = '%d' % place if last == place else '%d to %d' % (place, last)
                if not text and rows:
                    rows[-1][0].append((member, where))
                else:
                    rows.append(([(member, where)], kind, text))
                place = last + 1
        lines = []
        for members, kind, text in rows:
            head = ', '.join('\\fB%s\\fP (%s)' % pair for pair in members)
            lines += ['.TP', head] + ['\\fBstruct %s\\fP:' % kind] * (kind in self.header.structs) + self.comment(blocks(text))
        return lines

    def constants(self):
        lines = []
        for names, comment in self.header.constants:
            lines += ['.TP', '.BR ' + ' ", " '.join(names)] + self.comment(blocks(comment))
        return lines

    def order(self):
        return self.comment(blocks(self.header.order))

    def refusals(self):
        """A text of a refusal is shown as programs print it, so its names lead to no page."""
        lines = []
        for name, number, place, text in self.header.refusals:
            lines += ['.TP', '.BR %s " (%d), place: %s"' % (name, number, place)] + sentences(escaped(text))
        return lines

    def names(self, first, last):
        names = [name for name, number, _, _ in self.header.refusals if int(first) <= number <= int(last)]
        return ['.BR %s ,' % name for name in names[:-1]] + ['and', '.BR %s .' % names[-1]]


# ---- the pages

def page(source, header):
    """A page, made of the text of its source."""
    own = set(re.findall(r'\bskeptolyr_\w+', ''.join(re.findall(r'^@synopsis .*$', source, re.M))))
    writer, lines = Writer(header, own), []
    for line in source.replace('@VERSION@', header.version).split('\n'):
        if line.startswith('@'):
            word, *names = line[1:].split()
            lines += getattr(writer, word)(*names)
        else:
            lines.append(line)
    return '\n'.join(lines)


def pages():
    """Each page's name and text."""
    header, found, homes = Header(text_of('include', 'skeptolyr.h')), {}, {}
    for name in sorted(name for name in os.listdir(PAGES) if name.endswith('.in')):
        source = text_of(PAGES, name)
        found[name[:-len('.in')]] = page(source, header)
        homes.update({function: name[:-len('.in')] for function in re.findall(r'\bskeptolyr_\w+', ''.join(re.findall(r'^@synopsis .*$', source, re.M)))})
    for function in header.declarations:
        if function not in homes:
            sys.exit('docs/man: no page has a line @synopsis with %s, which include/skeptolyr.h declares' % function)
        found.setdefault(function + '.3', '.so man3/%s\n' % homes[function])
    return found


def main():
    if len(sys.argv) > 2:
        sys.exit('usage: python3 -m tools.manual FOLDER, with the folder that the pages are written into')
    if len(sys.argv) == 1:
        print('\n'.join(sorted(pages())))
        return
    os.makedirs(sys.argv[1], exist_ok=True)
    for name, text in pages().items():
        with open(os.path.join(sys.argv[1], name), 'w', encoding='ascii') as out:
            out.write(text)


if __name__ == '__main__':
    main()
