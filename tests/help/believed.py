"""Counts what is believed: the lines that whoever relies on the promises has to read, and no others, by file.

It starts from the promises: all definitions of the crates of theorems, the contracts of the functions that users call, and the statements of the theorems that
docs/DEMANDS.md cites. It goes on to every definition that one of them names, and to those that these name. It stops at the names that the contracts cite and
that theorems characterise (PINNED), so that nobody needs to read how these are defined. The structs and enums that are named on the way are counted by
themselves."""
import functools
import glob
import os
import re
import sys

TOP = os.path.dirname(os.path.dirname(os.path.dirname(os.path.abspath(__file__))))

# What check, describe, place, sheet, decode, point, picture and rebuild_one answer, and what decode and picture, and describe, place, sheet and point for C, leave in
# the runs: demands 1, 2 and 3 say what they are.
PINNED = {
    'tiling/specs/Tiling.antt': {'check'},
    'question/specs/Describe.antt': {'describe'},
    'question/specs/Judge.antt': {'judge'},
    'question_place/specs/Place.antt': {'place', 'sheet', 'on_degrees', 'on_lambert'},
    'question_decode/specs/Decoding.antt': {'answer', 'values_left', 'presence_left'},
    'question_point/specs/Point.antt': {'point', 'point_into'},
    'question_picture/specs/Picture.antt': {'pictured', 'run_left'},
    'doubles/specs/Doubles.antt': {'rebuild_one', 'value_of'},
    'skeptolyr/specs/Codes.antt': {'point_code', 'point_left', 'picture_code', 'numbers_code', 'numbers_left', 'described_for', 'placed_for', 'sheet_for'},
}
# The function that the program `listing` calls for all that it prints: docs/DEMANDS.md lists the program, since this one asks for a run that is long enough.
LISTING = 'listing_file::list'

HEAD = re.compile(r'\s*(?:(?:abbrev|unfoldable) )?(?:pub )?(?:(?:record|data) )?([^\s():]+)(?: \((?:[^()]|\([^()]*\))*\)| \{[^}]*\})* :(?: |$)')
OPENS = re.compile(r'\s*(?:abbrev |unfoldable |pub |record |data )')
FUNCTION = re.compile(r'\s*pub (?:extern "C" )?fn (\w+)')
SHAPE = re.compile(r'\s*pub (?:struct|enum) (\w+)')
METHODS = re.compile(r'impl(?:<[^>]*>)? (\w+)(?:<[^>]*>)? \{$')
USE = re.compile(r'(?:ghost )?use Rattle\.(\w+)\.(specs|proofs)\.(.*?)(?:\.\{(.*)\})?(?: as (\S+?))?;?$')
# The contracts of a crate's functions, which the checker makes of src/.
CONTRACTS = re.compile(r'use Rattle\.(\w+)\.specs\.contracts as (\S+)$')
CLAUSE = re.compile(r'\s*(?:requires|ensures)(?: \w+)? \{')


def depth(line):
    return len(line) - len(line.lstrip())


def is_comment(line):
    return bool(re.match(r'\s*(--|//)', line))


def read(name):
    with open(os.path.join(TOP, name), encoding='utf-8') as text:
        return text.read().split('\n')


class File:
    """One file of a crate: the lines of each thing that it defines, by number, and where the names come from that its `use` lines bring."""

    def __init__(self, name):
        self.name, self.crate = name, name.split('/')[0]
        self.lines = read('crates/' + name)
        self.brought, self.modules, self.defined, self.cases, self.modules_at = {}, {}, {}, {}, {}
        for line in self.lines:
            self.read_use(line)
        if name.endswith('.rt'):
            self.read_source()
        elif '/specs/' in name:
            self.read_definitions()
        else:
            self.read_statements()

    def read_use(self, line):
        """Notes what a `use` line of ours brings: a file and a name in it, or a file under another name. A struct or an enum comes from its crate's src/."""
        own = re.match(r'use (\w+)::(?:(\w+)|\{(.*)\});', line)
        use = USE.match(line)
        for shape in (own.group(2) or own.group(3)).split(', ') if own else []:
            self.brought[shape] = (own.group(1) + '/src', shape)
        if not use or use.group(1) not in order() or CONTRACTS.match(line):
            return
        crate, folder, path, names, alias = use.groups()
        shape = path.split('.')[1] if path.startswith('declared.') else None
        target = crate + '/src' if shape else '%s/%s/%s.antt' % (crate, folder, path.split('.')[0])
        for part in names.split(', ') if names else []:
            self.brought[part.split(' as ')[-1]] = (target, shape or part.split(' as ')[0])
        if not names:
            self.modules[alias or path.split('.')[-1]] = (target, shape)

    def read_definitions(self):
        name, outer = None, None
        for number, line in enumerate(self.lines):
            if not line.strip():
                name = None
            elif re.match(r'\s*(--|use |infix)|pub mod ', line):
                continue
            elif re.match(r'\s*module ', line):
                outer, name = number, None
            else:
                head = HEAD.match(line)
                if head and (OPENS.match(line) or name is None) and not self.within(name, line):
                    name = head.group(1)
                    self.define(name, number, outer)
                elif name:
                    self.defined[name].append(number)
                    self.note_case(name, line)

    def define(self, name, number, outer):
        self.defined[name] = [number]
        if outer is not None and self.lines[number].startswith(' '):
            self.modules_at[name] = outer

    def note_case(self, name, line):
        """The cases of a data: who names one of them has to read the whole."""
        case = re.match(r'\s+([^\s():]+) :', line)
        if case and self.within(name, line) and 'data ' in self.lines[self.defined[name][0]]:
            self.cases[case.group(1)] = name

    def within(self, name, line):
        """Is it a field or a case of the record or the data that was opened last?"""
        opening = self.lines[self.defined[name][0]] if name else ''
        return bool(re.match(r'\s*(pub )?(record|data) ', opening)) and depth(line) > depth(opening)

    def read_statements(self):
        """The theorems of a file of proofs/, each by its statement alone, and what else is defined there."""
        outer, name = None, None
        for number, line in enumerate(self.lines):
            head = re.match(r'(?:  )?(?:abbrev |unfoldable )?(?:pub )?(?:record |data )?([^\s():]+)(?: [({].*[)}])? :', line)
            if re.match(r'module ', line):
                outer, name = number, None
            elif head:
                name = head.group(1)
                self.define(name, number, outer)
            elif name and line.strip() and depth(line) > depth(self.lines[self.defined[name][0]]):
                self.defined[name] += [] if is_comment(line) else [number]
            else:
                name = None

    def read_source(self):
        """The contracts of the public functions, and the structs and enums. A method goes by its type's name and its own."""
        name, within = None, ''
        for number, line in enumerate(self.lines):
            methods = METHODS.match(line)
            within = methods.group(1) + '.' if methods else '' if line.startswith('}') else within
            head = FUNCTION.match(line) or SHAPE.match(line)
            if head:
                name = within + head.group(1)
                self.define(name, number, None)
            elif name and line.strip() and not line.lstrip().startswith('{') and not is_comment(line):
                self.defined[name].append(number)
            opens = name and self.is_contract(name) and line.endswith('{')
            if line.startswith('}') or line.lstrip().startswith('{') or line.endswith(';') or opens:
                name = None

    def is_contract(self, name):
        return bool(FUNCTION.match(self.lines[self.defined[name][0]]))

    def numbers(self, name):
        """The numbers of its lines, with the line of the module that gives it parameters, and without clauses that a theorem makes needless."""
        own = self.defined[name]
        if self.name.endswith('.rt') and '%s::%s' % (self.crate, name) in characterised():
            own = [number for number in own if not CLAUSE.match(self.lines[number])]
        return ([self.modules_at[name]] if name in self.modules_at else []) + own

    def words(self, name):
        """The words that it says: of Rattle, the types, and all words of a clause."""
        found = set()
        for line in (self.lines[number] for number in self.numbers(name)):
            rattle = self.name.endswith('.rt') and not CLAUSE.match(line)
            found |= set(re.findall(r'\b[A-Z]\w*', line) if rattle else re.split(r'[\s(){};,]+', CLAUSE.sub('', line)))
        return found

    def meant(self, word):
        """The file and the name that a word stands for, where it is one of ours."""
        first, _, rest = word.partition('.')
        if not self.name.endswith('.rt') and (word in self.defined or word in self.cases):
            return (self.name, word)
        if word in self.brought:
            return self.brought[word]
        if rest and first in self.modules:
            target, shape = self.modules[first]
            return (target, shape or rest)
        if self.name.endswith('.rt'):
            return (self.crate + '/src', word)
        return (self.name, first) if rest and first in self.defined else None

    def comment(self, number):
        """The lines of the comment right above a line."""
        first = number
        while first and (is_comment(self.lines[first - 1]) or self.lines[first - 1].startswith('#[')):
            first -= 1
        return [line for line in self.lines[first:number] if is_comment(line)]


@functools.lru_cache(None)
def file_of(name):
    return File(name)


@functools.lru_cache(None)
def home_of(crate, shape):
    """The file of a crate's src/ that has a struct or an enum."""
    for path in sorted(glob.glob(os.path.join(TOP, 'crates', crate, 'src', '**', '*.rt'), recursive=True)):
        name = os.path.relpath(path, os.path.join(TOP, 'crates'))
        if shape in file_of(name).defined:
            return name
    return None


@functools.lru_cache(None)
def characterised():
    """The functions of whose contracts a definition of the crates of theorems speaks, as CRATE::FUNCTION: it tells in relations what their clauses say."""
    found = set()
    for path in glob.glob(os.path.join(TOP, 'crates', 'theorems_*', 'specs', '*.antt')):
        text = '\n'.join(read(path))
        crates = {alias: crate for crate, alias in re.findall('^' + CONTRACTS.pattern, text, re.M)}
        found |= {'%s::%s' % (crates[alias], function) for alias, function in re.findall(r'(\w+)\.(\w+)\.clauses', text) if alias in crates}
    return found


def users():
    """The functions that docs/DEMANDS.md lists as called by users and tests, as CRATE::FUNCTION."""
    text = '\n'.join(read('docs/DEMANDS.md'))
    return set(re.findall(r'`(\w+::\w+)`', text.split('## What carries')[1].split('\n## ')[0]))


def promised():
    """The promises: all definitions of the crates of theorems, the contracts of what users call, and the statements that docs/DEMANDS.md cites from proofs/."""
    for path in sorted(glob.glob(os.path.join(TOP, 'crates', 'theorems_*', 'specs', '*.antt'))):
        name = os.path.relpath(path, os.path.join(TOP, 'crates'))
        yield from ((name, definition) for definition in file_of(name).defined)
    for function in sorted(users() | {LISTING}):
        crate, called = function.split('::')
        if not crate.startswith('tests_') and home_of(crate, called):
            yield (home_of(crate, called), called)
    yield from cited('docs/DEMANDS.md')


def cited(page):
    """The theorems that a page cites from proofs/ and that are there, as pairs of a file and a name. That all are there is a rule of tests/house.py."""
    for names, name in re.findall(r'((?:`[^`]+`,? )+)\(([a-z0-9_]+/proofs/\w+\.antt)\)', '\n'.join(read(page))):
        if os.path.exists(os.path.join(TOP, 'crates', name)):
            yield from ((name, theorem) for theorem in re.findall(r'`([^`]+)`', names) if theorem in file_of(name).defined)


def told_in_proofs():
    """The theorems that are cited and whose statement names what is defined in proofs/, where no promise stands: each with that name."""
    for name, theorem in sorted(set(cited('docs/DEMANDS.md')) | set(cited('docs/TRUST.md'))):
        for word in sorted(file_of(name).words(theorem)):
            target, meant = file_of(name).meant(word) or ('', '')
            if '/proofs/' in target and meant != theorem and meant in file_of(target).defined:
                yield (name, theorem, word)


@functools.lru_cache(None)
def believed(pinned=True):
    """All that is believed, as pairs of a file and a name: the definitions, contracts and statements, and the structs and enums."""
    found, waiting = set(), []

    def ask(name, definition):
        name = home_of(name[:-4], definition) if name.endswith('/src') else name
        if name is None or (pinned and definition in PINNED.get(name, ())):
            return
        if definition not in file_of(name).defined:
            definition = file_of(name).cases.get(definition)
        if definition in file_of(name).defined and (name, definition) not in found:
            found.add((name, definition))
            waiting.append((name, definition))

    for name, definition in promised():
        ask(name, definition)
    while waiting:
        name, definition = waiting.pop()
        for word in file_of(name).words(definition):
            meant = file_of(name).meant(word)
            if meant:
                ask(*meant)
    return found


def is_shape(name, definition):
    return name.endswith('.rt') and not file_of(name).is_contract(definition)


@functools.lru_cache(None)
def order():
    """The crates, lowest first."""
    return re.findall(r'^(\w+)(?: staticlib)?:', '\n'.join(read('crates.txt')), re.M)


def in_order(pairs):
    place = order()
    return sorted(pairs, key=lambda pair: (place.index(pair[0].split('/')[0]), pair[0], file_of(pair[0]).defined[pair[1]][0]))


def texts(pairs):
    """Each with its file, its name, the lines of the comment above it, and its own lines as they stand, remarks inside included. The line of a module, which
    gives what stands in it its parameters, goes before the first of these, under its own name."""
    opened = set()
    for name, definition in in_order(pairs):
        here = file_of(name)
        outer = here.modules_at.get(definition)
        if outer is not None and (name, outer) not in opened:
            opened.add((name, outer))
            yield (name, 'module', here.comment(outer), [here.lines[outer]])
        first, last = here.defined[definition][0], here.numbers(definition)[-1]
        yield (name, definition, here.comment(first), here.lines[first:last + 1])


def definitions():
    """What is believed, lowest crate first and in the order of each file, as (file under crates/, name, lines of the comment above, lines of the text)."""
    return list(texts(pair for pair in believed() if not is_shape(*pair)))


def shapes():
    """The structs and enums that it names, told in the same way."""
    return list(texts(pair for pair in believed() if is_shape(*pair)))


def counted(pairs):
    """The rows of a table, lowest layer first: a file, and how many of its lines these take."""
    numbers = {}
    for name, definition in in_order(pairs):
        numbers.setdefault(name, set()).update(file_of(name).numbers(definition))
    return [(name, len(lines)) for name, lines in numbers.items()]


def table():
    """The believed lines of each file."""
    return counted(pair for pair in believed() if not is_shape(*pair))


def shape_table():
    """The lines of the structs and enums of each file."""
    return counted(pair for pair in believed() if is_shape(*pair))


def without_theorems():
    """How many lines would be believed if no theorem characterised what the contracts cite."""
    return sum(count for _, count in counted(pair for pair in believed(pinned=False) if not is_shape(*pair)))


def is_counted(line):
    """Is it a line of a definition, and neither blank nor a comment nor a line that brings names or files or says how an operator is written?"""
    return bool(line.strip()) and not re.match(r'\s*(--|infix)|use |(pub )?mod ', line)


def all_lines():
    """How many lines of definitions all of specs/ has, believed or not, counted in the same way."""
    files = glob.glob(os.path.join(TOP, 'crates', '*', 'specs', '**', '*.antt'), recursive=True)
    return sum(1 for name in files for line in open(name, encoding='utf-8') if is_counted(line))


def counts():
    """The counts that docs/TRUST.md tells in its sentences, in their words."""
    rows, types = table(), shape_table()
    part = {folder: sum(count for name, count in rows if '/%s/' % folder in name) for folder in ('specs', 'src', 'proofs')}
    return [
        '%d lines in %d files' % (sum(part.values()), len(rows)),
        '%d of the %d lines of definitions' % (part['specs'], all_lines()),
        '%d lines of contracts' % part['src'],
        '%d lines of statements' % part['proofs'],
        'it would be %d' % without_theorems(),
        '%d lines in %d crates' % (sum(count for _, count in types), len({name.split('/')[0] for name, _ in types})),
    ]


def main():
    """Prints the rows and the counts of docs/TRUST.md, or all that is believed of the files that are named, with the comments above it."""
    if len(sys.argv) == 1:
        print('\n'.join(['| %s | %d |' % row for row in table()] + counts()))
    for asked in sys.argv[1:]:
        for name, definition, comment, lines in definitions() + shapes():
            if asked in name:
                print('\n'.join([name] + ['    ' + line for line in comment + lines]))
    return 0


if __name__ == '__main__':
    sys.exit(main())
