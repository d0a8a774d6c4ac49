"""The believed text on one page, docs/SPEC.md, for a screen or a printer.

  python3 -m tools.spec           write docs/SPEC.md anew
  python3 -m tools.spec --print   print it instead

Under each head of docs/RULES.md stand the definitions that say it, each once, from the top down: a statement, and then what it names. A struct or an enum
stands where it is named first. The first comment of a file of definitions names its head, as in RULES, "Section 3". After these heads come the demands, the
statements of the theorems, and the contracts of the functions that users call. What is believed is found by the module that counts it.

The page is plain Markdown. A browser that shows it prints it; as plain text it fits a sheet of A4 on its side, in letters of 8 points."""
import functools
import os
import re
import sys
import textwrap

from tests.help import believed
from tools import TOP

PAGE = os.path.join(TOP, 'docs', 'SPEC.md')
RULES = os.path.join(TOP, 'docs', 'RULES.md')
MOST = 159

# The heads that follow those of the rules, and what stands under each.
AFTER = {
    'The demands': 'What is promised of every file, every question and every call. [DEMANDS.md](DEMANDS.md) has them sentence by sentence.',
    'The theorems': 'What is proved, as it is stated; the proofs stand below these lines in their files.',
    'The contracts': 'What the checker proves of the functions that users call. `result` is the answer; `x.now` is what a run x that is only read holds; of one '
                     'that is written `x.old` is what it holds when the call begins, and `x.new` when the call ends.',
}

OPENING = """# The definitions

This page has every line that has to be believed, and no other: the definitions in which the promises are stated, with the comments that stand above them
in the files. `make spec` writes it from crates/, so that it is never changed by hand. Under each head are the definitions that say what
[RULES.md](RULES.md) says under the same head: first one that no other there names, then what it names, and so on down. A struct or an enum of the code
stands where it is named first. Lines of %d characters and more are broken here; apart from that the lines are those of the files.
[TRUST.md](TRUST.md) says what else is believed.

| Written | Read |
|---|---|
| `ℕ`, `ℤ`, `Bool`, `List ℕ`, `Float` | whole numbers from 0 on; with a sign; true or false; lists, such as the octets of a file; IEEE 754's numbers |
| `f : A → B → C`, then `f x y = ..` | f makes a C of an A and a B; and this is how |
| `abbrev`, `unfoldable`, `pub` | how the checker goes about a definition, and who may use it: nothing that changes what it means |
| `record`, `data`, `s.size` | a statement or a value of several parts, all of which it has; one of several cases, one of which it is; the part `size` of s |
| `cond c a b`, `eqb`, `ltb`, `leb`, `&&`, `\\|\\|`, `not` | a where c is true, and else b; the tests =, <, <=; and, or, not |
| `≡`, `≤`, `<`, `×`, `↔`, `⊥`, `P → ⊥` | is the same as; at most; below; and; exactly when; what is never so; P is not so |
| `(x : A) → P`, `(x : A) × P` | P holds for every x; there is an x for which P holds |
| `-`, `/`, `%%`, `^`, `suc n`, `pos n` | of whole numbers: no less than 0; rounded down; the remainder; the power; n + 1; n as a number with a sign |
| `[]`, `x ∷ xs`, `xs ++ ys` | the empty list; x and then the list xs; xs and then ys |
| `take n xs`, `drop n xs`, `get_or xs i d` | the first n elements; the others; element i, or d past the end |
| `T b`, `nat_abs z`, `fin s m e` | b is true; the size of z; the float m x 2^e, below 0 where s is true |
| `Option A`, `Some x`, `None` | an A, or nothing: it is x; it is nothing |
| `Result A E`, `Ok x`, `Err e` | an A, or an E that says why there is none: it is x; it is not, for the reason e |
| `Ordering`, `Less`, `Equal`, `Greater` | which of three it is: below; the same; above |
| `max a b`, `map f xs` | the larger of two numbers; the list of what f makes of each element |
| `λ x. e`, `Type 0` | the function that makes e of x; what a statement, or a type, is one of |
"""


class Block:
    """Definitions of one file that stand under one comment, or in one module, which gives them parameters."""

    def __init__(self, file, comment, module):
        self.file, self.comment, self.module, self.parts = file, comment, module, []

    def code(self):
        """Its lines: the remarks inside a module stay among them."""
        lines = [self.module] if self.module else []
        for number, (_, comment, text) in enumerate(self.parts if self.module else self.in_order()):
            lines += ([''] if number else []) + (comment if self.module else []) + text
        return lines

    def in_order(self):
        """Its definitions, from the top down."""
        part = {(self.file, part[0]): part for part in self.parts}
        return [part[pair] for pair in top_down(list(part), lambda pair: [other for other in named(*pair) if other in part and other != pair])]

    def count(self):
        return sum(1 for line in self.code() if line.strip() and not believed.is_comment(line))


@functools.lru_cache(None)
def groups(file):
    """For each definition of a file, believed or not, the line that its comment is above: that of the module around it, or the last one with a comment.
    Between two statements of proofs/ or of src/ there is other text, so that each of these stands alone."""
    here, found, last = believed.file_of(file), {}, None
    for number, name in sorted((numbers[0], name) for name, numbers in here.defined.items()):
        last = number if last is None or here.comment(number) or '/specs/' not in file else last
        found[name] = here.modules_at.get(name, last)
    return found


def blocks(texts):
    """The blocks that some texts make, in their order, and the block of each (file, name)."""
    made, of = {}, {}
    for file, name, comment, text in texts:
        here = believed.file_of(file)
        if name not in here.defined:
            continue
        line = groups(file)[name]
        if (file, line) not in made:
            made[file, line] = Block(file, here.comment(line), here.lines[line] if name in here.modules_at else None)
        made[file, line].parts.append((name, comment, text))
        of[file, name] = made[file, line]
    return list(made.values()), of


@functools.lru_cache(None)
def named(file, name):
    """What a definition names, as (file, name), in the order of its words. What it calls its own parts may be called so elsewhere, and names nothing."""
    here, found = believed.file_of(file), []
    said = '\n'.join(here.lines[number] for number in here.numbers(name))
    own = set(re.findall(r'^\s+(?:pub )?(\S+) :', said, re.M)) - set(here.defined) - set(here.brought)
    for word in sorted(here.words(name) - own, key=lambda word: (said.find(word), word)):
        meant = here.meant(word)
        home = meant and (believed.home_of(meant[0][:-4], meant[1]) if meant[0].endswith('/src') else meant[0])
        if home:
            found.append((home, believed.file_of(home).cases.get(meant[1], meant[1])))
    return found


def below(block, of):
    """The other blocks that a block names."""
    pairs = [pair for name, _, _ in block.parts for pair in named(block.file, name)]
    return list(dict.fromkeys(of[pair] for pair in pairs if pair in of and of[pair] is not block))


def top_down(chosen, under):
    """What is chosen, each once: first one that no other names, then what it names, and what that names; and so on with the next."""
    named_there, told = {other for one in chosen for other in under(one)}, {}

    def tell(one):
        if one not in told:
            told[one] = True
            for other in under(one):
                if other in chosen:
                    tell(other)

    for one in [one for one in chosen if one not in named_there] + chosen:
        tell(one)
    return list(told)


@functools.lru_cache(None)
def heads():
    """The heads of the rules and those that follow, in order: the marks of each, and its title."""
    with open(RULES, encoding='utf-8') as rules:
        found = re.findall(r'^(##+) (.+)$', rules.read(), re.M)
    return found + [('##', title) for title in AFTER]


@functools.lru_cache(None)
def head_of(file):
    """The head that a file's definitions belong to."""
    if not file.split('/')[1] == 'specs':
        return 'The contracts' if file.endswith('.rt') else 'The theorems'
    first = ' '.join(opening(file))
    title = re.search(r'RULES, "([^"]+)"', first)
    if title is None and not re.match(r'-- (Demand|The demands)', first):
        sys.exit('crates/%s: its first comment names no head of docs/RULES.md' % file)
    title = title.group(1) if title else 'The demands'
    if title not in [head for _, head in heads()]:
        sys.exit('crates/%s: docs/RULES.md has no head "%s"' % (file, title))
    return title


def break_in(line):
    """Where to break a line of code: at the outermost space in its second half, behind an arrow or the like if there is one, and as far on as may be."""
    found, depth = [], 0
    for place, sign in enumerate(line[:MOST]):
        depth += (sign in '({') - (sign in ')}')
        if sign == ' ' and place > MOST // 2:
            found.append((depth, not line[:place].endswith(('→', '×', '&&', '++', ';', '∷', '↔')), -place))
    return -min(found)[2]


def broken(line):
    """A line of code as lines that fit: what is broken off goes farther in."""
    inner, lines = ' ' * (believed.depth(line) + 8), []
    while len(line) > MOST:
        place = break_in(line)
        lines.append(line[:place])
        line = inner + line[place + 1:]
    return lines + [line]


def prose(comment):
    """A comment as a paragraph."""
    words = ' '.join(re.sub(r'^\s*(--|//) ?', '', line) for line in comment)
    words = ''.join(part if part.startswith('`') else part.replace('*', '\\*') for part in re.split(r'(`[^`]*`)', words))
    return textwrap.wrap(words, 150, break_long_words=False, break_on_hyphens=False) + [''] if words else []


def opening(file):
    """The first comment of a file."""
    lines = believed.file_of(file).lines
    return lines[:next(number for number, line in enumerate(lines) if not believed.is_comment(line))]


def purpose(file):
    """The same without the head that it names, where that is all that comes before a colon."""
    words = re.sub(r'^-- RULES, "[^"]+"(?: and "[^"]+")*: ', '', '\n'.join(opening(file)))
    return [line if line.startswith('--') else '-- ' + line[0].upper() + line[1:] for line in words.split('\n')]


def shown(block, before, seen):
    """A block as lines of the page: its file, where another came before it; what a file of definitions is for, where it comes first; its comment and code."""
    file = [] if before == block.file else ['<sub>[%s](../crates/%s)</sub>' % (block.file, block.file), '']
    if '/specs/' in block.file and block.file not in seen:
        file += ['> ' + line for line in prose(purpose(block.file))[:-1]] + ['']
    return file + prose(block.comment) + ['```'] + [part for line in block.code() for part in broken(line)] + ['```', '']


def with_shapes(ordered, of):
    """The blocks of each head with the structs and enums that they name, each after the first definition that names it. One that no definition of its own
    crate names comes with the struct or enum that has it."""
    own = {shape for _, chosen in ordered for block in chosen for shape in below(block, of) if crate_of(shape) == crate_of(block)}
    told = set()

    def after(block, wanted):
        for shape in below(block, of):
            if shape not in told and wanted(shape):
                told.add(shape)
                yield shape
                yield from after(shape, lambda other: other not in own)

    return [(title, [found for block in chosen for found in (block, *after(block, lambda shape: True))]) for title, chosen in ordered]


def crate_of(block):
    return block.file.split('/')[0]


def chapters():
    """Each head with its blocks in reading order. Statements stand in the higher crates, so these come first; what names nothing else there comes last."""
    definitions, of = blocks(believed.definitions())
    _, of_shapes = blocks(believed.shapes())
    crates, under, ordered = believed.order(), {block: below(block, of) for block in definitions}, []
    for _, title in heads():
        chosen = [block for block in definitions if head_of(block.file) == title]
        by_height = sorted(chosen, key=lambda block: (-crates.index(crate_of(block)), not set(under[block]) & set(chosen)))
        ordered.append((title, top_down(by_height, under.get)))
    return with_shapes(ordered, of_shapes)


def anchor(title):
    return re.sub(r'[^a-z0-9 -]', '', title.lower()).replace(' ', '-')


def contents(full):
    """The table of heads with the lines of each."""
    lines = ['| Head | Lines |', '|---|---|']
    for marks, title in heads():
        if title in full:
            count = sum(block.count() for block in full[title])
            lines.append('| %s[%s](#%s) | %s |' % ('&emsp;' * (len(marks) - 2), title, anchor(title), count or ''))
    return lines + ['| In all | %d |' % sum(block.count() for chosen in full.values() for block in chosen), '']


def kept(found):
    """The heads that have something under them, or under a head below them."""
    marks, full = dict((title, marks) for marks, title in heads()), {}
    for number, (title, chosen) in enumerate(found):
        inner = []
        for other, blocks_there in found[number + 1:]:
            if len(marks[other]) <= len(marks[title]):
                break
            inner += blocks_there
        if chosen or inner:
            full[title] = chosen
    return full


def text():
    """The whole page."""
    full, lines, before, seen = kept(chapters()), [], None, set()
    for marks, title in heads():
        if title in full:
            link = AFTER.get(title) or 'The rule: [RULES, "%s"](RULES.md#%s).' % (title, anchor(title))
            lines += ['%s %s' % (marks, title), '', *textwrap.wrap(link, 150, break_on_hyphens=False), '']
        for block in full.get(title, ()):
            lines += shown(block, before, seen)
            before = block.file
            seen.add(before)
    return '\n'.join([OPENING % (MOST + 1)] + contents(full) + lines)


def main():
    page = text()
    if sys.argv[1:] == ['--print']:
        print(page, end='')
    elif sys.argv[1:]:
        sys.exit('usage: python3 -m tools.spec [--print]')
    else:
        with open(PAGE, 'w', encoding='utf-8') as file:
            file.write(page)
        print('docs/SPEC.md has %d lines' % page.count('\n'))
    return 0


if __name__ == '__main__':
    sys.exit(main())
