"""Shows that the table of limits, crates/theorems_limits, pins every number of the definitions that it is about.

  make limits        change each number by one, more and less, one at a time, and try to prove the table over the changed definitions. Write which row
                     breaks to limits.txt beside this script, and end in 'N passed, M failed': a change that breaks no row is a failure.
  .. NAME..          the same for the numbers of the definitions named, and write nothing

The rules of the house compare limits.txt with the definitions (`faults`), which takes no time: a new number without a row fails the gate.
"""
import concurrent.futures
import glob
import hashlib
import json
import os
import re
import shutil
import subprocess
import sys
import tempfile
from typing import NamedTuple

from tests.help import believed

TOP = os.path.dirname(os.path.dirname(os.path.dirname(os.path.abspath(__file__))))
LIST = os.path.join(TOP, 'tests', 'help', 'limits.txt')
TRIED = os.path.join(TOP, 'target', 'limits', 'tried.json')
TABLE = ['theorems_limits/Samples', 'theorems_limits/Judged', 'theorems_limits/Limits']
# What RULES, "Sections in force", says of sections 1 and 3 to 7, and of times.
DEFINITIONS = [
    'calendar/Calendar', 'section_1/Identification', 'section_3_geometry/Geometry', 'section_3_positions/Positions', 'section_3_lambert/Lambert',
    'section_3_lambert/Sheet', 'section_3/Section3', 'section_4/Product',
    'section_5_groups/Groups', 'section_5/Representation', 'bits_ones/Ones', 'section_6/Presence', 'section_7_layout/Runs', 'section_7/Packing']
# How many changes are tried in one check, and how many checks run at a time. A check that ends without a verdict is repeated with fewer.
TOGETHER = 16
JOBS = 2
SECONDS = 600

# Changes that alter nothing, and why: (definition, how-manieth number of it, by how much it is changed).
UNCHANGED = {
    ('latitude_at', 2, -1): 'on the equator the size is 0 either way',
    ('is_of', 7, -1): 'octet 12 is zero by the test before, and adds nothing in front of octets 13-14',
    ('is_scanned', 4, -1): 'octet 42 is zero by the test before',
    ('stated_radius', 3, -1): 'octet 16 is zero by the test before',
    ('stated_radius', 6, -1): 'octet 16 is zero by the test before',
    ('stated_radius', 8, -1): 'octet 16 is zero by the test before',
    ('degrees_by', 1, -1): 'octet 6 is zero by the test before',
    ('lambert_by', 1, -1): 'octet 6 is zero by the test before',
    ('product_template_at', 1, -1): 'octet 7 is zero in every product that is taken',
    ('is_product', 2, 1): 'octet 8 is zero in templates 0 and 8',
    ('is_scaled', 1, -1): 'whether R is finite is told by eight of its 32 bits, and what stands in front of these is not looked at',
    ('presence_at', 1, -1): 'a section of five octets is not taken by the tests that follow either',
}

# Changes for which one row alone is tried: they make a count of hours pass 2^32, and other rows would count its days, one by one.
ALONE = {('product_definition_at', 1, -1): 'forecast_octets', ('interval_of', 2, -1): 'length_octets'}

NUMBER = re.compile(r'(?<![\w.·-])(0x[0-9a-f_]+|[0-9][0-9_]*)(?![\w-])(?! =)')


def text_of(name):
    crate, module = name.split('/')
    with open(os.path.join(TOP, 'crates', crate, 'specs', module + '.antt'), encoding='utf-8') as text:
        return text.read()


# ---- the numbers

class Number(NamedTuple):
    """A number that a definition names: the how-manieth of that definition, as it is written, and where."""
    file: str
    definition: str
    nth: int
    literal: str
    line: int
    start: int

    def entry(self):
        return self.file, self.definition, str(self.nth), self.literal

    def changes(self):
        return [1, -1] if int(self.literal, 0) else [1]


def numbers():
    """The numbers of all definitions that compute something. Those of a record or of another type state what was judged before, and decide nothing, or are of
    the relation `LiesAt`, which `lie_as_expected` and the worked examples pin."""
    for file in DEFINITIONS:
        definition, count = None, 0
        for line, text in enumerate(text_of(file).split('\n')):
            head = re.match(r'\s*(?:abbrev|unfoldable) (?:pub )?(\S+) : (.*)$', text)
            if head:
                definition, count = None if head.group(2).endswith('Type 0') else head.group(1), 0
            elif not text.strip() or re.match(r'(pub )?record |module ', text):
                definition = None
            elif definition and not re.match(r'\s*--', text):
                for found in NUMBER.finditer(text):
                    count += 1
                    yield Number(file, definition, count, found.group(), line, found.start())


def key(change):
    """What UNCHANGED and ALONE call a change."""
    number, by = change
    return number.definition, number.nth, by


def changed(number, by):
    """The text of its file, with the number changed."""
    lines = text_of(number.file).split('\n')
    text = lines[number.line]
    lines[number.line] = text[:number.start] + str(int(number.literal, 0) + by) + text[number.start + len(number.literal):]
    return '\n'.join(lines)


# ---- the list

def rows():
    return re.findall(r'^  pub (\w+) :', text_of(TABLE[-1]), re.M)


def digest():
    """Of the table, but for its comments."""
    lines = [line for name in TABLE for line in text_of(name).split('\n') if line.strip() and not re.match(r'\s*--', line)]
    return hashlib.sha256(' '.join(' '.join(lines).split()).encode()).hexdigest()[:16]


def listed():
    """The digest that the list was made with, and its lines: a number, and what breaks where it is one more, and one less."""
    with open(LIST, encoding='utf-8') as text:
        lines = text.read().split('\n')
    made = re.search(r'\b[0-9a-f]{16}\b', lines[0])
    entries = [line.split() for line in lines if line and not line.startswith('#')]
    return made and made.group(), {tuple(words[:4]): words[4:] for words in entries}


def faults():
    """What the list does not say, or says wrongly."""
    made, entries = listed()
    if made != digest():
        yield 'tests/help/limits.txt: it was made with another table; run make limits'
    found = {number.entry(): number for number in numbers()}
    for entry in sorted(found.keys() ^ entries.keys()):
        yield 'tests/help/limits.txt: %s: %s' % (' '.join(entry), 'there is no such number' if entry in entries else 'no row for it; run make limits')
    known = set(rows())
    for entry in sorted(found.keys() & entries.keys()):
        wanted = [{'same'} if key((found[entry], by)) in UNCHANGED else known for by in found[entry].changes()]
        if len(wanted) != len(entries[entry]) or not all(row in among for row, among in zip(entries[entry], wanted)):
            yield 'tests/help/limits.txt: %s: a row that is not there, or one too few' % ' '.join(entry)
    pinned = {(number.file, number.line) for number in found.values()}
    for file in DEFINITIONS:
        name = '%s/specs/%s.antt' % tuple(file.split('/'))
        here = believed.file_of(name)
        computing = [definition for other, definition in believed.believed() if other == name and 'Type 0' not in here.lines[here.defined[definition][0]]]
        for line in sorted({line for definition in computing for line in here.numbers(definition)}):
            if (file, line) not in pinned and NUMBER.search(text_of(file).split('\n')[line]):
                yield 'crates/%s/specs/%s.antt:%d: a number of a believed definition that limits.py does not change' % (*file.split('/'), line + 1)


# ---- the scratch crate: all definitions that the table reaches, in one crate without functions

def reached():
    """The files of specs/ that the table stands on, and the types that these speak of."""
    files, types = [], set()

    def visit(name):
        if name not in files:
            for crate, declared, module in re.findall(r'^use Rattle\.(?!std\.)(\w+)\.specs\.(declared\.)?(\w+)', text_of(name), re.M):
                if declared:
                    types.add(module)
                else:
                    visit('%s/%s' % (crate, module))
            files.append(name)
    visit(TABLE[-1])
    return files, types


def declarations(types):
    """The structs and enums of these names, and of those that they hold, with what they derive."""
    known = {}
    for path in glob.glob(os.path.join(TOP, 'crates', '*', 'src', '*.rt')):
        with open(path, encoding='utf-8') as text:
            for body, name in re.findall(r'^((?:#\[derive\([^\n]*\n)?pub (?:struct|enum) (\w+)(?:\([^\n]*?\);| \{.*?^\}))', text.read(), re.M | re.S):
                known[name] = body
    waiting, found = sorted(types), []
    while waiting:
        name = waiting.pop()
        if name in known and known[name] not in found:
            found.append(known[name])
            waiting += re.findall(r'\w+', known[name])
    return '\n\n'.join(found)


def depending(file, files):
    """Those of the files that stand on one, and itself."""
    found = {file}
    for name in files:
        uses = {'%s/%s' % use for use in re.findall(r'^use Rattle\.(\w+)\.specs\.(\w+)', text_of(name), re.M)}
        found |= {name} if uses & found else set()
    return found


def definitions(files):
    """The words of each definition of the files, by its name."""
    words = {}
    for file in files:
        name = None
        for line in text_of(file).split('\n'):
            head = re.match(r'\s*(?:abbrev|unfoldable|pub) (?:pub )?(\S+) :', line)
            name = head.group(1) if head else name
            if name and not re.match(r'\s*--|use ', line):
                words.setdefault(name, set()).update(re.split(r'[\s(){};,]+', line))
    return words


def rows_on(definition, files):
    """The rows that reach a definition: no other can break where it is changed."""
    words, found = definitions(files), {definition}
    while True:
        more = {name for name, said in words.items() if name not in found and said & found}
        if not more:
            return [row for row in rows() if row in found]
        found |= more


def proof_text():
    with open(os.path.join(TOP, 'crates', 'theorems_limits', 'proofs', 'Limits.antt'), encoding='utf-8') as text:
        return text.read()


class Version(NamedTuple):
    """A change of one file: its text, the files that are proved anew with it, and the rows that it may break."""
    file: str
    text: str
    anew: frozenset
    rows: list


def only(wanted, text):
    """The table, or its proof, with some of its rows."""
    row = r'^  pub (\w+) :.*\n(?:    .*\n)*|^      (\w+) = .*refl.*\n'
    return re.sub(row, lambda found: found.group() if (found.group(1) or found.group(2)) in wanted else '', text, flags=re.M)


def version_of(change, files):
    number, by = change
    tried = [ALONE[key(change)]] if key(change) in ALONE else rows_on(number.definition, files)
    return Version(number.file, changed(number, by), frozenset(depending(number.file, files)), tried)


def placed(text, crate, suffix, anew):
    """A text whose `use` lines name the modules of the scratch crate: those that are proved anew have the suffix, and the others 0."""
    def module(use):
        name = '%s/%s' % use.groups()
        return 'Rattle.%s.specs.%s%d' % (crate, use.group(2), suffix if name in anew else 0)
    text = re.sub(r'Rattle\.(?!std\.)\w+\.specs\.declared\.', 'Rattle.%s.specs.declared.' % crate, text)
    return re.sub(r'Rattle\.(?!std\.|%s\.)(\w+)\.specs\.(?!declared\.)(\w+)' % crate, module, text)


def write_crate(folder, versions):
    """A crate with the definitions and the table as they are, numbered 0, and what is proved anew for each version."""
    crate = os.path.basename(folder)
    files, types = reached()
    shutil.rmtree(folder, ignore_errors=True)
    names = {'specs': [], 'proofs': []}
    proof = proof_text()

    def write(kind, name, text):
        os.makedirs(os.path.join(folder, kind), exist_ok=True)
        with open(os.path.join(folder, kind, name), 'w', encoding='utf-8') as out:
            out.write(text)

    for suffix, version in enumerate([Version(None, None, frozenset(files), rows())] + versions):
        for file in filter(version.anew.__contains__, files):
            text = version.text if version.file == file else text_of(file)
            if file == TABLE[-1]:
                text = only(version.rows, text)
            names['specs'].append('%s%d' % (file.split('/')[1], suffix))
            write('specs', names['specs'][-1] + '.antt', placed(text, crate, suffix, version.anew))
        names['proofs'].append('Limits%d' % suffix)
        write('proofs', names['proofs'][-1] + '.antt', placed(only(version.rows, proof), crate, suffix, version.anew))
    write('src', 'lib.rt', '// The types alone.\n#![tactic(auto)]\n\n' + declarations(types) + '\n')
    for kind in names:
        write(kind, 'Lib.antt', '-- All.\n' + ''.join('pub mod %s\n' % name for name in names[kind]))


def broken(folder, versions):
    """The rows that do not hold, for the definitions as they are and for each version, or None where the check ends without a verdict."""
    write_crate(folder, versions)
    try:
        done = subprocess.run(['rt', 'check', '--jobs', '1'], cwd=folder, stdout=subprocess.PIPE, stderr=subprocess.STDOUT, text=True, timeout=SECONDS)
    except subprocess.TimeoutExpired:
        return None
    if not re.search(r'^logic=(proved|not-proved)', done.stdout, re.M):
        return None
    found = [[] for _ in range(len(versions) + 1)]
    for path, suffix, line in re.findall(r'^(\S+/proofs/Limits(\d+)\.antt|\S+\.antt):(\d+):\d+: error', done.stdout, re.M):
        with open(os.path.join(folder, path), encoding='utf-8') as text:
            row = re.match(r' +(\w+) = ', text.read().split('\n')[int(line) - 1])
        if not row or not suffix:
            sys.exit('limits: not an error of a row: %s:%s\n%s' % (path, line, done.stdout[:3000]))
        found[int(suffix)].append(row.group(1))
    return found


# ---- all changes

def judge(folder, changes):
    """The rows that each of some changes breaks, or None where there is no verdict for it alone. Beside them the table is proved unchanged."""
    files = reached()[0]
    found = broken(folder, [version_of(change, files) for change in changes])
    if found is None and len(changes) > 1:
        half = len(changes) // 2
        return {**judge(folder, changes[:half]), **judge(folder, changes[half:])}
    if found and found[0]:
        sys.exit('limits: the table does not hold: %s' % ' '.join(found[0]))
    return dict(zip(changes, found[1:] if found else [None]))


def mark(change, files):
    """Tells one trial from another: all that is written for it."""
    version = version_of(change, files)
    texts = [text_of(file) for file in files[:-1]] + [only(version.rows, text_of(files[-1])), only(version.rows, proof_text()), version.file, version.text]
    return hashlib.sha256('\0'.join(texts).encode()).hexdigest()


def judge_all(changes):
    """The same for all changes, several at a time. What target/ remembers of the same trials is not tried again. The scratch crates stand outside this tree,
    each in a tree of its own, since `rt ci` refuses a file of proofs that it does not read."""
    with tempfile.TemporaryDirectory() as scratch:
        folders = [os.path.join(scratch, str(worker), 'crates', 'limits') for worker in range(JOBS)]
        for folder in folders:
            os.makedirs(folder)
            with open(os.path.join(folder, '..', '..', 'crates.txt'), 'w', encoding='ascii') as text:
                text.write('limits:\n')
        return judge_in(folders, changes)


def judge_in(folders, changes):
    files, remembered = reached()[0], {}
    marks = {change: mark(change, files) for change in changes}
    if os.path.exists(TRIED):
        with open(TRIED, encoding='ascii') as text:
            remembered = json.load(text)
    found, free = {change: remembered[marks[change]] for change in changes if marks[change] in remembered}, list(folders)
    found.update({change: [] for change in changes if not version_of(change, files).rows})
    left = [change for change in changes if change not in found]
    parts = [left[at:at + TOGETHER] for at in range(0, len(left), TOGETHER)]

    def work(part):
        folder = free.pop()
        try:
            return judge(folder, part)
        finally:
            free.append(folder)
    os.makedirs(os.path.dirname(TRIED), exist_ok=True)
    with concurrent.futures.ThreadPoolExecutor(len(folders)) as pool:
        for done in concurrent.futures.as_completed([pool.submit(work, part) for part in parts]):
            found.update(done.result())
            remembered.update({marks[change]: breaking for change, breaking in done.result().items() if breaking is not None})
            with open(TRIED, 'w', encoding='ascii') as out:
                json.dump(remembered, out)
            print('%d of %d' % (len(found), len(changes)), end='\n' if not sys.stderr.isatty() else '\r', file=sys.stderr, flush=True)
    return found


def said(change):
    number, by = change
    return '%s %s, number %d: %s is %d' % (number.file, number.definition, number.nth, number.literal, int(number.literal, 0) + by)


def is_right(change, breaking):
    """A change breaks a row, but for those that are said to alter nothing."""
    if breaking is None:
        print('FAILED %s: the check ends without a verdict' % said(change))
    elif not breaking and key(change) not in UNCHANGED:
        print('FAILED %s: it breaks no row' % said(change))
    elif breaking and key(change) in UNCHANGED:
        print('FAILED %s: it is said to alter nothing, and it breaks %s' % (said(change), ' '.join(breaking)))
    else:
        return True
    return False


def write_list(found):
    """The list. Of several rows that a change breaks it names the one that the fewest changes break, since that tells most."""
    times = {row: sum(row in breaking for breaking in found.values()) for row in rows()}
    with open(LIST, 'w', encoding='utf-8') as out:
        out.write('# Made by make limits, with the table %s: each number of a definition, and the row of crates/theorems_limits that breaks\n' % digest())
        out.write('# where it is one more, and where it is one less. `same`: such a change alters nothing, and UNCHANGED in limits.py says why.\n')
        for number in numbers():
            words = []
            for by in number.changes():
                breaking = found[number, by]
                words.append(min(breaking, key=lambda row: times[row]) if breaking else 'same')
            out.write(' '.join((*number.entry(), *words)) + '\n')


def main():
    changes = [(number, by) for number in numbers() if len(sys.argv) == 1 or number.definition in sys.argv[1:] for by in number.changes()]
    if not changes:
        sys.exit('limits: there is no number to change')
    found = judge_all(changes)
    results = [is_right(change, found[change]) for change in changes]
    if len(sys.argv) == 1 and all(results):
        write_list(found)
    print('%d passed, %d failed' % (sum(results), len(results) - sum(results)))
    return 0 if all(results) else 1


if __name__ == '__main__':
    sys.exit(main())
