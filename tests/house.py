"""Holds the tree to the rules of the house, one test a rule, and ends in 'N passed, M failed'. Each fault is named with its file and line."""
import os
import re
import subprocess
import sys

from tests import header
from tests.help import believed, limits, reading, report
from tools import built, kit, spec

TOP = os.path.dirname(os.path.dirname(os.path.abspath(__file__)))
os.chdir(TOP)
TRACKED = subprocess.run(['git', 'ls-files', '--cached', '--others', '--exclude-standard'], capture_output=True, text=True, check=True)
FILES = sorted(TRACKED.stdout.split('\n')[:-1])
FILES = [name for name in FILES if os.path.exists(name)]


def lines_of(name):
    with open(name, encoding='utf-8') as text:
        return text.read().split('\n')


def sources(*endings):
    return [name for name in FILES if name.endswith(endings) and name.startswith('crates/')]


def listed():
    """The crates of crates.txt, each with its line."""
    found = {}
    for line in lines_of('crates.txt'):
        name = re.match(r'([a-z0-9_]+)(?: staticlib)?:', line)
        if name:
            found[name.group(1)] = line
    return found


def crates_are_listed():
    """Every folder of crates/ is listed in crates.txt, and every listed crate has its folder and a comment."""
    folders = set(os.listdir('crates'))
    for name in sorted(folders ^ set(listed())):
        yield 'crates/%s: %s' % (name, 'not listed in crates.txt' if name in folders else 'listed, and there is no such folder')
    for name, line in listed().items():
        if '#' not in line:
            yield 'crates.txt: %s has no comment that says what it is for' % name


def lowest_first():
    """crates.txt lists a crate after all that it stands on."""
    seen = set()
    for name, line in listed().items():
        for under in line.split('#')[0].split(':')[1].split():
            if under in listed() and under not in seen:
                yield 'crates.txt: %s stands on %s, which comes later' % (name, under)
        seen.add(name)


def sources_in_crates():
    """Files of Rattle and of proofs stand in a crate's src/, specs/ or proofs/, and no file is a link: `rt ci` would refuse both."""
    yield from (name for name in FILES if os.path.islink(name))
    for name in FILES:
        if name.endswith(('.rt', '.antt')) and not re.match(r'crates/[a-z0-9_]+/(src|specs|proofs)/', name):
            yield name


def layout():
    """rt fmt would change nothing."""
    run = subprocess.run([os.path.join(kit.folder(), 'bin', 'rattle'), 'fmt', '--check', *sources('.rt', '.antt')], capture_output=True, text=True)
    if run.returncode:
        yield (run.stdout + run.stderr).strip()


def must_fail_edits():
    """Every library that does not serve tests alone has at least two must-fail edits, and each says why it must be refused."""
    for crate, line in listed().items():
        edits = [name for name in FILES if name.startswith('crates/%s/must-fail/' % crate)]
        if os.path.exists('crates/%s/src/lib.rt' % crate) and 'for tests' not in line and len(edits) < 2:
            yield 'crates/%s: %d must-fail edits' % (crate, len(edits))
        for name in edits:
            if not lines_of(name)[0].startswith('# '):
                yield '%s: no first line that says why' % name


def opening_comments():
    """Every file of Rattle, of definitions and of proofs opens with what it is for."""
    for name in sources('.rt', '.antt'):
        if not lines_of(name)[0].startswith(('// ', '-- ')):
            yield name


def printed_places():
    """No proof keeps the place comments that a check prints."""
    for name in sources('.antt'):
        for number, line in enumerate(lines_of(name), 1):
            if re.match(r'\s*-- src/\S+:\d+:\d+', line):
                yield '%s:%d' % (name, number)


def words_of(line, rattle):
    """The words of a line. In Rattle `&`, `<` and `>` stand between words, and in a clause they are words as well."""
    plain = r'[\s(){}.;,@"«»:\[\]%s]+'
    apart = [plain % '', plain % '&<>'] if rattle else [r'[\s(){}.;,@"«»]+']
    return {word for at in apart for word in re.split(at, line)} | {word for word in ('[]', '()') if word in line}


# The traits of std that are brought for their methods, which alone are said.
METHODS = {'Read': {'read', 'read_exact', 'read_to_end'}, 'Write': {'write', 'write_all'}}


def unused_names():
    """No `use` line brings a name that its file does not say; of a trait a method is said."""
    for name in sources('.antt', '.rt'):
        lines = lines_of(name)
        if name.endswith('/Lib.antt'):
            continue
        body = set()
        for line in lines:
            if not re.match(r'\s*(pub |ghost )?use ', line) and not re.match(r'\s*(--|//)', line):
                body |= words_of(line.split(' -- ')[0], name.endswith('.rt'))
        for number, line in enumerate(lines, 1):
            use = re.match(r'\s*(?:pub |ghost )?use (\S+?)(?:\.\{(.*)\})?(?: as (\S+?))?;?$', line)
            if not use:
                continue
            path, names, alias = use.groups()
            brought = [part.split(' as ')[-1].strip() for part in names.split(',')] if names else [alias or re.split(r'[.:]', path)[-1]]
            for word in brought:
                parts = [part for part in word.split('◌') if part]
                said = word in body or ('◌' in word and all(part in body for part in parts)) or METHODS.get(word, set()) & body
                if not said and not word.startswith('syntax'):
                    yield '%s:%d: %s' % (name, number, word)


def short_functions():
    """No function in Rattle, Rust or C has more than 40 lines beside its contract."""
    heads = {'.rt': r'\s*(pub )?(extern "C" )?fn ', '.rs': r'\s*(pub |pub\(crate\) |#\[no_mangle\] )*(extern "C" )?fn ', '.c': r'[a-z].*\)$', '.h': r'[a-z].*\)$'}
    for name in FILES:
        start, head = None, heads.get(os.path.splitext(name)[1], r'(?!)')
        for number, line in enumerate(lines_of(name) if head != r'(?!)' else [], 1):
            if re.match(head, line):
                start, contract, end = number, 0, re.match(r'\s*', line).group() + '}'
            if start and re.match(r'\s+(requires|ensures) ', line):
                contract += 1
            if start and line == end:
                if number - start + 1 - contract > 40:
                    yield '%s:%d: %d lines' % (name, start, number - start + 1 - contract)
                start = None


def contracts_fit():
    """No line of a contract in Rattle has more than 160 characters."""
    for name in sources('.rt'):
        for number, line in enumerate(lines_of(name), 1):
            if re.match(r'\s*(requires|ensures) ', line) and len(line) > 160:
                yield '%s:%d: %d characters' % (name, number, len(line))


def names_mean_one_thing():
    """No two crates define the same name in specs/, and none there has the name of another crate's struct, enum or trait."""
    homes = {}
    for name in sources('.antt', '.rt'):
        crate, folder = name.split('/')[1:3]
        head = r'\s*pub (?:struct|enum|trait) (\w+)' if folder == 'src' else r'\s*(?:abbrev |unfoldable )(?:pub )?(\S+) :|\s*(?:pub )?(?:record|data) (\S+) '
        for line in lines_of(name) if folder in ('src', 'specs') else []:
            found = re.match(head, line)
            if found:
                homes.setdefault(next(filter(None, found.groups())), set()).add(crate)
    for word, crates in sorted(homes.items()):
        if len(crates) > 1:
            yield '%s: %s' % (word, ', '.join(sorted(crates)))


def code_stands_on_code():
    """No crate but those of theorems and of tests stands on a crate of theorems."""
    for name, line in listed().items():
        for under in line.split('#')[0].split(':')[1].split():
            if under.startswith('theorems_') and not name.startswith(('theorems_', 'tests_')):
                yield 'crates.txt: %s stands on %s' % (name, under)


def sources_of_libraries():
    """Each file of src/ of the libraries, but for those that export to C: its crate, the modules that it lies in, and its name."""
    for name in sources('.rt'):
        crate, folder, module = re.match(r'crates/([a-z0-9_]+)/(\w+)/(.*)\.rt$', name).groups()
        if folder == 'src' and 'crates/%s/src/lib.rt' % crate in FILES and crate not in exporters():
            yield crate, [] if module == 'lib' else module.split('/'), name


def public_functions():
    """The public functions of the libraries, from every file of src/, as CRATE.FUNCTION or CRATE.MODULE.FUNCTION, and the methods as CRATE.TYPE.METHOD: the
    file and the contract of each."""
    found = {}
    for crate, within, name in sources_of_libraries():
        here = believed.file_of(name[len('crates/'):])
        for function in filter(here.is_contract, here.defined):
            found['.'.join([crate] + within + [function])] = (name, [here.lines[number] for number in here.defined[function]])
    return found


def methods_of_traits():
    """The methods that public types of the libraries have by an `impl` of a trait, as CRATE.IMPL.METHOD, or CRATE.MODULE.IMPL.METHOD, where IMPL is the name that
    the checker gives the `impl`: the file of each. Where the head has a form that is not known here IMPL is that head, of which there can be no theorem."""
    found = {}
    for crate, within, name in sources_of_libraries():
        text = '\n'.join(lines_of(name))
        for head, kind, body in re.findall(r'^impl(\b[^\n]* for &?(\w+)[^\n]*) \{\n(.*?)^\}', text, re.M | re.S):
            known = re.fullmatch(r'(?:<[^>]*>)? (\w+)(?:<(\w+)>)? for \w+(?:<[^>]*>)?', head)
            by = kind + known.group(1) + (known.group(2) or '').capitalize() if known else head
            if re.search(r'^pub (struct|enum) %s\b' % kind, text, re.M):
                found.update(('.'.join([crate] + within + [by, method]), name) for method in re.findall(r'^    fn (\w+)', body, re.M))
    return found


def exporters():
    """The crates that export functions to C. No other crate can stand on one."""
    return {crate for crate, line in listed().items() if re.match(r'\w+ staticlib:', line)}


def exports():
    """Each function that is exported to C, as CRATE::FUNCTION of the library that has it: its file, its contract, and its body."""
    found = {}
    for crate in sorted(exporters()):
        name = 'crates/%s/src/lib.rt' % crate
        for function, contract, body in re.findall(r'^pub extern "C" fn (\w+)(.*?)^\{\n(.*?)^\}$', '\n'.join(lines_of(name)), re.M | re.S):
            found['%s::%s' % (crate[:-len('_c')], function)] = (name, contract, body)
    return found


def exports_are_the_functions():
    """What C links of a library NAME is exported by the crate NAME_c: every public function, each with the very contract that it has there, and its body only
    calls it. Nothing else there is exported."""
    wanted = {}
    for crate in sorted(exporters()):
        if built.exporter(crate[:-len('_c')]) != crate:
            yield 'crates/%s: its name is not that of a library, with _c after it' % crate
        library = '\n'.join(lines_of('crates/%s/src/lib.rt' % crate[:-len('_c')]))
        for function, contract in re.findall(r'^pub fn (\w+)(.*?)^\{\n', library, re.M | re.S):
            passed = ', '.join(re.findall(r'(\w+): ', contract.split(') ->')[0]))
            wanted['%s::%s' % (crate[:-len('_c')], function)] = (contract, '    %s::%s(%s)\n' % (crate[:-len('_c')], function, passed))
        text = '\n'.join(lines_of('crates/%s/src/lib.rt' % crate))
        if len(re.findall(r'\bfn ', text)) != len(re.findall(r'^#\[unsafe\(no_mangle\)\]\npub extern "C" fn ', text, re.M)):
            yield 'crates/%s: it has a function that is not exported' % crate
    found = exports()
    for called in sorted(wanted.keys() | found.keys()):
        if called not in found or called not in wanted:
            yield '%s is %s' % (called, 'not exported' if called in wanted else 'exported, and no public function of that crate')
        elif found[called][1:] != wanted[called]:
            yield '%s: %s does not have its contract, or does more than call it' % (found[called][0], called)


def nothing_asked_of_users():
    """No function that docs/DEMANDS.md lists as called by users has a `requires`, and every one that C calls is listed."""
    users = believed.users()
    for called in sorted(exports().keys() - users):
        yield '%s: %s is not listed' % (exports()[called][0], called)
    for function, (name, contract) in public_functions().items():
        called = '::'.join((function.split('.')[0], function.split('.')[-1]))
        if called in users and any('requires' in line for line in contract):
            yield '%s: %s asks something' % (name, called)
        users.discard(called)
    for called in sorted(users):
        yield 'docs/DEMANDS.md: no function %s' % called


# The functions whose answer is a part of the file, or has one, of which the octets are seen, and not where they lie: docs/DEMANDS.md, "Any two outcomes are equal".
SEEN = dict.fromkeys(
    ('section.FileSection.octets', 'section_6.bitmap_in_force', 'question.DescribedField.packed', 'question.DescribedField.bitmap'),
    '_ (λ _. (λ x. x.now))',
)
SEEN['question.DescribedField.numbered'] = '(λ _. List ℕ × ℕ) (λ _. (λ x. (x.section.now, x.bits)))'
SEEN['question.DescribedField.grouped'] = '(λ _. List ℕ × Groups) (λ _. (λ x. (x.section.now, x.groups)))'


# The generic functions, with what their contracts are taken at: every type, all that the bound says of it, and every table of the functions that it has.
COPIED = {'copies': 'Clone.Ghosts B.Denot', 'c': 'Dict', 'elements': 'Clone.Ghosts E.Denot', 'e': 'Dict'}
BECOMES = {'B': 'RattleType', 'E': 'RattleType', 'becomes': 'Becomes.Ghosts B.Denot E.Denot', 'd': 'Dict', **COPIED}
GENERIC = {'text.put': {'T': 'RattleType', 'clones': 'Ghosts T.Denot', 'd': 'Dict'}, 'values_group.put': BECOMES, 'values_simple.put': BECOMES}


def outcome_of(function, contract):
    """The one line by which crates/theorems_outcomes may state that a function's outcomes are determined, whatever its types and const parameters are."""
    at = GENERIC.get(function) or {name: 'RattleType' for name in re.findall(r'\bconst (\w+):', contract[0])}
    over = ' '.join('(%s : %s)' % each for each in at.items()) + ' → ' if at else ''
    ended, clauses = (' '.join(['%s.%s' % (function, part), *at]) for part in ('ended', 'clauses'))
    ended = '(%s)' % ended if at else ended
    said = 'SeenDetermined %s %s' % (ended, SEEN[function]) if function in SEEN else 'Determined %s' % ended
    return 'pub %s : %s%s (λ _ _. %s)' % (function.replace('.', '_'), over, said, clauses)


def outcomes_are_determined():
    """Every public function of a library, and every method of a trait that a public type has, has its theorem in crates/theorems_outcomes, of its own contract
    and word for word, and there is no other."""
    wanted = {outcome_of(function, contract): name for function, (name, contract) in public_functions().items()}
    wanted.update((outcome_of(method, ['']), name) for method, name in methods_of_traits().items())
    for name in FILES:
        if not re.match(r'crates/theorems_outcomes/proofs/\w+\.antt$', name):
            continue
        here = believed.file_of(name[len('crates/'):])
        for number, line in enumerate(here.lines, 1):
            use = believed.CONTRACTS.match(line)
            if use and use.group(2) != use.group(1):
                yield '%s:%d: %s stands for %s' % (name, number, use.group(2), use.group(1))
            if 'Determined ' in line and not line.startswith('--') and line not in wanted:
                yield '%s:%d: no theorem that is asked for: %s' % (name, number, line)
            wanted.pop(line, None)
        for word in ('Determined', 'SeenDetermined'):
            if word in here.defined or (word in here.brought and here.brought[word] != ('theorems_outcomes/specs/Determined.antt', word)):
                yield '%s: %s is not what it is called' % (name, word)
        if any(': RattleType)' in line for line in here.lines) and 'use denote.RattleType.{RattleType}' not in here.lines:
            yield '%s: RattleType is not that of the checker' % name
    for line, name in sorted(wanted.items()):
        yield '%s: no theorem: %s' % (name, line)


# The theorems that the demands are, each with the file of its proof and its whole statement.
STATEMENTS = {
    'demand_1': ('theorems_demands/proofs/Demand1.antt', ['pub demand_1 : (file : List ℕ) → Demand1 file']),
    'demand_2': ('theorems_demands/proofs/Demand2.antt', ['pub demand_2 : (file : List ℕ) → Demand2 file']),
    'demand_3': ('theorems_demands/proofs/Demand3.antt', ['pub demand_3 : (file : List ℕ) → Demand3 file']),
    'rebuild_meets': ('theorems_demands/proofs/Rebuild.antt', ['module _ (r : ℕ) (e d x : Signed) where', '  pub rebuild_meets : Rebuilds r e d x']),
    'no_impostor': ('theorems_demands/proofs/Impostors.antt', ['pub no_impostor : NoImpostor']),
    'examples': ('theorems_demands/proofs/Examples.antt', ['pub examples : Examples']),
    'calls': ('theorems_calls/proofs/Calls.antt', ['pub calls : Calls']),
    'no_impostor_for_c': ('theorems_calls/proofs/Impostors.antt', ['pub no_impostor_for_c : NoImpostorForC']),
    'no_impostor_for_point': ('theorems_calls/proofs/PointImpostors.antt', ['pub no_impostor_for_point : NoImpostorForPoint']),
    'no_impostor_for_picture': ('theorems_calls/proofs/PictureImpostors.antt', ['pub no_impostor_for_picture : NoImpostorForPicture']),
    'rattle_calls': ('theorems_calls/proofs/Calls.antt', ['pub rattle_calls : RattleCalls']),
    'section_limits': ('theorems_limits/proofs/Limits.antt', ['pub section_limits : SectionLimits']),
}


# The crates of theorems that state no demand: what the demands are built of, and the outcomes, which have a rule of their own.
PARTS = {'theorems_bound', 'theorems_grammar', 'theorems_outcomes'}


def demands_are_listed():
    """The theorems that docs/DEMANDS.md cites from crates that state demands are those whose statements this file has, and none of these crates is left out."""
    cited = {(name, theorem) for name, theorem in believed.cited('docs/DEMANDS.md') if name.startswith('theorems_') and name.split('/')[0] not in PARTS}
    for name, theorem in sorted(cited ^ {(name, theorem) for theorem, (name, _) in STATEMENTS.items()}):
        yield 'docs/DEMANDS.md: %s (%s) is %s' % (theorem, name, 'in no statement of tests/house.py' if (name, theorem) in cited else 'not cited')
    for crate in sorted({crate for crate in listed() if crate.startswith('theorems_')} - PARTS - {name.split('/')[0] for name, _ in STATEMENTS.values()}):
        yield 'crates/%s: none of its theorems is in the statements of tests/house.py' % crate


def demands_are_stated():
    """The theorems of the demands stand in proofs/ word for word, speak of the definitions in specs/, and are among what is checked."""
    for theorem, (name, statement) in STATEMENTS.items():
        crate, module = name.split('/')[0], name.split('/')[-1][:-len('.antt')]
        if 'crates/' + name not in FILES or crate not in listed() or 'pub mod ' + module not in lines_of('crates/%s/proofs/Lib.antt' % crate):
            yield '%s: not among the files that are checked' % name
            continue
        here = believed.file_of(name)
        told = [here.lines[number] for number in here.numbers(theorem)] if theorem in here.defined else []
        if told != statement:
            yield '%s: %s is stated as: %s' % (name, theorem, ' '.join(told))
        if here.lines.count(statement[-1]) != 1:
            yield '%s: stated %d times' % (theorem, here.lines.count(statement[-1]))
        for word in sorted(set(re.findall(r'\b[A-Z]\w+', statement[-1])) - {'List'}):
            if here.meant(word) is None or not here.meant(word)[0].startswith(crate + '/specs/'):
                yield '%s: %s is not that of specs/' % (name, word)


def promises_stand_in_specs():
    """No theorem that docs/DEMANDS.md or docs/TRUST.md cites is told in what is defined in proofs/."""
    for name, theorem, word in believed.told_in_proofs():
        yield 'crates/%s: %s is told in %s' % (name, theorem, word)


def definitions_are_read():
    """Every line of specs/ is one that tests/help/believed.py reads, and names nothing of proofs/ but contracts, so that nothing is believed and not counted."""
    for name in sources('.antt'):
        if name.split('/')[2] == 'specs':
            here = believed.file_of(name[len('crates/'):])
            read = {number for definition in here.defined for number in here.numbers(definition)}
            for number, line in enumerate(here.lines):
                use = believed.USE.match(line)
                if believed.is_counted(line) and number not in read:
                    yield '%s:%d' % (name, number + 1)
                if re.search(r'\bRattle\.', line) and not (use and use.group(2) == 'specs'):
                    yield '%s:%d: %s' % (name, number + 1, line)


def trust_is_counted():
    """docs/TRUST.md tells the believed lines of each file, their sum, and the other counts of tests/help/believed.py. The README tells the sum. Both tell how
    many of the lines are examples, as the contents of docs/SPEC.md count them."""
    wanted = {'| %s | %d |' % row for row in believed.table()}
    told = {line for line in lines_of('docs/TRUST.md') if re.match(r'\| [a-z0-9_]+/(specs|proofs|src)/', line)}
    for row in sorted(wanted ^ told):
        yield 'docs/TRUST.md: %s: %s' % ('not there' if row in wanted else 'not so', row)
    total = '%d lines' % sum(count for _, count in believed.table())
    examples = re.search(r'\(#examples-on-either-side\) \| (\d+) \|', '\n'.join(lines_of('docs/SPEC.md'))).group(1) + ' of them'
    pages = [('docs/TRUST.md', words) for words in believed.counts() + [examples]] + [('README.md', words) for words in (total, examples)]
    for name, words in pages:
        if not re.search(r'\b%s\b' % words, ' '.join(lines_of(name))):
            yield '%s: not there: %s' % (name, words)


def demands_name_what_is_there():
    """docs/DEMANDS.md names every must-fail edit, and each edit, function, definition and theorem that it or docs/TRUST.md names is there."""
    text = '\n'.join(lines_of('docs/DEMANDS.md') + lines_of('docs/TRUST.md'))
    edits = {re.sub(r'crates/(.*)/must-fail/(.*)\.edit', r'\1/\2', name) for name in FILES if '/must-fail/' in name}
    named = set(re.findall(r'`([a-z0-9_]+/[a-z0-9_]+)`', text))
    for edit in sorted(edits ^ named):
        yield 'docs: %s %s' % (edit, 'is not named' if edit in edits else 'is no edit')
    parts = [function.split('.') for function in public_functions()]
    functions = {'::'.join(words if words[1][0].isupper() else [words[0], words[-1]]) for words in parts}
    for function in sorted(set(re.findall(r'`([a-z0-9_]+::(?:[A-Z]\w*::)?\w+)`', text)) - functions):
        if function.split('::')[0] in listed():
            yield 'docs: no function %s' % function
    for names, file in re.findall(r'((?:`[^`]+`,? )+)\(([a-z0-9_]+/(?:specs|proofs)/\w+\.antt)\)', text):
        lines = lines_of('crates/' + file) if 'crates/' + file in FILES else []
        for name in re.findall(r'`([^`]+)`', names):
            if not any(re.match(r'\s*(abbrev |unfoldable )*(pub )?(record |data )?%s[ :]' % re.escape(name), line) for line in lines):
                yield 'docs: no %s in %s' % (name, file)


def evidence_is_counted():
    """docs/EVIDENCE.md, docs/PEERS.md and the README count the faults, the rules and the kinds of damage as the tests do."""
    from tests.evidence import encoder, faults, rules
    from tests.help import faulty
    from tests.peers import damage
    damages = len(damage.kinds())
    kinds = re.search(r'KINDS: \[Kind; (\d+)\]', '\n'.join(lines_of('tests/evidence/damage.rs'))).group(1)
    wanted = [
        ('docs/EVIDENCE.md', '%d faults are put into copies' % len(faults.FAULTS)), ('README.md', '%d faulty copies' % len(faults.FAULTS)),
        ('docs/EVIDENCE.md', '%d faults stand between' % (len(faulty.FAULTS) - 1)), ('docs/EVIDENCE.md', '%d files on either side of each rule' % len(list(rules.told()))),
        ('docs/DEMANDS.md', '%d files on either side of each rule' % len(list(rules.told()))), ('docs/EVIDENCE.md', kinds + ' kinds of damage'),
        ('docs/EVIDENCE.md', '%d fields are encoded' % len(encoder.varied_fields())), ('docs/EVIDENCE.md', '%d constant fields' % len(encoder.constant_fields())),
        ('docs/EVIDENCE.md', '%d damaged files' % damages), ('README.md', '%d damaged files' % damages), ('docs/PEERS.md', 'damages it in %d ways' % damages)]
    for name, words in wanted:
        if words not in ' '.join(lines_of(name)):
            yield '%s: not there: %s' % (name, words)


def version_is_told():
    """The version of include/skeptolyr.h is the first that CHANGELOG.md tells of, and the README shows it."""
    version = re.search(r'^#define SKEPTOLYR_VERSION "(\d+\.\d+\.\d+)"$', '\n'.join(lines_of('include/skeptolyr.h')), re.M)
    told = re.search(r'^## (\S+), \d{4}-\d\d-\d\d$', '\n'.join(lines_of('CHANGELOG.md')), re.M)
    if not version or not told or version.group(1) != told.group(1):
        yield 'CHANGELOG.md: %s for %s' % (told and told.group(1), version and version.group(1))
    elif 'Skeptolyr %s ' % version.group(1) not in ' '.join(lines_of('README.md')):
        yield 'README.md: not there: Skeptolyr %s' % version.group(1)


def sample_is_the_sample():
    """The file of two fields that theorems compute with is samples/two-fields.grib2."""
    text = ' '.join(lines_of('crates/theorems_demands/specs/Sample.antt'))
    parts = {name: re.findall(r'0x([0-9a-f]{2})|\b(high|low)\b', body) for name, body in re.findall(r'(\w+)(?: high low)? =\s+((?:(?:0x\w\w|high|low) ∷\s*)+)\[\]', text)}
    whole = re.search(r'two_fields = (.*?) (?:unfoldable|--)', text).group(1).split(' ++ ')
    octets = []
    for part in whole:
        name, *given = part.split()
        lent = dict(zip(('high', 'low'), given))
        octets += [int(octet or lent[word][2:], 16) for octet, word in parts[name]]
    with open('samples/two-fields.grib2', 'rb') as sample:
        if bytes(octets) != sample.read():
            yield 'crates/theorems_demands/specs/Sample.antt'


# The texts that people read, but for docs/SPEC.md, which is made. Those that C programmers read have C's words for what is passed to a function.
FOR_C = ['README.md', 'include/skeptolyr.h', 'samples/README.md', 'docs/EVIDENCE.md']
TEXTS = [name for name in FILES if name in FOR_C or re.fullmatch(r'(CONTRIBUTING|tests/README|docs/(?!SPEC)\w+)\.md|docs/man/.*\.in', name)]
# A word, and the plainer one.
PLAINER = {r'(?<!-)\bbehind\b': 'after', r'\bno sum\b': 'no checksum'}
PLAINER_FOR_C = {r'\b(lent|lends?)\b(?!\.c)': 'passed', r'\b(the|two|both|a|each|larger) runs?\b': 'array', r'\bowes?\b': 'must guarantee'}


def prose(name):
    """The lines of a text with their numbers, but for tables, and for code and output, which stand between fences or are set in by four columns."""
    fenced = False
    for number, line in enumerate(lines_of(name), 1):
        fenced ^= line.startswith('```')
        if not name.endswith('.md') or not fenced and not line.startswith(('|', '    ')):
            yield number, line


def texts_are_narrow():
    """Lines of text have fewer than 160 characters; tables, code and output are apart."""
    for name in TEXTS:
        yield from ('%s:%d: %d characters' % (name, number, len(line)) for number, line in prose(name) if len(line) >= 160)


def words_are_plain():
    """Texts have the ordinary word where it serves, and those that C programmers read have C's words."""
    for name in TEXTS:
        words = {**PLAINER, **(PLAINER_FOR_C if name in FOR_C or name.endswith('.in') else {})}
        for number, line in enumerate(lines_of(name), 1):
            yield from ('%s:%d: %s is "%s"' % (name, number, found.group(), plainer) for word, plainer in words.items() for found in re.finditer(word, line))


def links_lead_somewhere():
    """Every link from one text to a file of the tree leads to a file that is there."""
    for name in TEXTS:
        for number, line in enumerate(lines_of(name) if name.endswith('.md') else [], 1):
            for path in re.findall(r'\]\((?!https?:|#)([^)#]+)', line):
                if not os.path.exists(os.path.join(os.path.dirname(name), path)):
                    yield '%s:%d: no %s' % (name, number, path)


def limits_are_pinned():
    """Each number of the sections' definitions has a row of the table of limits that breaks where it is changed by one, as tests/help/limits.txt tells."""
    yield from limits.faults()


def rules_are_cited():
    """No tracked file cites a page that is not in the repository, and each heading of docs/RULES.md that is cited is there."""
    heads = set(re.findall(r'^##+ (.+)$', '\n'.join(lines_of('docs/RULES.md')), re.M))
    for name in FILES:
        try:
            text = '\n'.join(lines_of(name))
        except UnicodeDecodeError:
            continue
        for match in re.finditer(r'document[\s*#/-]+0[12]\b|source[\s*#/-]+documents?\b', text, re.I):
            yield '%s:%d: %s' % (name, text.count('\n', 0, match.start()) + 1, match.group())
        for match in re.finditer(r'RULES, ((?:"[A-Z][^"\n]*"(?:,? and )?)+)', text):
            for head in set(re.findall(r'"([^"]+)"', match.group(1))) - heads:
                yield '%s:%d: docs/RULES.md has no heading "%s"' % (name, text.count('\n', 0, match.start()) + 1, head)


def spec_is_written():
    """docs/SPEC.md is what `make spec` writes, with every believed line; and no line of it, or of docs/RULES.md, has 160 characters or more."""
    try:
        page = spec.text()
    except SystemExit as fault:
        page = str(fault)
    if '\n'.join(lines_of('docs/SPEC.md')) != page:
        yield 'docs/SPEC.md: run make spec' if page.startswith('# ') else page
    believed_lines = sum(count for _, count in believed.table() + believed.shape_table())
    if '\n| In all | %d |\n' % believed_lines not in page:
        yield 'docs/SPEC.md: %d lines are believed' % believed_lines
    for name in ('docs/RULES.md', 'docs/SPEC.md'):
        for number, line in enumerate(lines_of(name), 1):
            if len(line) >= 160:
                yield '%s:%d: %d characters' % (name, number, len(line))


def rules_are_those_tested():
    """docs/RULES.md has the refusals that the header is held to, the listing of the sample, and the figures of the proved examples."""
    parts = dict(part.split('\n', 1) for part in '\n'.join(lines_of('docs/RULES.md')).split('\n## ')[1:])
    told = dict(re.findall(r'^\| (\d+) \| .* \| ([^|]+) \|$', parts['Refusals by number'], re.M))
    for number, _, place in header.TABLE:
        if not 3 <= number <= 7 and told.get(str(number)) != place:
            yield 'docs/RULES.md: refusal %d has place %s' % (number, place)
    with open('samples/two-fields.grib2', 'rb') as sample:
        if '\n```\n%s```\n' % reading.listing(sample.read()) not in parts['Listing']:
            yield 'docs/RULES.md: the listing is not that of samples/two-fields.grib2'
    proved = '\n'.join(lines_of('crates/theorems_demands/specs/Examples.antt')).replace('_', '').lower()
    for figure in re.findall(r'\b\d[0-9A-F,]{3,}\b', parts['Examples on either side'].split('| Run |')[0]):
        if figure.replace(',', '').lower() not in proved:
            yield 'docs/RULES.md: %s is in no row of Examples' % figure


def own_words():
    """No tracked file names a path of a machine."""
    roots = '|'.join(('wo' + 'rk', 'ho' + 'me', 'ro' + 'ot', 'op' + 't/rattle'))
    for name in FILES:
        try:
            lines = lines_of(name)
        except UnicodeDecodeError:
            continue
        for number, line in enumerate(lines, 1):
            if re.search(r'(^|[^A-Za-z0-9_.])/(%s)(/|$|[^A-Za-z0-9_])' % roots, line):
                yield '%s:%d' % (name, number)


RULES = [
    crates_are_listed, lowest_first, sources_in_crates, layout, must_fail_edits, opening_comments, printed_places, unused_names, short_functions,
    contracts_fit, names_mean_one_thing, code_stands_on_code, exports_are_the_functions, nothing_asked_of_users, outcomes_are_determined, demands_are_listed,
    demands_are_stated, promises_stand_in_specs, definitions_are_read, trust_is_counted, demands_name_what_is_there, evidence_is_counted, version_is_told,
    sample_is_the_sample, texts_are_narrow, words_are_plain, links_lead_somewhere, limits_are_pinned, rules_are_cited, spec_is_written,
    rules_are_those_tested, own_words,
]


def main():
    return report.ended([report.tried(rule) for rule in RULES])


if __name__ == '__main__':
    sys.exit(main())
