#!/usr/bin/env python3
"""Writes the last part of docs/DESIGN-PASS.md anew: what changed in the public contracts, types, definitions and theorems since a commit, old and new.

usage: python3 tools/design_pass.py COMMIT        the commit is in the first line of the page
"""
import collections
import re
import subprocess
import sys

PAGE = 'docs/DESIGN-PASS.md'
MARK = '## Old and new, side by side\n'


def git(*words):
    return subprocess.run(['git', *words], capture_output=True, text=True, check=True).stdout


def files(commit):
    """The sources, definitions and proofs of a commit, or of the work tree, by their paths."""
    listed = git('ls-tree', '-r', '--name-only', commit, 'crates') if commit else git('ls-files', '-co', '--exclude-standard', 'crates')
    for path in sorted(set(listed.split())):
        if re.fullmatch(r'crates/\w+/(src/\w+\.rt|(specs|proofs)/(\w+/)*\w+\.antt)', path):
            try:
                yield path, git('show', '%s:%s' % (commit, path)) if commit else open(path, encoding='utf-8').read()
            except OSError:
                pass


def plain(lines):
    return [line for line in lines if line.strip() and not line.lstrip().startswith(('//', '--', '#['))]


def functions(crate, text):
    """Public functions and methods, those of a trait that a public type has among them: the head with the clauses, up to the body."""
    owner, of_trait, lines = '', False, text.split('\n')
    seen = set(re.findall(r'^pub (?:struct|enum) (\w+)', text, re.M))
    for i, line in enumerate(lines):
        trait = re.match(r'pub trait (\w+)', line)
        block = trait or re.match(r'impl(?:<[^>]*>)? (?:\w+(?:<[^>]*>)? for )?(\w+)', line)
        if block:
            owner, of_trait = block[1] + '::', bool(trait) or ' for ' in line and block[1] in seen
        elif line == '}':
            owner, of_trait = '', False
        found = re.match(r'( *)(pub )?(?:const )?fn (\w+)', line)
        if found and (found[2] or of_trait):
            ends = (j for j in range(i, len(lines)) if lines[j] in (found[1] + '{', found[1] + '}') or lines[j].endswith(('{', ';')))
            end = next(ends)
            body = lines[i:end] if lines[end].strip() == '{' else lines[i:end + 1]
            yield '%s::%s%s' % (crate, owner, found[3]), plain(body)


def types(crate, text):
    for found in re.finditer(r'^pub (?:struct|enum|trait) (\w+).*?(?:^\}|;)$', text, re.M | re.S):
        yield '%s::%s' % (crate, found[1]), plain(found[0].split('\n'))


def statements(crate, module, text, of_specs):
    """The declarations of a module: those of specs whole, those of proofs by what they say."""
    inner = []
    for block in re.split(r'\n\s*\n|\n(?=\s*(?:pub |abbrev |unfoldable |record |data ))', text):
        lines = plain(block.split('\n'))
        lines = [line for line in lines if not re.match(r' *(use |pub mod |module |infix)', line)]
        if not lines:
            continue
        found = re.match(r' *(?:(?:abbrev|unfoldable|pub|record|data) )+(\S+)', lines[0]) or re.match(r' *(\S+) :', lines[0])
        if not found:
            continue
        if not of_specs:
            if not re.match(r' *pub ', lines[0]):
                continue
            head = [lines[0]]
            for line in lines[1:]:
                if re.match(r' *%s\b.*=' % re.escape(found[1]), line) or line.strip().startswith('unfolding'):
                    break
                head.append(line)
            lines = head
        yield '%s %s.%s' % (crate, module, found[1]), lines


def read(commit):
    parts = {name: collections.OrderedDict() for name in ('functions', 'types', 'definitions', 'theorems')}
    for path, text in files(commit):
        crate, where = path.split('/')[1:3]
        if where == 'src':
            parts['functions'].update(functions(crate, text))
            parts['types'].update(types(crate, text))
        else:
            module = path.split('/', 3)[3][:-5].replace('/', '.')
            if where == 'specs':
                parts['definitions'].update(statements(crate, module, text, True))
            elif crate.startswith('theorems_'):
                parts['theorems'].update(statements(crate, module, text, False))
    return parts


def differ(old, new):
    return re.sub(r'\s+', ' ', ' '.join(old)) != re.sub(r'\s+', ' ', ' '.join(new))


def main():
    commit = sys.argv[1]
    before, after = read(commit), read(None)
    out = []
    for part, title in (('functions', 'Public functions'), ('types', 'Types'), ('definitions', 'Definitions'), ('theorems', 'Theorems in proofs of the crates of theorems')):
        old, new = before[part], after[part]
        names = [it for it in old if it not in new or differ(old[it], new[it])] + [it for it in new if it not in old]
        out.append('### %s: %d of %d\n' % (title, len(names), len(old)))
        for name in names:
            out += ['`%s`%s\n' % (name, '' if name in old and name in new else ', new' if name in new else ', gone'), '```diff']
            out += ['-' + line for line in old.get(name, [])] + ['+' + line for line in new.get(name, [])] + ['```\n']
    page = open(PAGE, encoding='utf-8').read()
    head = page.split(MARK)[0]
    with open(PAGE, 'w', encoding='utf-8') as it:
        it.write(head + MARK + '\n' + '\n'.join(out))


if __name__ == '__main__':
    main()
