#!/usr/bin/env python3
"""Rewrites crates.txt so that each crate lists the crates that its own files name, and no others.

A crate names another in src/ (`other::f`, `use other::T`) and in src/, specs/ and proofs/
(`Rattle.other.`), and in the lines that its must-fail edits, here and under tests/edits, put in.
Comments do not count. Of the kit's libraries (std is given to all) those named in src/ are listed; known
are those that a line of crates.txt lists already, and KIT.

Beside these the kit needs the crate that declares the type of a field which src/ takes (`q.window`), of
what a pattern binds (`Fault::Typed(wrong)`), and every type inside a value which src/ makes (`Entry {
kind, .. }` with a phase inside the kind), though no file names it. Without it: "a value is reached here
whose type `c` cannot name, since no library that `c` uses declares it". It uses the names of fields
and variants, so at times it lists one too many.

    direct_deps.py           print the new crates.txt's size and what would change
    direct_deps.py --diff    each changed line: what goes (-) and what comes (+)
    direct_deps.py --write   rewrite crates.txt
    direct_deps.py --check   exit status 1 if a line lists what its crate does not name, or lacks one

Only what follows a crate's colon is rewritten, in the order of crates.txt; headings, comments and the
order of the lines stay as they are. A crate must come after the crates that it uses."""
import argparse
import re
from pathlib import Path

from reach import imported

KIT = ('anyhow', 'check', 'thiserror')


def read_list(path):
    """{crate: listed dependencies}, in the order of the file. Other words before the colon, as `staticlib`, stay."""
    listed = {}
    for line in path.read_text().splitlines():
        line = line.split('#')[0]
        if ':' in line:
            name, deps = line.split(':')
            listed[name.split()[0]] = deps.split()
    return listed


def kit_of(listed):
    """The libraries of the kit: those that are listed and are no crates here, and KIT."""
    return sorted({d for deps in listed.values() for d in deps if d not in listed} | set(KIT))


def code(path):
    """A file's text without comments and string literals; of an edit, the lines that it puts in."""
    text = path.read_text()
    if path.suffix == '.edit':
        return '\n'.join(line[4:] for line in text.splitlines() if line.startswith('new:'))
    if path.suffix == '.rt':
        return re.sub(r'"(?:[^"\\]|\\.)*"', '""', re.sub(r'//.*', '', text))
    return re.sub(r'(?m)(^|(?<=\s))--(?=\s|$).*$', '', text)


def named(root, crate, crates, kit):
    """The crates and libraries of the kit that a crate's files name."""
    folder = root / 'crates' / crate
    files = [p for part in ('src', 'specs', 'proofs', 'must-fail') for p in folder.glob(part + '/**/*')]
    files += (root / 'tests' / 'edits' / crate).glob('*.edit')
    names = set()
    for path in files:
        if path.suffix not in ('.rt', '.antt', '.edit'):
            continue
        text = code(path)
        names |= set(re.findall(r'Rattle\.(\w+)(?=\.)', text))
        if path.suffix != '.antt':
            modules = set(re.findall(r'(?m)^\s*(?:pub )?mod (\w+);', text))
            names |= set(re.findall(r'(?<![\w:])([a-z_][a-z0-9_]*)::', text)) - modules
    return {n for n in names if n in crates or n in kit} - {crate}


class Types:
    """The structs and enums of all crates with the types of their fields, and what a crate's code does with them."""

    def __init__(self, root, crates):
        self.fields, self.signatures = {}, {}                     # {type: [(field name, type)]}, {function: types}
        self.made, self.seen, self.taken = ({c: set() for c in crates} for _ in range(3))
        for crate in crates:
            for path in sorted((root / 'crates' / crate / 'src').glob('**/*.rt')):
                self.read(crate, code(path))

    def read(self, crate, text):
        used = {parts[-1]: parts[0] for parts in imported(text) if len(parts) > 1}
        path = r'(?:\b([a-z]\w*)::(?:[a-z]\w*::)*)?\b([A-Z]\w*)'

        def of(other, name):
            other = other or used.get(name, crate)
            return (crate if other in ('super', 'crate') else other, name)
        declared = r'(?ms)^\s*(?:pub )?(?:struct|enum) (\w+)(.*?(?:^\}|;$))'
        for name, body in re.findall(declared, text):
            for field, variant, rest in re.findall(
                r'(?m)(?:^|[,({])\s*(?:pub )?(?:(\w+): )?(?=(?:(\w+)\()?)([^,\n]+)', body
            ):
                kinds = [of(*found) for found in re.findall(path, rest)]
                self.fields.setdefault((crate, name), []).extend(
                    (field or name + '::' + variant, kind) for kind in kinds
                )
        text = re.sub(declared, '', re.sub(r'(?m)^\s*(?:ensures|requires|invariant)\b.*$', '', text))
        for name, signature in re.findall(r'(?s)\bfn (\w+)(.*?)\{', text):
            self.signatures.setdefault((crate, name), set()).update(of(*found) for found in re.findall(path, signature))
        self.seen[crate] |= {of(*found) for found in re.findall(path, text)}
        self.seen[crate] |= {
            ('call', other, name) for other,
            name in re.findall(r'(?<![\w:])([a-z]\w*)::(?:[a-z]\w*::)*([a-z]\w*)\(', text)
        }
        self.taken[crate] |= set(re.findall(r'\.([a-z_]\w*)\b(?!\()', text)) | set(
            re.findall(r'\b([A-Z]\w*::[A-Z]\w*)\((?!_\))', text)
        )
        text = re.sub(r'(?m)^\s*\S.*?=>|\blet [^=;]*=', '', text)     # patterns make nothing
        self.made[crate] |= {of(*found) for found in re.findall(path + r'(?:::[A-Z]\w*)?(?: \{|\()', text)}

    def inside(self, start, wanted=lambda field: True):
        """The types of the fields of some types, and of theirs."""
        todo, seen, found = list(start), set(), set()
        while todo:
            item = todo.pop()
            if item not in seen:
                seen.add(item)
                found |= {kind for field, kind in self.fields.get(item, ()) if wanted(field)}
                todo += self.signatures.get(item[1:], ()) if item[0] == 'call' else [
                    kind for _, kind in self.fields.get(item, ())
                ]
        return {kind[0] for kind in found if kind in self.fields}

    def needed(self, crate):
        """The crates that declare the types inside what the crate's code makes, and of the fields that it takes."""
        return (self.inside(self.made[crate]) | self.inside(self.seen[crate], self.taken[crate].__contains__)) - {crate}


def levels_of(deps):
    level = {}

    def visit(crate, path=()):
        if crate in path:
            raise SystemExit('the crates name each other in a cycle: ' + ' -> '.join(path + (crate,)))
        if crate not in level:
            level[crate] = 1 + max([visit(d, path + (crate,)) for d in deps[crate] if d in deps], default=-1)
        return level[crate]
    for crate in deps:
        visit(crate)
    return level


def main():
    parser = argparse.ArgumentParser(description=__doc__, formatter_class=argparse.RawDescriptionHelpFormatter)
    parser.add_argument('--root', default='.', help='the repository (default: this folder)')
    parser.add_argument('--write', action='store_true', help='rewrite crates.txt')
    parser.add_argument('--diff', action='store_true', help='print each changed line')
    parser.add_argument('--check', action='store_true', help='exit status 1 if a line is not exact')
    args = parser.parse_args()
    root = Path(args.root)
    listed = read_list(root / 'crates.txt')
    missing = [p.name for p in (root / 'crates').iterdir() if p.is_dir() and p.name not in listed]
    if missing:
        raise SystemExit('crates.txt does not list ' + ' '.join(sorted(missing)))
    types, kit = Types(root, listed), kit_of(listed)
    found = {crate: named(root, crate, listed, kit) for crate in listed}
    only_types = sum(len(types.needed(crate) - found[crate]) for crate in listed)
    found = {crate: found[crate] | types.needed(crate) for crate in listed}
    level = levels_of(found)
    place = {crate: i for i, crate in enumerate([*listed, *kit])}
    deps = {crate: sorted(found[crate], key=place.get) for crate in listed}
    wrong = [c for c in listed if listed[c] != deps[c]]
    early = [(c, d) for c in listed for d in deps[c] if d not in kit and place[d] > place[c]]
    for c, d in early:
        print('%s uses %s, which crates.txt lists later' % (c, d))
    if args.diff or args.check:
        for c in wrong:
            gone, come = set(listed[c]) - set(deps[c]), set(deps[c]) - set(listed[c])
            print(' '.join([c + ':'] + ['-' + d for d in sorted(gone)] + ['+' + d for d in sorted(come)]))
    if args.write:
        lines = (root / 'crates.txt').read_text().splitlines()
        heads = [line.split(':')[0].strip() if ':' in line.split('#')[0] else '' for line in lines]
        lines = [' '.join([head + ':'] + deps[head.split()[0]]) if head else line for head, line in zip(heads, lines)]
        (root / 'crates.txt').write_text('\n'.join(lines) + '\n')
    print('%d crates in %d levels; dependencies listed %d, needed %d (%d for a type alone); lines to change %d' % (
        len(deps), max(level.values()) + 1, sum(map(len, listed.values())), sum(map(len, deps.values())), only_types,
        len(wrong)))
    return 1 if args.check and (wrong or early) else 0


if __name__ == '__main__':
    raise SystemExit(main())
