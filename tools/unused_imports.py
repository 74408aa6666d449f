#!/usr/bin/env python3
"""Finds the names that a page or a proof imports and does not use.

    unused_imports.py            list them
    unused_imports.py --write    remove them, and lines that import nothing more
    unused_imports.py --check    exit status 1 if there is one

An operator such as `◌+◌` is used where one of its parts stands. A module named by `as` counts as used. A name in a
`ruleset` counts as used by whoever imports the ruleset. Only lines of the form `use PATH.{a, b}` are looked at."""
import argparse
import re
from pathlib import Path

LINE = re.compile(r'^(\s*(?:ghost )?use )([^\s{]+)\.\{(.*)\}(;?)$')
WORD = re.compile(r"[^\s(){}.,;\"]+")


def used(name, words, text):
    name = name.split(' as ')[-1].strip()
    if '◌' in name:
        return any(part in words or part in text for part in name.split('◌') if part)
    return name in words


def cleaned(text, suffix):
    comment = r'(?m)^\s*(?:--|//).*$' if suffix == '.rt' else r'(?m)^\s*--.*$'
    lines = text.split('\n')
    body = re.sub(comment, '', '\n'.join(line for line in lines if not LINE.match(line)))
    words = set(WORD.findall(body))
    out, gone = [], []
    for line in lines:
        match = LINE.match(line)
        if not match:
            out.append(line)
            continue
        names = [n.strip() for n in match[3].split(',')]
        kept = [n for n in names if used(n, words, body)]
        gone += [n for n in names if n not in kept]
        if kept:
            out.append(line if kept == names else '%s%s.{%s}%s' % (match[1], match[2], ', '.join(kept), match[4]))
    return '\n'.join(out), gone


def main():
    parser = argparse.ArgumentParser(description=__doc__, formatter_class=argparse.RawDescriptionHelpFormatter)
    parser.add_argument('--root', default='.', help='the repository (default: this folder)')
    parser.add_argument('--write', action='store_true', help='remove them')
    parser.add_argument('--check', action='store_true', help='exit status 1 if there is one')
    args = parser.parse_args()
    total = 0
    for path in sorted(Path(args.root).glob('crates/*/**/*')):
        if path.suffix not in ('.antt', '.rt'):
            continue
        text = path.read_text()
        new, gone = cleaned(text, path.suffix)
        total += len(gone)
        if gone and not args.write:
            print('%s: %s' % (path.relative_to(args.root), ', '.join(gone)))
        if new != text and args.write:
            path.write_text(new)
    print('%d imported names are not used' % total)
    return 1 if args.check and total else 0


if __name__ == '__main__':
    raise SystemExit(main())
