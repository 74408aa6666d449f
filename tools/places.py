#!/usr/bin/env python3
"""Brings the places that README.md and docs/*.md name up to date after pages or proofs moved.

    places.py            print what would change
    places.py --write    change it; then: tests/rules
    places.py --check    exit status 1 if something would change

A place is a file `CRATE/specs/PAGE.antt` or `CRATE/proofs/PAGE.antt`, perhaps with names after a colon, or a file of a
function's proof, `CRATE/proofs/FUNCTION/Proof.antt`. Where the file, or a name in it, is gone, the same crate is
searched: a page of that file name, else the one page that declares the name, else what the function's folder holds. A
place that is found nowhere, or more than once, stays; tests/rules names those of docs/RULES*.md. An item of a list
that grows past its line is wrapped again."""
import argparse
import os
import re
import textwrap
from pathlib import Path

PLACE = re.compile(r'`((?:crates/)?)(\w+/(?:specs|proofs)/[\w/+]+\.antt)(:[^`]+)?`')
OF_FUNCTIONS = ('Answers.antt', 'Invariants.antt', 'Proof.antt')
COLUMNS = 120


def declares(text, name):
    name = re.escape(name)
    return re.search(r'(?m)^\s*((unfoldable|abbrev|pub) )*(%s :|(record|data) %s[ :])' % (name, name), text)


class Places:
    def __init__(self, root):
        self.pages, self.proofs = {}, {}
        for path in sorted((root / 'crates').glob('*/[sp][pr]*/**/*.antt')):
            place = str(path.relative_to(root / 'crates'))
            of_function = '/proofs/' in place and path.name in OF_FUNCTIONS
            (self.proofs if of_function else self.pages)[place] = path.read_text()

    def page_of(self, place, name=None):
        """Where a page, or a name of it, is now."""
        own = [p for p in self.pages if p.split('/')[0] == place.split('/')[0]]
        for some in ([place], [p for p in own if os.path.basename(p) == os.path.basename(place)], own):
            found = [p for p in some if p in self.pages and (not name or declares(self.pages[p], name))]
            if len(found) == 1:
                return found[0]
            if not name and some is not own and len(some) > 1:
                break
        return place

    def now(self, match):
        """A place in backquotes as it is now."""
        before, place, names = match.groups()
        if os.path.basename(place) in OF_FUNCTIONS and '/proofs/' in place:
            folder = os.path.dirname(place)
            held = [folder + '/' + name for name in OF_FUNCTIONS if folder + '/' + name in self.proofs]
            return match[0] if place in self.proofs or not held else '`%s%s`' % (before, held[0])
        if not names:
            return '`%s%s`' % (before, self.page_of(place))
        found = {}
        for name in re.split(r',\s+', names[1:]):
            found.setdefault(self.page_of(place, name), []).append(name)
        if list(found) == [place]:
            return match[0]
        return ', '.join('`%s%s:%s`' % (before, page, ', '.join(some)) for page, some in found.items())


def wrapped(text):
    """The text with each item of a list wrapped again that has a line past the columns."""
    def item(match):
        words = ' '.join(line.strip() for line in match[0].splitlines())
        if all(len(line) <= COLUMNS for line in match[0].splitlines()):
            return match[0]
        return textwrap.fill(words, COLUMNS, subsequent_indent='  ', break_long_words=False, break_on_hyphens=False)
    return re.sub(r'(?m)^- .*(?:\n  .*)*', item, text)


def main():
    parser = argparse.ArgumentParser(description=__doc__, formatter_class=argparse.RawDescriptionHelpFormatter)
    parser.add_argument('--root', default='.', help='the repository (default: this folder)')
    parser.add_argument('--write', action='store_true', help='change the pages')
    parser.add_argument('--check', action='store_true', help='exit status 1 if something would change')
    args = parser.parse_args()
    root, changes = Path(args.root), 0
    places = Places(root)
    for path in [root / 'README.md', *sorted(root.glob('docs/*.md'))]:
        old = path.read_text()
        for match in PLACE.finditer(old):
            if places.now(match) != match[0]:
                changes += 1
                print('%s: %s is now %s' % (path.relative_to(root), match[0], places.now(match)))
        new = PLACE.sub(places.now, old)
        if new != old and args.write:
            path.write_text(wrapped(new))
    print('%d places moved' % changes)
    return 1 if args.check and changes else 0


if __name__ == '__main__':
    raise SystemExit(main())
