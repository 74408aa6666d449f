#!/usr/bin/env python3
"""Checks must-fail edits: whether each still fits its file, and where the checker refused it.

    check_edits.py [--check]     prints each edit with an `old:` text that does not stand in its file once
    check_edits.py --said FILE   also prints where each edit was refused, from what `rt must-fail` printed into FILE

An edit's pairs of `old:` and `new:` are one line each and apply in turn. Of an edit that was refused `rt must-fail`
prints the place of the first error. It is at a promise if it is in `returns`, a goal of a function's proof, and at a
law if it is in a file under specs/, or in one of proofs/ that is no function's. Exit status 1 if an edit does not fit
or was refused elsewhere.
"""
import re
import sys
from pathlib import Path

ROOT = Path(__file__).resolve().parent.parent
FUNCTION_FILES = ('Proof.antt', 'Invariants.antt', 'Answers.antt')
SAID = re.compile(r'^(?:rt: )?must-fail (\w+/\w+)\.edit: refused, as it must be(.*)')
ERROR = re.compile(r'(?:note: )?(?:\./)?((?:proofs|specs|src)/\S*?):\d+:\d+: (?:error: )?(?:`([^`]*)`)?')
# a goal of a function that needs no proof file
OPEN = re.compile(r'()`([^`]*)` of \S*proofs/')


def edits():
    for path in sorted([*ROOT.glob('crates/*/must-fail/*.edit'), *ROOT.glob('tests/edits/*/*.edit')]):
        yield path, path.parts[-3] if path.parts[-2] == 'must-fail' else path.parts[-2]


def faults(path, crate):
    texts, file, old = {}, None, None
    for line in path.read_text().splitlines():
        if line.startswith('file:'):
            file, old = line[5:].strip(), None
            target = ROOT / 'crates' / crate / file
            if not target.is_file():
                yield 'no file %s' % target.relative_to(ROOT)
                return
            texts.setdefault(file, target.read_text())
        elif line.startswith('old:'):
            old = line[4:].removeprefix(' ')
            count = texts[file].count(old) if file and old else 0
            if count != 1:
                yield '%d times, not once, in crates/%s/%s: %s' % (count, crate, file, old)
        elif line.startswith('new:') and file and old is not None:
            texts[file] = texts[file].replace(old, line[4:].removeprefix(' '))
            old = None


def refused_at(words):
    """Where the first error is: ('promise' | 'law' | 'elsewhere', file, name)."""
    error = ERROR.search(words) or OPEN.search(words)
    if not error:
        return 'elsewhere', '', words.strip(' :') or 'no place was printed'
    file, name = error[1], error[2] or ''
    is_law = file.startswith('specs/') or file.startswith('proofs/') and file.rsplit('/', 1)[-1] not in FUNCTION_FILES
    return 'law' if is_law else of_goal(name), file, name


def of_goal(name):
    return 'promise' if re.fullmatch(r'(.*-)?returns(-.*)?', name) else 'elsewhere'


def main():
    arguments = sys.argv[1:]
    said = Path(arguments[1]).read_text(errors='replace') if arguments[:1] == ['--said'] else ''
    misfits = 0
    for path, crate in edits():
        for fault in faults(path, crate):
            misfits += 1
            print('%s: %s' % (path.relative_to(ROOT), fault))
    count = {'promise': 0, 'law': 0, 'elsewhere': 0}
    for line in said.splitlines():
        found = SAID.match(line)
        if found:
            place, file, name = refused_at(found[2])
            count[place] += 1
            where = place if place == 'elsewhere' else 'at a ' + place
            print('%s: refused %s: `%s` of %s' % (found[1], where, name, file))
    print('%d edits do not fit; refused at a promise %d, at a law %d, elsewhere %d' %
          (misfits, count['promise'], count['law'], count['elsewhere']))
    return 1 if misfits or count['elsewhere'] else 0


if __name__ == '__main__':
    sys.exit(main())
