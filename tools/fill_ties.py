#!/usr/bin/env python3
"""Fills the arguments of `tie.spec` into lines of at most 110 columns.

A proof file ends with

    pub NAME-spec : ..
    NAME-spec =
        tie.close
        (tie.spec
        first
        (λ c. search needs)
        ..
        last)

with an argument on each line. This writes as many on a line as fit. An argument of several lines, or
longer than a line, keeps its own lines. Nothing else in a file changes.

    fill_ties.py             count the files and lines
    fill_ties.py --write     rewrite them
    fill_ties.py --check     exit status 1 if a file is not filled
"""
import argparse
from pathlib import Path

WIDTH = 110


def arguments(text):
    """The words of a text, those in brackets together; None where the brackets do not match."""
    words, word, depth = [], '', 0
    for sign in text:
        depth += (sign in '([{') - (sign in ')]}')
        if depth < 0:
            return None
        if sign == ' ' and depth == 0:
            words += [word] if word else []
            word = ''
        else:
            word += sign
    return words + [word] if depth == 0 else None


def fill(lines):
    """The lines of a file with the arguments of each `tie.spec` filled, where no argument has lines of its own."""
    out, at = [], 0
    while at < len(lines):
        line = lines[at]
        indent = line[:len(line) - len(line.lstrip())]
        if not line.startswith(indent + '(tie.spec'):
            out.append(line)
            at += 1
            continue
        block = [line.strip()]
        while at + len(block) < len(lines) and '\n'.join(block).count('(') > '\n'.join(block).count(')'):
            following = lines[at + len(block)]
            if not following.startswith(indent) or following[len(indent):len(indent) + 1] in ('', ' ', '-'):
                break
            block.append(following.strip())
        text = ' '.join(block)
        words = arguments(text[1:-1]) if text.endswith(')') else None
        if words is None or text.count('(') != text.count(')'):
            out.append(line)
            at += 1
            continue
        held = indent + '(' + words[0]
        for i, word in enumerate(words[1:]):
            word += ')' if i == len(words) - 2 else ''
            if len(held) + 1 + len(word) <= WIDTH:
                held += ' ' + word
            else:
                out.append(held)
                held = indent + word
        out.append(held)
        at += len(block)
    return out


def main():
    parser = argparse.ArgumentParser(description=__doc__, formatter_class=argparse.RawDescriptionHelpFormatter)
    parser.add_argument('--root', default='.', help='the repository (default: this folder)')
    parser.add_argument('--write', action='store_true', help='rewrite the files')
    parser.add_argument('--check', action='store_true', help='exit status 1 if a file is not filled')
    args = parser.parse_args()
    files = before = after = 0
    for path in sorted(Path(args.root).glob('crates/*/proofs/**/*.antt')):
        old = path.read_text().split('\n')
        new = fill(old)
        if new != old:
            files, before, after = files + 1, before + len(old), after + len(new)
            if args.write:
                path.write_text('\n'.join(new))
    print('%d files to fill: %d lines -> %d' % (files, before, after))
    return 1 if args.check and files else 0


if __name__ == '__main__':
    raise SystemExit(main())
