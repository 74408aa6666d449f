#!/usr/bin/env python3
"""Respells this repository's own antt names: words in snake case, facts as types.

usage: tools/respell.py [--list] [FOLDER]

FOLDER (the current one) has crates/. A name that specs/ or a lemma file of proofs/ declares, or a record's field, is
respelled by three rules: `firstOutOfRange` becomes `first_out_of_range`; a dash stays only between two names of
definitions, and becomes `_` before a plain word (`root-mono` becomes `root_mono`); a function whose values are facts
gets the capital of a type (`isInRange` becomes `IsInRange`). Rust's functions, strings, exported names and the papers'
one-letter names stay. A name stays, and --list says so, where the new spelling is taken. It ran once, after port.py
(docs/PORT.md); a second run changes nothing.
"""

import os
import re
import sys

W = r"[^\s(){}.;,@\"«»\[\]\\]+"
TOKEN = re.compile(r"\"(?:[^\"\\]|\\.)*\"|" + W)
DECL = re.compile(r"^(?:(?:abbrev|unfoldable|pub) )*(%s) :(?: |$)(.*)" % W)
FIELD = re.compile(r"^ +(?:pub )?(%s) : " % W)
# Names that Rattle makes for goals and steps.
MADE = re.compile(
    r"(loop|if|in|match|returns|overflow|bounds|offset|nonzero|type|same|call|decreases|invariant|struct)-.*"
    r"|.*-(requires|init|preserved|smaller|test|holds|again|spec|ensures|result|fits|end|index|is)(-\d+)?|need-.*"
)
# Definitions of the library that the lemmas' names join.
LIBRARY = set(
    "length append take drop map sum root near sine cosine reverse fold set get lookup replicate suc pos neg".split()
)


def files(root, end):
    for folder, folders, names in os.walk(os.path.join(root, "crates")):
        folders[:] = sorted(it for it in folders if it != "out")
        for name in sorted(names):
            if name.endswith(end):
                yield os.path.join(folder, name)


def read(path):
    with open(path, encoding="utf-8") as it:
        return it.read()


def snake(name):
    """`halfUp` as `half_up`; the capital of a type or a letter at the head stays."""
    name = re.sub(r"(?<=[a-zα-ω0-9])([A-Z])(?=[a-z])", lambda it: "_" + it[1].lower(), name)
    return re.sub(r"(?<=[a-zα-ω])([A-Z])(?![a-z])", lambda it: "_" + it[1].lower(), name)


def is_fact(signature):
    return bool(re.search(r"(^|→ )Type (0|ℓ)\s*$", signature.strip()))


def declared(root):
    """The names that are declared, with what they are: name -> set of 'fact', 'word', 'lemma', 'field'."""
    out = {}
    for path in files(root, ".antt"):
        if os.path.basename(path) in ("Proof.antt", "Answers.antt", "Invariants.antt"):
            continue
        lines = read(path).split("\n")
        in_record = False
        for at, line in enumerate(lines):
            found = DECL.match(line)
            if found:
                in_record = False
                name, sig, end = found[1], found[2], at + 1
                while end < len(lines) and lines[end].startswith(" "):
                    sig += " " + lines[end].strip()
                    end += 1
                shown = line.startswith(("abbrev", "unfoldable"))
                kind = "fact" if is_fact(sig) else "word" if shown else "lemma"
                out.setdefault(name, set()).add(kind)
            elif re.match(r"^(pub )?(record|data) ", line):
                in_record = True
                name = re.match(r"^(?:pub )?(?:record|data) (?:pub )?(%s)" % W, line)[1]
                out.setdefault(name, set()).add("type")
            elif line and not line.startswith(" "):
                in_record = False
            elif in_record and FIELD.match(line):
                out.setdefault(FIELD.match(line)[1], set()).add("field")
    return out


def renamings(root):
    names = declared(root)
    words = {it for it, kinds in names.items() if kinds & {"word", "fact", "type"}} | LIBRARY

    def new(name, kinds):
        if "type" in kinds or "◌" in name:
            return name
        if MADE.fullmatch(name):
            return "-".join(it if re.match(r"[A-Z][a-z]", it) else snake(it) for it in name.split("-"))
        parts = name.split("-")
        out = parts[0]
        for left, right in zip(parts, parts[1:]):
            symbol = not re.match(r"\w", right) or not re.search(r"\w$", left)
            both = left in words and right in words and len(left) > 1 and len(right) > 1
            out += ("-" if symbol or both and "lemma" in kinds else "_") + right
        upper = re.match(r"[A-Z][a-z]", out)
        out = out if upper and not re.search(r"[_-]", out) else "-".join(
            it if re.match(r"[A-Z][a-z]", it) else snake(it) for it in out.split("-"))
        if kinds == {"fact"} and re.match(r"[a-z]", out):
            out = "".join(it[:1].upper() + it[1:] for it in out.split("_"))
        return out

    out = {it: new(it, kinds) for it, kinds in names.items()}
    out = {a: b for a, b in out.items() if a != b}
    # Taken: the file that has the old name has the new one too, or two old names become one.
    used, said = {}, []
    for path in files(root, ".antt"):
        text = re.sub(r"(?m)--.*", "", read(path))
        text = re.sub(r"(?m)^(pub )?use [^\n{]*", "", text)
        used[path] = set(TOKEN.findall(text))
    for a, b in sorted(out.items()):
        clash = next((p for p, words_of in used.items() if a in words_of and b in words_of), None)
        same = [it for it in out if out[it] == b and it != a]
        if clash or b in names or same:
            said.append(f"stays: {a}, since {b} is taken ({os.path.relpath(clash, root) if clash else 'a declaration'})")
    taken = {it.split()[1].rstrip(",") for it in said}
    return {a: b for a, b in out.items() if a not in taken}, said


def in_antt(text, names):
    """Renames in a file of antt, its comments too; not in module paths."""
    def line_turned(line):
        head = re.match(r"(?:pub )?use [^\s{]*", line)
        head = head[0] if head else ""
        return head + TOKEN.sub(lambda it: names.get(it[0], it[0]), line[len(head):])
    return "\n".join(map(line_turned, text.split("\n")))


def in_rust(text, names):
    """Renames in `ghost use` items, in clauses and in comments."""
    out, at = [], 0
    clause = re.compile(r"ghost use [^;]*;|//[^\n]*|\b(?:requires|ensures)\*?(?: \w+)? \{|\bghost \w+ ?[:=] \{")
    while True:
        found = clause.search(text, at)
        if not found:
            return "".join(out) + text[at:]
        end = found.end()
        if found[0].endswith("{"):
            depth = 1
            while depth:
                depth += (text[end] == "{") - (text[end] == "}")
                end += 1
        out.append(text[at:found.start()])
        piece = text[found.start():end]
        path = re.match(r"ghost use [^\s{]*", piece)
        path = path[0] if path else ""
        out.append(path + TOKEN.sub(lambda it: names.get(it[0], it[0]), piece[len(path):]))
        at = end


def main():
    words = [it for it in sys.argv[1:] if it != "--list"]
    root = words[0] if words else "."
    names, said = renamings(root)
    if "--list" in sys.argv:
        print("\n".join(f"{a} -> {b}" for a, b in sorted(names.items())))
        print("\n".join(said))
        return
    for end, turn in ((".antt", in_antt), (".rt", in_rust), (".edit", in_antt)):
        for path in files(root, end):
            old = read(path)
            new = turn(old, names)
            if new != old:
                with open(path, "w", encoding="utf-8") as it:
                    it.write(new)
    print(f"renamed {len(names)}, kept {len(said)}")


if __name__ == "__main__":
    main()
