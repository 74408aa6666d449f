#!/usr/bin/env python3
"""Counts places of older forms in the source of the crates, a point of docs/DESIGN-PASS.md each.

tools/old_forms.py [POINT ..]    prints the counts; with a point also each place
"""
import collections
import os
import re
import sys

ROOT = os.path.join(os.path.dirname(os.path.abspath(__file__)), "..")


def sources():
    for folder, _, names in sorted(os.walk(os.path.join(ROOT, "crates"))):
        if "/src" in folder and "/out" not in folder:
            for name in sorted(names):
                if name.endswith(".rt"):
                    path = os.path.join(folder, name)
                    with open(path, encoding="utf-8") as file:
                        yield os.path.relpath(path, ROOT), file.read()


def code_of(text):
    return "\n".join(line.split("//")[0] for line in text.split("\n"))


def line_at(text, place):
    return text.count("\n", 0, place) + 1


def functions(text):
    """Name, place, head and body of each function."""
    for found in re.finditer(r"(?m)^( *)(?:pub )?(?:extern \"C\" )?(?:unsafe )?fn (\w+)", text):
        end = re.search(r"(?m)^%s\}" % found.group(1), text[found.start():])
        if end:
            whole = text[found.start():found.start() + end.end()]
            cut = re.search(r"(?m)^%s\{" % found.group(1), whole)
            start = cut.start() if cut else whole.index("{")
            yield found.group(2), found.start(), whole[:start], whole[start:]


ABSENT = {"None", "Nothing", "Nowhere", "Unknown", "Past", "Cut", "Done", "Malformed", "Misshaped", "Quiet",
          "NoContact", "InRange", "Within", "Whole", "Taken", "NotNumber", "NotWhole", "NotFinite", "TooLarge"}
FAILED = {"Refused", "Faulty", "Wrong", "Unfit", "OutOfRange", "Broken", "Fault", "Short"}
# variants of enums that only name a fault
FAULTS = {"NotSeconds", "Twice", "OffsetTwice", "NeedsInstant", "Missing", "Clock", "Typed", "More", "Fewer",
          "Unfinished"}


def own_enums(places):
    for path, text in places:
        for found in re.finditer(r"(?ms)^(?:pub )?enum (\w+) \{\n(.*?)^\}", code_of(text)):
            variants = re.findall(r"(?m)^    (\w+)", found.group(2))
            if set(variants) & (ABSENT | FAILED) and any(v not in ABSENT | FAILED | FAULTS for v in variants):
                yield path, line_at(text, text.index("enum " + found.group(1) + " {")), found.group(1)


def errors_by_hand(places):
    """An error that is taken out and returned as it is, where `?` would do."""
    for path, text in places:
        plain = code_of(text)
        taken = (r"if let (?:\w+::)*(?:Refused|Err|OutOfRange|Faulty)\((\w+)\) = \w+ \{\s*"
                 r"return (?:\w+::)*(?:Refused|Err|OutOfRange|Faulty)\(\1\);")
        arm = r"(?:\w+::)*(?:Refused|Err|Faulty)\((\w+)\) => (?:return )?(?:\w+::)*(?:Refused|Err|Faulty)\(\1\),"
        other = r"let [\w:]+\(?[^;={]*\)? = (\w+) else \{\s*return \1;"
        for pattern in (taken, arm, other):
            for found in re.finditer(pattern, plain):
                yield path, line_at(plain, found.start()), re.sub(r"\s+", " ", found.group(0))


def numbers_for_kinds(places):
    for path, text in places:
        for found in re.finditer(r"(?m)^ *(?:pub )?(state|kind|side|was|is|phase|shape|scale|number|start): u(?:8|32)\b", text):
            yield path, line_at(text, found.start()), found.group(1)


def twins(places):
    shapes = collections.defaultdict(list)
    for path, text in places:
        if path.startswith("crates/ukhtvaresh"):
            continue
        for name, place, head, body in functions(code_of(text)):
            if body.count("\n") >= 4:
                words = re.sub(r"\b[A-Za-z_]\w*\b|\d[\d_]*", "x", body)
                shapes[re.sub(r"\s+", " ", words)].append((path, line_at(text, place), name))
    for group in shapes.values():
        if len(group) > 1:
            yield from group


def counted_loops(places):
    for path, text in places:
        for found in re.finditer(r"(?m)^ *(?:'\w+: )?(while|loop)\b.*\{", code_of(text)):
            yield path, line_at(text, found.start()), found.group(0).strip()


def by_hand(places):
    """Functions that only copy fields or map cases, and enums compared by a match that gives true and false."""
    for path, text in places:
        for name, place, head, body in functions(code_of(text)):
            inner = body[1:-1].strip()
            match = re.fullmatch(r"(?s)(?:let \w+ = [^;]*;\s*)*match [^{]*\{(.*)\}", inner)
            if match:
                arms = re.findall(r"=>\s*([^,\n]+),", match.group(1))
                if arms and all(re.fullmatch(r"true|false", a.strip()) for a in arms):
                    yield path, line_at(text, place), name + ": a test by cases"
                elif arms and all(re.fullmatch(r"[\d_]+|b?'.'|[A-Z]\w*(?:::\w+)*", a.strip()) for a in arms):
                    yield path, line_at(text, place), name + ": a case for a case"
            elif re.fullmatch(r"(?s)(?:let \w+ = [\w.]+;\s*)*[A-Z]\w*(?:::\w+)* \{[^{}]*\}", inner):
                fields = re.search(r"\{(.*)\}", inner, re.S).group(1)
                if all(re.fullmatch(r"\s*\w+(?:: [\w.]+)?\s*", f) for f in fields.split(",") if f.strip()):
                    yield path, line_at(text, place), name + ": fields copied"


def repeated_facts(places):
    facts = collections.defaultdict(list)
    for path, text in places:
        for name, place, head, _ in functions(text):
            for clause in re.findall(r"(?m)^\s*requires(?: \w+)? \{ (.*) \}$", head):
                for fact in re.split(r" × ", clause):
                    plain = re.sub(r"\.(now|old)\b", "", fact).strip("() ")
                    facts[(path.split("/")[1], plain)].append((path, line_at(text, place), name + ": " + plain))
    for (crate, plain), group in facts.items():
        if len({(p, n) for p, n, _ in group}) >= 3:
            yield group[0][0], group[0][1], f"{len(group)} times: {plain}"


def buffers(places):
    for path, text in places:
        plain = code_of(text)
        for found in re.finditer(r"(?ms)^(?:#\[[^\n]*\n)*(?:pub )?struct (\w+)[^{;]*\{(.*?)^\}", plain):
            if re.search(r": (?:&(?:'\w+ )?(?:mut )?\[|\[)", found.group(2)):
                yield path, line_at(text, found.start()), "struct " + found.group(1)
        for found in re.finditer(r"(?m)^ *let mut (\w+) = \[", plain):
            yield path, line_at(text, found.start()), "array " + found.group(1)


def switches(places):
    for path, text in places:
        for name, place, head, body in functions(code_of(text)):
            for found in re.finditer(r"match (shape|phase|body|kind|scale|width) \{(.*?)\n\s*\}", body, re.S):
                calls = re.findall(r"=>\s*(?:\{\s*)?((?:\w+::)*[a-z_]\w*)\(", found.group(2))
                if len(set(calls)) > 1:
                    yield path, line_at(text, place), name + ": by " + found.group(1)


def proofs(_):
    for folder, _, names in sorted(os.walk(os.path.join(ROOT, "crates"))):
        if "/out" not in folder and "Proof.antt" in names:
            yield os.path.relpath(os.path.join(folder, "Proof.antt"), ROOT), 1, "answers each goal by place"


POINTS = [
    ("1", "own enums of the shape of Option or Result", own_enums),
    ("1q", "errors taken out and returned as they are", errors_by_hand),
    ("1n", "fields and parameters that are numbers for kinds", numbers_for_kinds),
    ("2", "functions whose bodies differ only in names and numbers", twins),
    ("3", "loops by hand", counted_loops),
    ("4", "copies, conversions and tests by cases", by_hand),
    ("5", "facts that three or more functions of a crate require", repeated_facts),
    ("6", "arrays and structs with a buffer", buffers),
    ("7", "switches on which step to run", switches),
    ("8", "proofs that answer each goal by place", proofs),
]


def main():
    places = list(sources())
    for point, what, find in POINTS:
        found = list(find(places))
        print(f"{point:3} {len(found):4}  {what}")
        if point in sys.argv[1:]:
            for path, line, name in found:
                print(f"       {path}:{line}  {name}")


main()
