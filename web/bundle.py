"""Puts the page together as one file: python3 web/bundle.py FOLDER (`web/build` runs it).

FOLDER has ukhtvaresh.wasm and request.wasm. A browser gives a page from a file no origin: it refuses to import modules
or to fetch a library beside it. So the modules of web/src become one classic script, in the order of their imports,
without the words `import` and `export`, in a function of its own. Style, examples, data and the library, in base64, are
in the page too. Names at the top of the modules must differ from each other, which is checked.
"""

import base64
import json
import re
import sys
from pathlib import Path

WEB = Path(__file__).resolve().parent
SOURCE = WEB / "src"
TOP = WEB.parent
EXAMPLES = TOP / "examples"
DATA = {
    "CATALOGUE": TOP / "almanac/catalogue/eclipses.txt",
    "LEAP_SECONDS": TOP / "almanac/leap_seconds.txt",
    "CITIES": WEB / "data/cities.txt",
    "MORE_CITIES": WEB / "data/more_cities.txt",
    "OUTLINE": WEB / "data/outline.txt",
}
LIMIT = 900_000  # bytes of the page
IMPORT = re.compile(r'^import \{[^}]*\} from "\./([a-z]+)\.mjs";\n', re.MULTILINE)
NAME = re.compile(r"^(?:export )?(?:async )?(?:function|const|let|class) (\w+)", re.MULTILINE)


def in_order(name, seen):
    """The modules that a module wants, each before what wants it."""
    if name in seen or name == "made":
        return
    seen[name] = None  # a module that comes back to itself would have no order
    text = (SOURCE / f"{name}.mjs").read_text()
    for wanted in IMPORT.findall(text):
        in_order(wanted, seen)
    del seen[name]
    seen[name] = text


def with_instant(text, instant):
    """A typed request with the line of its instant, behind the comment that opens it."""
    opening, blank, rest = text.partition("\n\n")
    return f"{opening}{blank}# the date and time of second 0\ninstant {instant}\n\n{rest}"


def titled(text):
    """A typed request whose first comment is its title alone: what the comment has before a colon."""
    title = re.match(r"#+[ \t]*([^:\n]*):", text)
    return f"# {title.group(1).strip()}\n{text}" if title else text


def data(path):
    """The lines of a data file that are no remarks."""
    return "".join(line + "\n" for line in path.read_text("utf-8").splitlines() if line and not line.startswith("#"))


def examples():
    """Names and texts, those of examples/ with their instants and those of web/examples."""
    made = {}
    for line in (EXAMPLES / "instants.txt").read_text().splitlines():
        if line and not line.startswith("#"):
            name, instant = line.split(" ", 1)
            made[name] = titled(with_instant((EXAMPLES / f"{name}.txt").read_text(), instant))
    for path in sorted((WEB / "examples").glob("*.txt")):
        made[path.stem] = titled(path.read_text())
    return made


def main():
    folder = Path(sys.argv[1])
    modules = {}
    in_order("page", modules)
    names = [name for text in modules.values() for name in NAME.findall(text)]
    twice = {name for name in names if names.count(name) > 1}
    if twice:
        sys.exit(f"names in more than one module: {', '.join(sorted(twice))}")
    made = {"EXAMPLES": examples(), **{name: data(path) for name, path in DATA.items()}}
    for name in ("ukhtvaresh", "request"):
        wasm = (folder / f"{name}.wasm").read_bytes()
        made["LIBRARY" if name == "ukhtvaresh" else "REQUEST"] = base64.b64encode(wasm).decode()
    parts = [f"const {name} = {json.dumps(value, ensure_ascii=False, indent=0)};\n" for name, value in made.items()]
    for name, text in modules.items():
        parts.append(f"\n// ---- {name}.mjs\n" + re.sub(r"^export ", "", IMPORT.sub("", text), flags=re.MULTILINE))
    script = '(() => {\n"use strict";\n' + "".join(parts) + "})();\n"
    if "</script" in script or re.search(r"^\s*(import|export) ", script, re.MULTILINE):
        sys.exit("what a script in a page cannot have is left in it")
    page = (WEB / "index.html").read_text()
    page = page.replace("<!-- style -->", f"<style>\n{(WEB / 'style.css').read_text()}</style>")
    page = page.replace("<!-- script -->", f"<script>\n{script}</script>")
    out = folder / "ukhtvaresh.html"
    out.write_text(page)
    size = len(page.encode())
    print(f"{out}: {size:,} bytes")
    if size > LIMIT:
        sys.exit(f"the page has more than {LIMIT:,} bytes")


if __name__ == "__main__":
    main()
