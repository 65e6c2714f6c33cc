#!/usr/bin/env python3
"""Brings this repository's own names to one spelling: words in snake case, where they were joined by dashes.

    python3 tools/respell.py         once, at the top of the repository, after port.py

It goes over definitions, lemmas, fields, ghost members and local names of crates/*/specs and crates/*/proofs, the
clauses of crates/*/src that name them, and names in backticks of README.md and docs/. Names of the library (those
that a file imports from it) and names of goals (in the folders of single functions) stay as they are. A lemma that
is named by its left side, the outer call first, keeps the dash between the two. It stops where two names would
fall together.
"""

import pathlib
import re
import sys

TOP = pathlib.Path(sys.argv[1] if len(sys.argv) > 1 else ".")
CRATES = {line.split(":")[0].strip() for line in (TOP / "crates.txt").read_text().splitlines() if ":" in line}
NAME = r"[A-Za-z][\w']*(?:-[\w']+)+"
TOKEN = re.compile(rf"(?<![\w'-])(?:{NAME})(?![\w'-])")
# lemmas named by their left side
OUTER_INNER = {
    name: name.replace("sumBy", "sum_by").replace("countBy", "count_by").replace("same-bag", "same_bag")
    for name in """entries-append entries-cons entries-placed entries-struck length-freed length-placed length-replicate
        length-struck length-written often-cons often-nil often-nth often-push often-without times-append
        times-placed times-struck countBy-all sumBy-without sumBy-same-bag get_or-replicate""".split()
}
COMMENT = {".antt": "--", ".rt": "//"}
USE = re.compile(r"^(?:ghost )?use (\S+?)(?:\.\{([^}]*)\})?;?$", re.M)


def files(pattern):
    return sorted(p for p in TOP.glob(pattern) if "out" not in p.parts)


def code(path, text):
    """(part, is it a comment) of a text, in order"""
    mark = COMMENT[path.suffix]
    for line in text.splitlines(keepends=True):
        at = re.search(rf"(?:^|\s){re.escape(mark)}", line)
        cut = at.start() if at else len(line)
        yield line[:cut], False
        yield line[cut:], True


def imported(text):
    """the names that a text imports from elsewhere than this repository"""
    found = set()
    for m in USE.finditer(text):
        parts = m.group(1).split(".")
        if parts[0] == "Rattle" and parts[1] in CRATES:
            continue
        found.update(n.strip() for n in (m.group(2) or "").split(","))
    return found


shared = [p for p in files("crates/*/specs/*.antt") + files("crates/*/proofs/*.antt")]
own, plain = set(), set()
for path in shared:
    text = path.read_text()
    bare = "".join(part for part, comment in code(path, text) if not comment)
    own.update(set(TOKEN.findall(bare)) - imported(text))
    plain.update(re.findall(r"(?m)^\s*(?:abbrev |unfoldable )?(?:pub )?(?:data |record )?([A-Za-z_][\w']*) :", bare))
library = set()
for path in shared + files("crates/*/proofs/**/*.antt") + files("crates/*/src/**/*.rt"):
    library |= imported(path.read_text())
own -= library

turned = {name: OUTER_INNER.get(name, name.replace("-", "_")) for name in own}
turned = {name: to for name, to in turned.items() if to != name}
clash = sorted(n for n, to in turned.items() if to in plain or to in library)
clash += sorted(n for n in turned if list(turned.values()).count(turned[n]) > 1)
for name in clash:
    print(f"falls together: {name} and {turned[name]}")
if clash:
    sys.exit(1)


def respell(text):
    return TOKEN.sub(lambda m: turned.get(m.group(), m.group()), text)


count = 0
for path in shared + files("crates/*/proofs/**/*.antt") + files("crates/*/src/**/*.rt"):
    text = path.read_text()
    new = "".join(part if comment else respell(part) for part, comment in code(path, text))
    if new != text:
        path.write_text(new)
        count += 1
for path in files("README.md") + files("docs/*.md"):
    text = path.read_text()
    new = re.sub(r"`[^`\n]+`", lambda m: respell(m.group()), text)
    if new != text:
        path.write_text(new)
        count += 1
print(f"{len(turned)} names, {count} files")
for name in sorted(turned):
    print(f"  {name} -> {turned[name]}")
