#!/usr/bin/env python3
"""Brings the names of definitions and lemmas to snake case, in every crate: run once, after port.py.

usage: python3 tools/respell.py [--list] [FOLDER]

    sizesOf  ->  sizes_of        length-rowSums  ->  length-row_sums        open-past  ->  open_past

A capital within a word that begins small becomes '_' and a small letter. A dash in a name of our own stays between two names (length-lows), and
before a plain word becomes '_' (row-start). Names that would fall together with another are listed, and stay as they are. Functions of src/,
exported C names and strings are in snake case already; a .rt file changes in its clauses, its ghost imports and its comments alone.
"""

import collections
import os
import re
import sys

TOKEN = re.compile(r"[A-Za-z_][A-Za-z0-9_'₀-₉]*(?:-[A-Za-z0-9_'₀-₉]+)*")
CAMEL = re.compile(r"(?<=[a-z0-9'₀-₉])([A-Z])(?=[a-z0-9'₀-₉]|$)")
DEFINED = re.compile(
    r"^(?P<in>\s*)(?:(?:abbrev|unfoldable|pub|data)\s+)*(?P<record>record\s+)?(?P<name>[^\s:(){}.,=;|⟨⟩]+)\s*(?:[({][^)}]*[)}]\s*)*:(?!:)"
)
# Names that would fall together with another in one file: (a part of the path, the name) -> the new name.
APART = {
    ("crates/callers/", "continue-fits"): "continue_fits_lem",
    ("crates/callers/", "open-fits"): "open_fits_lem",
    ("crates/callers/", "report-fits"): "report_fits_lem",
    ("crates/callers/", "cells_fit"): "cells_fit_lem",
    ("crates/callers/", "no-grid"): "no_grid_lem",
    ("crates/callers/", "no-session"): "no_session_lem",
    ("crates/callers/", "difference-of-sum"): "difference_of_sum_lem",
    ("crates/callers/", "sum-of-table"): "sum_of_table_lem",
    ("crates/file_tables/proofs/OnGrid.antt", "first_cell"): "first_cell_of_file",
}
# first parts of dashed lemmas of the library: names that a dash may join
LIBRARY = set(
    "length take drop map append replicate add sub mul div mod pow le lt leb ltb eqb and or not min max get_or set rev sum".split()
)


def files(root, endings):
    for folder, dirs, names in os.walk(os.path.join(root, "crates")):
        dirs[:] = sorted(d for d in dirs if d != "out")
        for name in sorted(names):
            if name.endswith(endings):
                yield os.path.join(folder, name)


def read(path):
    with open(path, encoding="utf-8") as f:
        return f.read()


def snake(word):
    """A word, with no dash: each capital after a small letter becomes '_' and the small letter."""
    if not re.match(r"[a-z]", word):
        return word
    return re.sub(r"(?<=[a-z0-9'₀-₉])([A-Z])", lambda m: "_" + m.group(1).lower(), word)


def own_names(root):
    """The names that specs/*.antt and proofs/*.antt declare, walks of functions (proofs/F/) left out."""
    own = set()
    for path in files(root, (".antt",)):
        folder = os.path.basename(os.path.dirname(path))
        if folder not in ("specs", "proofs"):
            continue
        for line in read(path).split("\n"):
            if line.lstrip().startswith("--"):
                continue
            m = DEFINED.match(line)
            if m and TOKEN.fullmatch(m.group("name")):
                own.add(m.group("name"))
    return own


def table(root):
    own = own_names(root)
    words = set(LIBRARY)
    for name in own:
        if "-" not in name:
            words.add(snake(name))
    seen = collections.Counter()
    for path in files(root, (".antt", ".rt")):
        seen.update(TOKEN.findall(read(path)))
    turned = {}
    for name in seen:
        if not re.match(r"[a-z]", name):
            continue
        parts = [p.replace("getD", "get_or") for p in name.split("-")]
        parts = [snake(p) if re.match(r"[a-z]", p) else p for p in parts]
        new = "-".join(parts)
        if name in own and "-" in name:
            new = parts[0]
            for a, b in zip(parts, parts[1:]):
                joined = a in words and (b in words or re.match(r"[A-Z]", b))
                new += ("-" if joined else "_") + b
        if new != name:
            turned[name] = new
    back = collections.defaultdict(list)
    for name, new in turned.items():
        back[new].append(name)
    together = {}
    for new, names in back.items():
        if len(names) > 1 or new in seen:
            together[new] = names
    return turned, together, seen


def main(argv):
    only_list = "--list" in argv
    rest = [a for a in argv if a != "--list"]
    root = rest[0] if rest else "."
    turned, together, seen = table(root)
    for new in sorted(together):
        print("together:", new, "<-", *together[new], "(it is there)" if new in seen else "")
    if only_list:
        for name in sorted(turned):
            print(name, "->", turned[name])
        return 0
    changed = 0
    for path in files(root, (".antt", ".rt")):
        text = read(path)
        here = dict(turned)
        for (part, name), other in APART.items():
            if part in path:
                here[name] = other
        new = TOKEN.sub(lambda m: here.get(m.group(0), m.group(0)), text)
        if new != text:
            changed += 1
            with open(path, "w", encoding="utf-8") as f:
                f.write(new)
    print(f"{changed} files, {len(turned)} names")
    return 0


if __name__ == "__main__":
    raise SystemExit(main(sys.argv[1:]))
