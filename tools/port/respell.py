#!/usr/bin/env python3
"""Brings the names that this repository's definitions, lemmas, fields and variables have to today's spelling.

usage: tools/port/respell.py            at the top of the repository, once, after port.py
       tools/port/respell.py --table    prints what would be renamed, and changes nothing

The rules, which are those of the kit's page on style:
 - a word that begins with a small letter is in snake case: `sinceOf` becomes `since_of`;
 - a dash in the name of a lemma stands between two names of functions and nowhere else: `class-by-difference` becomes
   `class_by_difference`, and `drop-sets` stays;
 - a lemma that would then have its function's name gets `_lem`.
Functions of src/, types and modules keep their names, and so do strings, inputs and outputs. Names that Rattle makes
(`returns-2`) stand in proofs/F/ alone, and are not looked at. Nothing is changed where two names would still be one.
"""
import glob
import re
import sys

# what may stand in a name
TOKEN = re.compile(r"[A-Za-z_ℕℤ0-9][\w'ℕℤ-]*")
# a definition or a lemma at the head of its line; a field or a constructor below one
HEAD = re.compile(r"^(?:(?:abbrev|unfoldable|pub|ruleset|record|data)\s+)*([A-Za-z][\w'-]*)\s*(?::|=|\(|\{)")
PART = re.compile(r"^\s+(?:pub )?([A-Za-z][\w'-]*) : ")
CAMEL = re.compile(r"^[a-z][\w'-]*$")
HUMP = re.compile(r"(?<=[a-z0-9])([A-Z])")
# functions of which lemmas say how two go together
FUNCTIONS = set("length drop take append set sets get_or reverse cond and or not mod map filter fold sum true false diff".split())


def law_files():
    return sorted(glob.glob("crates/*/specs/**/*.antt", recursive=True) + glob.glob("crates/*/proofs/*.antt"))


def turned_files():
    return sorted(glob.glob("crates/*/specs/**/*.antt", recursive=True) + glob.glob("crates/*/proofs/**/*.antt", recursive=True)
                  + glob.glob("crates/*/src/**/*.rt", recursive=True))


def read(path):
    with open(path, encoding="utf-8") as f:
        return f.read()


def snake(word):
    """One part of a name, between dashes."""
    if not re.match(r"[a-z]", word):
        return word
    return HUMP.sub(lambda m: "_" + m.group(1).lower(), word)


def declared():
    """All names declared in specs/ and proofs/."""
    names = set()
    for path in law_files():
        for line in read(path).split("\n"):
            m = HEAD.match(line) or PART.match(line)
            if m:
                names.add(m.group(1))
    return names


def new_name(name):
    parts = [snake(p) for p in name.split("-")]
    return ("-" if all(p in FUNCTIONS for p in parts) else "_").join(parts)


def with_lem(turned, names):
    """Where a function and a lemma would have one name, the lemma's gets `_lem`: the function is the one in camel case, or else the one that had no dash."""
    for name, olds in falls_together(turned, names).items():
        humps = [o for o in olds if "-" not in o and HUMP.search(o)]
        function = humps[0] if len(humps) == 1 else name if name in olds else None
        for old in olds:
            if function and old != function:
                turned[old] = name + "_lem"


def table():
    names = declared()
    turned = {}
    for path in turned_files():
        for token in TOKEN.findall(read(path)):
            own = token in names
            if own and (CAMEL.match(token) or "-" in token):
                turned[token] = new_name(token)
            elif CAMEL.match(token) and "-" not in token and HUMP.search(token):
                turned[token] = snake(token)
    turned = {a: b for a, b in turned.items() if a != b}
    with_lem(turned, names)
    return turned, names


def falls_together(turned, names):
    """New names that two old ones would have, or that another name has already."""
    by_new = {}
    for a, b in turned.items():
        by_new.setdefault(b, []).append(a)
    return {b: olds + ([b] if b in names and b not in turned else []) for b, olds in by_new.items()
            if len(olds) > 1 or (b in names and b not in turned)}


def main(argv):
    turned, names = table()
    if argv == ["--table"]:
        for a in sorted(turned):
            print(a, turned[a])
        for b, olds in sorted(falls_together(turned, names).items()):
            print("falls together:", b, olds)
        return 0
    if argv:
        print(__doc__)
        return 2
    clashes = falls_together(turned, names)
    if clashes:
        print("these would fall together, and nothing was changed:", clashes)
        return 1
    changed = 0
    for path in turned_files():
        old = read(path)
        # a name of src/ has no hump and no dash: in .rt files only such names are turned
        plain = path.endswith(".rt")
        new = TOKEN.sub(lambda m: m.group(0) if plain and not HUMP.search(m.group(0)) and "-" not in m.group(0) else turned.get(m.group(0), m.group(0)), old)
        if new != old:
            changed += 1
            with open(path, "w", encoding="utf-8") as f:
                f.write(new)
    print(f"respell: {len(turned)} names, {changed} files")
    return 0


if __name__ == "__main__":
    sys.exit(main(sys.argv[1:]))
