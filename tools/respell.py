#!/usr/bin/env python3
"""Brings the names that this repository defines in specs/ and proofs/ to the spelling of today's Rattle.

Definitions, lemmas and fields go to snake case (`spellInt` to `spell_int`), and definitions whose values are facts, of `Type 0`, to upper
camel case (`pastMag` to `PastMag`). A dash stays where it joins the names of a lemma, and is an underscore in a definition of specs/, in a
field and in a constructor. Names of src/ keep their spelling: they have it already.
It goes over the .antt, .rt and .edit files of crates/, and prints the names that would fall together with another of the same file.

usage: python3 tools/respell.py [FILE..]      at the top, once, after port.py; with FILEs, those are respelt too (pages)
"""
import collections
import glob
import re
import sys

SIGNATURE = re.compile(r"^(\s*)(?:(?:abbrev|unfoldable|pub)\s+)*([^\s:(){}\[\],;.λ]+)\s*:\s(.*)$")
TYPE = re.compile(r"^\s*(?:pub\s+)?(?:data|record)\s+([^\s:(){}]+)")
TOKEN = re.compile(r"[\w'′-]+")
HUMP = re.compile(r"([a-z0-9])([A-Z])")

# Facts that are spelt as words, by the end of their signature; and names that the port took for names of the library.
BY_HAND = {"past_of": "PastOf", "s_ret": "s-ret", "d_ret": "d-ret", "o_ret": "o-ret", "ne_eqb": None}


def snake(name):
    return HUMP.sub(lambda m: m.group(1) + "_" + m.group(2).lower(), name)


def camel(name):
    return name[0].upper() + re.sub(r"_(\w)", lambda m: m.group(1).upper(), name[1:])


def defined():
    """Each name that an .antt file defines, and what it is: a fact (its signature ends in a Type), a field, a definition or a lemma."""
    found = collections.defaultdict(set)
    for path in sorted(glob.glob("crates/*/specs/**/*.antt", recursive=True) + glob.glob("crates/*/proofs/**/*.antt", recursive=True)):
        inside = None
        for line in open(path, encoding="utf-8"):
            if line.lstrip().startswith("--") or not line.strip():
                continue
            depth = len(line) - len(line.lstrip())
            if inside is not None and depth <= inside:
                inside = None
            if TYPE.match(line):
                inside = depth
                continue
            m = SIGNATURE.match(line)
            if m and m.group(2) not in ("use", "ghost"):
                fact = depth == 0 and bool(re.search(r"(^|→ )Type \d\s*$", m.group(3)))
                found[m.group(2)].add("fact" if fact else "field" if inside is not None else "definition" if "/specs/" in path else "lemma")
    return found


def renaming():
    names = {}
    for name, kinds in defined().items():
        if not name[0].islower() or not TOKEN.fullmatch(name):
            continue
        if kinds == {"fact"}:
            names[name] = camel(name)
            continue
        new = snake(name)
        names[name] = new if "lemma" in kinds else new.replace("-", "_")
    for name, new in BY_HAND.items():
        if new:
            names[name] = new
        else:
            names.pop(name, None)
    return {a: b for a, b in names.items() if a != b}


def main():
    names = renaming()
    paths = [p for end in ("antt", "rt", "edit") for p in glob.glob(f"crates/**/*.{end}", recursive=True) if "/out/" not in p] + sys.argv[1:]
    for path in sorted(paths):
        text = open(path, encoding="utf-8").read()
        tokens = set(TOKEN.findall(text))
        for a, b in names.items():
            if a in tokens and b in tokens:
                print(f"together: {path}: {a}, {b}")
        new = TOKEN.sub(lambda m: names.get(m.group(0), m.group(0)), text)
        if new != text:
            open(path, "w", encoding="utf-8").write(new)
    for a, b in sorted(names.items()):
        print(f"{a} -> {b}")


main()
