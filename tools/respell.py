#!/usr/bin/env python3
"""Respells camelCase names (definitions, lemmas, constructors, variables) in snake case: in specs/, proofs/, clauses, must-fail edits and the
patches of tests/edits.

usage: respell.py [--write] [OLD=NEW ..]     at the top of the repository, once, after port.py
Without --write it changes nothing, and lists which names of one file fall together; FELL gives such a name another, and so does OLD=NEW. Where a
name falls together with one that only stands in a path or beside it (a crate's, a Rust function's), nothing is lost. Types and modules keep
their capitals.
"""
import collections, glob, re, sys

WRITE = "--write" in sys.argv
# definitions that in snake case would have the name of a lemma or a variable of the same file
FELL = {
    "hasRoom": "room_is_there",
    "movedDown": "places_moved_down",
    "namesParent": "names_a_parent",
    "isBelow": "lies_below",
    "readAgain": "file_read_again",
    "textAt": "text_read_at",
    "closedAt": "record_closed_at",
    "powerAt": "power_digits_at",
    "atEdge": "on_edge",
}
OWN = {**FELL, **dict(a.split("=") for a in sys.argv[1:] if "=" in a)}
CAMEL = re.compile(r"(?<![A-Za-z0-9_'\\])[a-z][a-z0-9]*(?:[A-Z]+[a-z0-9]*)+(?![A-Za-z0-9_])")
ESCAPE = re.compile(r"^u[0-9A-F]{4}")  # "u00E9" of an escape in a string


def snake(name):
    if name in OWN:
        return OWN[name]
    name = re.sub(r"([a-z0-9])([A-Z])", r"\1_\2", name)
    return re.sub(r"([A-Z]+)([A-Z][a-z])", r"\1_\2", name).lower()


def spelled(name):
    return snake(name) if CAMEL.fullmatch(name) and not ESCAPE.match(name) else name


def names_in(text):
    """The names that a file imports, declares or binds, by the spelling that they will have."""
    text = re.sub(r"--.*", "", text)
    found = collections.defaultdict(set)
    for m in re.finditer(r"(?m)^use [^\n{]*\{([^}]*)\}", text):
        for n in m.group(1).split(","):
            n = n.split(" as ")[-1].strip()
            found[spelled(n)].add(n)
    for m in re.finditer(r"(?m)^\s*(?:(?:abbrev|unfoldable|data|record|instance|opaque|pub|ruleset)\s+)*([^\s:(){}]+)\s+:\s", text):
        found[spelled(m.group(1))].add(m.group(1))
    for m in re.finditer(r"[({]([A-Za-z0-9_' ]+?) : ", text):
        for n in m.group(1).split():
            found[spelled(n)].add(n)
    return found


paths = glob.glob("crates/*/**/*.antt", recursive=True) + glob.glob("crates/*/src/*.rt") + glob.glob("crates/*/must-fail/*.edit") + glob.glob("tests/edits/*.patch")
everything = set()
for path in sorted(p for p in paths if "/out/" not in p):
    text = open(path).read()
    if path.endswith(".antt"):
        for new, olds in names_in(text).items():
            if len(olds) > 1:
                print(f"falls together in {path}: {', '.join(sorted(olds))} -> {new}")
    everything |= {t for t in CAMEL.findall(text) if not ESCAPE.match(t)}
    if WRITE:
        turned = CAMEL.sub(lambda m: spelled(m.group(0)), text)
        if turned != text:
            open(path, "w").write(turned)
print(f"{len(everything)} names" + (" respelled" if WRITE else ""))
