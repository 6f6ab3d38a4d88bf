#!/usr/bin/env python3
"""Respells the names of this repository's definitions and lemmas, after Rattle's own script of a port has run.

usage: python3 tools/respell.py [--list]      (once: on what port.py left, before any edit by hand)

A name in camel case or with dashes that a specs/ or proofs/ of this repository declares is written in snake case. In a
lemma's name a dash stays where it stands between two names of definitions or functions, as in `length-insert`. A name
that is imported from elsewhere keeps its spelling. Functions of src/, strings, inputs and outputs aren't touched. The
must-fail edits have the names of the files that they change, and so follow.
--list prints the names, old and new, and changes nothing.
"""

import os
import re
import sys

ROOT = os.path.dirname(os.path.dirname(os.path.realpath(__file__)))
CRATES = os.path.join(ROOT, "crates")
# A token is a run of letters, digits, dashes and the like; words in symbols (≤_refl) are the library's.
NAME = re.compile(r"(?<![\w'·◌-])[A-Za-zψ_][\w'-]*(?![\w'·◌])")
USE = re.compile(r"^\s*(?:pub |ghost )?use ([\w.'+-]+?)\.\{([^}]*)\}", re.M)
DECLARED = re.compile(r"^\s*(?:(?:unfoldable|abbrev|opaque|pub|private) +)*(?:record |data )?([^\s(){}\[\];,.]+)(?= +[:(])", re.M)
# Two definitions whose names would be one: the refusal's number has the plain name, its sentence another.
APART = {
    "notPossible": "not_all_possible",
    "nameUnanswered": "unanswered_name",
    "onNoWalk": "activity_on_no_walk",
    "leftOver": "obligations_left",
    "endWord": "word_of_end",
}


def files(*ends):
    for folder, dirs, names in os.walk(CRATES):
        dirs[:] = sorted(d for d in dirs if d != "out")
        for name in sorted(names):
            if name.endswith(ends):
                yield os.path.join(folder, name)


def read(path):
    with open(path, encoding="utf-8") as f:
        return f.read()


def is_lemma_file(path):
    parts = os.path.relpath(path, CRATES).split(os.sep)
    return len(parts) == 3 and parts[1] == "proofs"


def is_spec_file(path):
    return os.path.relpath(path, CRATES).split(os.sep)[1] == "specs"


def own(module):
    parts = module.split(".")
    return len(parts) > 1 and parts[0] == "Rattle" and os.path.isdir(os.path.join(CRATES, parts[1]))


def without_comments(text):
    return re.sub(r"^\s*--.*$", "", text, flags=re.M)


def snake(name):
    name = re.sub(r"(?<=[a-z0-9])([A-Z])", lambda m: "_" + m.group(1).lower(), name)
    return name.replace("-", "_")


def is_turned(name):
    plain = name[:1].islower()
    return plain and ("-" in name.strip("-") or re.search(r"[a-z0-9][A-Z]", name)) and not name.startswith("to_ℕ")


def dashed(name, words):
    """A lemma's name: its parts, and a dash between two parts that are names by themselves."""
    parts = [snake(p) for p in name.split("-")]
    chunks = []
    i = 0
    while i < len(parts):
        for j in range(len(parts), i, -1):
            if "_".join(parts[i:j]) in words:
                chunks.append(("_".join(parts[i:j]), True))
                i = j
                break
        else:
            chunks.append((parts[i], False))
            i += 1
    said, known = chunks[0]
    for chunk, also in chunks[1:]:
        said += ("-" if known and also else "_") + chunk
        known = also
    return said


def fields(text):
    """The fields of the records of a file, and the constructors of its data."""
    found, inside = set(), False
    for line in text.splitlines():
        if re.match(r"(?:pub +)?(?:record|data) .*where\s*$", line):
            inside = True
        elif inside and re.match(r"  +\S", line):
            m = DECLARED.match(line)
            if m:
                found.add(m.group(1))
        elif line.strip():
            inside = False
    return found


def names():
    outside, in_specs, in_lemmas, functions, members, local = set(), set(), set(), set(), set(), set()
    for path in files(".antt", ".rt"):
        text = read(path)
        for module, listed in USE.findall(text):
            if not own(module):
                outside |= {w.strip().split(" as ")[0] for w in listed.split(",")}
        if path.endswith(".rt"):
            functions |= set(re.findall(r"\bfn (\w+)", text))
        elif is_spec_file(path):
            in_specs |= set(DECLARED.findall(without_comments(text)))
            members |= fields(without_comments(text))
        elif is_lemma_file(path):
            said = without_comments(text)
            in_lemmas |= set(DECLARED.findall(said))
            members |= fields(said)
            local |= {n for n in DECLARED.findall(said) if not re.search(r"^(?:(?:unfoldable|abbrev|pub) +)*" + re.escape(n) + " +[:(]", said, re.M)}
    outside = {w for w in outside if w}
    # names bound in camel case anywhere in specs/ and lemma files: parameters and the like
    bound = set()
    for path in files(".antt"):
        if is_spec_file(path) or is_lemma_file(path):
            bound |= {t for t in NAME.findall(without_comments(read(path))) if re.fullmatch(r"[a-z0-9]+(?:[A-Z][a-z0-9]*)+", t)}
    words = {snake(w) for w in in_specs if w[:1].islower()} | functions | {w for w in outside if re.fullmatch(r"[a-z_0-9]+", w)}
    turned = {}
    for name in sorted(in_specs | bound):
        if is_turned(name) and name not in outside:
            turned[name] = APART.get(name) or snake(name)
    for name in sorted(in_lemmas - in_specs):
        if is_turned(name) and name not in outside and name not in turned:
            turned[name] = snake(name) if name in members | local else dashed(name, words)
    # a lemma that would have a definition's name gets _lem; the field of a record may have one
    taken = {turned.get(n, n) for n in in_specs | bound} | outside
    lemmas = in_lemmas - in_specs - bound - members
    for name in sorted(lemmas):
        if turned.get(name, name) in taken and (name in turned or name not in outside):
            turned[name] = turned.get(name, name).replace("-", "_") + "_lem"
    return {a: b for a, b in turned.items() if a != b}, outside, in_specs | in_lemmas, members


def respell(text, turned):
    return NAME.sub(lambda m: turned.get(m.group(0), m.group(0)), text)


def main():
    turned, outside, declared, members = names()
    together = {}
    for a in declared | set(turned):
        together.setdefault(turned.get(a, a), []).append(a)
    for b, sources in sorted(together.items()):
        sources = sorted(s for s in sources if s not in members)
        if len(sources) > 1 or (b in outside and sources and sources != [b]):
            print(f"falls together: {', '.join(sources)} -> {b}{' (imported)' if b in outside else ''}")
    if "--list" in sys.argv:
        for a, b in sorted(turned.items()):
            print(f"{a} -> {b}")
        return
    for path in files(".antt", ".rt"):
        text = read(path)
        # in src/ a name in snake case may be a function's, which stays
        new = respell(text, {a: b for a, b in turned.items() if is_turned(a) or path.endswith(".antt")})
        if new != text:
            with open(path, "w", encoding="utf-8") as f:
                f.write(new)


main()
