#!/usr/bin/env python3
"""Brings this repository's own definitions and lemmas to today's spelling: words in snake case.

usage: respell.py [--dry]

Run once at the top of the repository, after port.py. A name that specs/ or proofs/ declare and that begins with a small letter
loses its inner capitals and its dashes (stepAt, step-fits: step_at, step_fits). Names of the library, of functions of src/, of
what Rattle makes for a function's goals, and of types stay. Where two names would fall together, the one with dashes gets _lem,
as the library's rule has it. Pages and edits get the names too.
--dry prints what would be renamed; the table of the names is written to tools/respelled.tsv.
"""
import os
import re
import subprocess
import sys

TOKEN = re.compile(r'[^\s(){}\[\].,;:@"`«»⌜⌝]+')
DECLARED = re.compile(r"^\s*(?:(?:pub|abbrev|unfoldable)\s+)*([^\s(){}\[\].,;:@\"«»]+(?:\s+[^\s(){}\[\].,;:@\"«»]+)*)\s+:(?:\s|$)")
# Lemmas that port.py brought to the spelling that a definition now gets: they get _lem, as the library's rule has it.
LEMMAS = {
    "has_one": ["deduction/proofs/Saturation.antt", "deduction/proofs/has_compound_key/Proof.antt"],
    "row_is": ["submission/proofs/ClaimTests.antt", "submission/proofs/row_of/Proof.antt"],
    "second_way": ["conditions/proofs/PassedFacts.antt", "conditions/proofs/ProgramValue.antt"],
    "entry_found": ["conditions/proofs/GivenTests.antt", "conditions/proofs/given/entry_given/Proof.antt"],
}
# A field of a record, or an import's own name: no file has both it and the lemma of that name.
APART = {"no_key", "step_count", "term_at"}
NOT_NAMES = {"let", "module", "use", "data", "record", "where", "in", "λ", "elim", "as", "deriving"}
ALIAS = re.compile(r"(?<![\w'-])as ([a-z][^\s(){}\[\].,;]*)")
GOAL = re.compile(r"^([^\s:]+)\s+:\s.*?(?:tie|[\w+-]*lts)\.(?:Need-|invariant|decreases)")


def files(root):
    for folder, dirs, names in os.walk(os.path.join(root, "crates")):
        dirs[:] = sorted(d for d in dirs if d != "out")
        for n in sorted(names):
            if n.endswith((".rt", ".antt")):
                yield os.path.join(folder, n)


def read(path):
    with open(path, encoding="utf-8") as f:
        return f.read()


def of_function(path):
    return os.path.basename(path) == "Proof.antt"


def declared(path, text):
    """The names that a file of specs/ or proofs/ declares, with those that its use lines give."""
    for line in text.split("\n"):
        if line.lstrip().startswith("--"):
            continue
        if re.match(r"\s*(pub |ghost )*use ", line):
            yield from ALIAS.findall(line)
            continue
        if path.endswith(".antt") and not of_function(path):
            m = DECLARED.match(line)
            if m:
                words = m[1].split()
                if not NOT_NAMES & set(words):
                    yield from words


def odd(name):
    return re.match(r"[a-z]", name) and (re.search(r"[a-z0-9?][A-Z]", name) or "-" in name)


def snake(name):
    return re.sub(r"(?<=[a-z0-9])([A-Z])", lambda m: "_" + m[1].lower(), name).replace("-", "_")


def goals(text):
    return {m[1] for m in map(GOAL.match, text.split("\n")) if m}


def mapping(root):
    own, library, words = set(), set(), set()
    crates = set(os.listdir(os.path.join(root, "crates")))
    for p in files(root):
        t = read(p)
        if p.endswith(".antt") and not of_function(p):
            # A function of src/, and so its folder in proofs/, may have a definition's name: its contract then cites that definition.
            words |= set(TOKEN.findall(re.sub(r"(?m)^\s*(?:pub )?use .*$|^\s*--.*$", "", t)))
        own |= set(declared(p, t))
        for m in re.finditer(r"^\s*(?:pub |ghost )*use ([^\s{;]+)(?:\{([^}]*)\})?", t, re.M):
            parts = m[1].split(".")
            if parts[0] == "Rattle" and len(parts) > 1 and parts[1] in crates:
                continue
            library |= {w for it in (m[2] or "").split(",") for w in it.split(" as ")[0].strip().split(".")[-1:]} | set(parts)
    turned = {n: snake(n) for n in own if odd(n) and n not in library}
    taken = (words | library) - set(turned) - set(LEMMAS) - APART
    to = {}
    for n in sorted(turned, key=lambda n: ("-" in n, n)):
        new = turned[n]
        while new in taken or new in to.values():
            new += "_lem"
        to[n] = new
    return to


def turn(path, text, to):
    goal = goals(text) if of_function(path) else set()

    def word(m):
        w = m[0]
        if w not in to or w in goal:
            return w
        before = text[max(0, m.start() - 40) : m.start()]
        if of_function(path) and re.search(r"(?:^|[\s(])c\.(?:before\.)*$", before):
            return w
        return to[w]

    # Strings keep their text.
    return TOKEN.sub(word, text)


def move_theory(root):
    """Modules are in upper camel case: proofs/theory becomes proofs/Theory."""
    for c in sorted(os.listdir(os.path.join(root, "crates"))):
        proofs = os.path.join(root, "crates", c, "proofs")
        for it in ("theory", "theory.antt"):
            if os.path.exists(os.path.join(proofs, it)):
                os.rename(os.path.join(proofs, it), os.path.join(proofs, it.capitalize()))
    for p in files(root):
        t = read(p)
        new = re.sub(r"(?:(?<=\.proofs\.)|(?<=[{ ]))theory(?=\.[A-Z{])", "Theory", t)
        if os.path.basename(p) == "Lib.antt":
            new = re.sub(r"(?m)^((?:pub )?mod )theory$", r"\1Theory", new)
        if new != t:
            write(p, new)


def write(path, text):
    with open(path, "w", encoding="utf-8") as f:
        f.write(text)


def pages(root):
    """The pages and the edits: in a page only what stands in backticks, in an edit the lines that stand in files."""
    names = subprocess.run(["git", "ls-files", "*.md", "*.edit"], cwd=root, capture_output=True, text=True, check=True).stdout.split()
    return [os.path.join(root, n) for n in names if n != "docs/CHANGES.md"]


def turn_page(path, text, to):
    if path.endswith(".edit"):
        return TOKEN.sub(lambda m: to.get(m[0], m[0]), text)
    text = re.sub(r"`[^`\n]+`", lambda m: TOKEN.sub(lambda w: to.get(w[0], w[0]), m[0]), text)
    return text.replace("proofs/theory", "proofs/Theory")


def main(argv):
    root = subprocess.run(["git", "rev-parse", "--show-toplevel"], capture_output=True, text=True, check=True).stdout.strip()
    to = mapping(root)
    if "--dry" in argv:
        for n in sorted(to):
            print(n, to[n])
        return 0
    changed = 0
    for p in files(root):
        t = read(p)
        new = turn(p, t, to | {n: n + "_lem" for n in LEMMAS if os.path.relpath(p, os.path.join(root, "crates")) in LEMMAS[n]})
        if new != t:
            write(p, new)
            changed += 1
    for p in pages(root):
        t = read(p)
        new = turn_page(p, t, to)
        if new != t:
            write(p, new)
            changed += 1
    move_theory(root)
    table = os.path.join(root, "tools", "respelled.tsv")
    write(table, "".join(f"{n}\t{to[n]}\n" for n in sorted(to)))
    print(f"respell: {len(to)} names, {changed} files")
    return 0


if __name__ == "__main__":
    raise SystemExit(main(sys.argv[1:]))
