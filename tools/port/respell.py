#!/usr/bin/env python3
"""Respells the repository's own definitions and lemmas: words in snake case, a dash only between two definitions' names.

usage: tools/port/respell.py            in the repository, once, after the kit's port.py

Definitions in camel case (`maxTiles`) become snake case (`max_tiles`). A lemma's name keeps a dash where it joins the
names of two definitions (`length-over`), and has an underscore elsewhere (`zeros_fail`). Where two names would fall
together, the lemma gets `_lem`. Functions of src/, exported names, strings and outputs keep their names: none of them
is in camel case or has a dash. The map that was used stands in tools/port/respelled.tsv.
"""
import os
import re
import sys

TOKEN = re.compile(r"[A-Za-z0-9_#'₀-₉ℤℕ+*≤∷-]*[A-Za-z0-9_#'₀-₉ℤℕ]")
HEAD = re.compile(r"^(?: {0,2}| +(?=pub ))((?:pub |abbrev |unfoldable )*)(data |record )?([^\s:(){}]+)(?: [({].*[)}])? :(?= |$)")
LIST_WORDS = set("length take drop append map reverse replicate set sets get_or cons filter sum min max add mul sub div mod "
                 "cond slice zero suc snoc zip sort insert".split())
WHOLE = os.path.join("tools", "port", "respelled.tsv")


def texts(root):
    for folder, dirs, files in os.walk(os.path.join(root, "crates")):
        dirs[:] = sorted(d for d in dirs if d not in ("out", ".git"))
        for f in sorted(files):
            if f.endswith((".antt", ".rt", ".edit")):
                yield os.path.join(folder, f)


def snake(name):
    name = re.sub(r"([a-z0-9])([A-Z])", r"\1_\2", name)
    name = re.sub(r"([A-Z])([A-Z][a-z])", r"\1_\2", name)
    return name.lower()


def camel(name):
    return re.match(r"^[#]?[a-z][A-Za-z0-9'₀-₉]*[A-Z][A-Za-z0-9'₀-₉]*$", name) is not None


def collect(root):
    definitions, lemmas, imported, functions = set(), set(), set(), set()
    for path in texts(root):
        if not path.endswith(".antt"):
            continue
        answers = os.path.basename(path) == "Proof.antt"
        for line in open(path, encoding="utf-8"):
            m = re.match(r"^use (?!Rattle\.(?!std)).*\{(.*)\}$", line.rstrip())
            if m:
                imported.update(w.strip().split(" as ")[-1] for w in m.group(1).split(","))
            m = HEAD.match(line)
            if not m:
                continue
            marks, kind, name = m.groups()
            if answers:
                continue
            if "abbrev" in marks or "unfoldable" in marks or kind or "/specs/" in path:
                definitions.add(name)
                if not line.startswith(" ") and marks.replace("pub ", "") and len(name) > 2:
                    functions.add(snake(name))
            else:
                lemmas.add(name)
    return definitions, lemmas - definitions, imported, functions


def parts(name):
    """A name's words between dashes, each in snake case."""
    return [snake(p) if camel(p) else p for p in name.split("-")]


def plan(root):
    definitions, lemmas, imported, functions = collect(root)
    spelled = {}
    taken = set()
    for name in sorted(definitions):
        new = name
        if camel(name):
            new = snake(name)
        elif "-" in name and not name.startswith("-"):
            new = "_".join(parts(name))
        spelled[name] = new
    words = functions | LIST_WORDS
    taken = set(spelled.values()) | imported
    clash = [n for n in definitions if list(spelled.values()).count(spelled[n]) > 1]
    if clash:
        raise SystemExit("definitions that fall together: " + " ".join(sorted(clash)))
    rename = {a: b for a, b in spelled.items() if a != b}
    for name in sorted(lemmas):
        if "-" not in name and not camel(name):
            taken.add(name)
    for name in sorted(lemmas):
        if not camel(name) and ("-" not in name or not re.match(r"^[A-Za-z#]", name)):
            continue
        words_of = parts(name)
        new = words_of[0]
        for left, right in zip(words_of, words_of[1:]):
            new += ("-" if left in words and right in words else "_") + right
        if new == name:
            taken.add(new)
            continue
        while new in taken:
            new += "_lem"
        taken.add(new)
        rename[name] = new
    return rename


def respell(text, rename):
    def one(m):
        return rename.get(m.group(0), m.group(0))
    return TOKEN.sub(one, text)


def clauses_only(text, rename):
    """A source file: its `ghost` lines and clauses, not its code."""
    return respell(text, {a: b for a, b in rename.items() if "-" not in a or re.search(r"[a-z]-[a-z]", a)})


def pages(root):
    yield os.path.join(root, "README.md")
    yield os.path.join(root, "CONTRIBUTING.md")
    for folder, dirs, files in os.walk(os.path.join(root, "docs")):
        for f in sorted(files):
            if f.endswith(".md"):
                yield os.path.join(folder, f)


def main(root):
    rename = plan(root)
    os.makedirs(os.path.join(root, "tools", "port"), exist_ok=True)
    with open(os.path.join(root, WHOLE), "w", encoding="utf-8") as f:
        for a in sorted(rename):
            f.write(f"{a}\t{rename[a]}\n")
    n = 0
    for path in texts(root):
        old = open(path, encoding="utf-8").read()
        new = clauses_only(old, rename) if path.endswith(".rt") else respell(old, rename)
        if new != old:
            n += 1
            open(path, "w", encoding="utf-8").write(new)
    for path in pages(root):
        old = open(path, encoding="utf-8").read()
        new = re.sub(r"`[^`\n]*`", lambda m: respell(m.group(0), rename), old)
        if new != old:
            n += 1
            open(path, "w", encoding="utf-8").write(new)
    print(f"{len(rename)} names, {n} files")


if __name__ == "__main__":
    main(sys.argv[1] if len(sys.argv) > 1 else ".")
