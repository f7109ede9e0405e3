#!/usr/bin/env python3
"""What a reader has to believe, computed from the sources.

A proof shows that a statement holds; that the statement says the right thing, no proof can show. So a reader has to
read, and believe, every definition that a statement rests on. The statements are

- the contracts of the public calls, which docs/PROOF.md lists in its tables "Public call" and "Exported call";
- the theorems for the reader: each `pub` theorem of crates/*/proofs/Theorems.antt, and each theorem that a row of
  docs/PROOF.md names beside another file of proofs.

From them this script follows every name through the `use` lines to what it means, and on through the types and bodies
of those definitions. What it comes to has to stand where a reader looks for it:

- in crates/NAME/specs/, or in crates/NAME/src/ as a struct or an enum that definitions speak of: believed;
- in crates/NAME/specs/Inner/ (what contracts between crates speak of) or in crates/NAME/proofs/: nobody has to
  believe it. If a statement rests on it, this is a failure: it is named, with what needs it, and the exit status is 1.

Printed are the number of definitions to believe and of their lines, without comments and imports, for each crate and in
all. README.md has to say the numbers in all. With --unbelieved also the definitions of specs/ that no statement rests
on: these belong to specs/Inner/. Names of the library (Prim, mathlib, Rattle.std, ..) are not followed. A variable that
is called like a definition in scope counts as that definition: this can only name too much.

use: believed.py [--unbelieved] [ROOT]
"""
import re
import sys
from pathlib import Path

WORD = re.compile(r"[^\s(){};,⌜⌝⟦⟧]+")
USE = re.compile(r"(?:pub |ghost )*use ([^\s;]+?)(?:\.\{(.*)\}| as ([^\s;]+))?;?$")
USE_OF_CODE = re.compile(r"(?:pub )?use ([^.;]*);")
HEAD = re.compile(r"(?:(abbrev|unfoldable) )?(pub )?(?:(record|data) )?([^\s(){};,]+)(?=\s)(.*)", re.S)
LOGIC = re.compile(r"Rattle\.(\w+)\.(specs|proofs)\.(.*)")
STRUCT = re.compile(r"^(?:pub )?(?:struct|enum) (\w+).*?[;}]$", re.M | re.S)
CLAUSE = re.compile(r"\b(requires|ensures)( \w+)? (?=\{)")
CONTRACT = r"((?: +(?:requires|ensures)\b.*?)?)"
FUNCTION = re.compile(r"^(?:pub )?(?:extern \S+ )?fn (\w+)(.*?)(?: \{$|\n" + CONTRACT + r"^\{)", re.M | re.S)
INNER = re.compile(r"crates/\w+/(proofs/|specs/Inner[./])")


class Definition:
    """A definition, a theorem or a contract: the words of its type, those of its body, and types of the code."""

    def __init__(self, source, name, kind, text, stated, types=()):
        self.source, self.name, self.kind, self.types = source, name, kind, types
        self.lines = len(text.splitlines())
        self.stated, self.defined = WORD.findall(stated), []

    def __str__(self):
        return f"{self.source.file}: {self.name}"

    def add_clause(self, text):
        self.lines += len(text.splitlines())
        # in `record { label = .. }` the labels are no names
        self.defined += WORD.findall(re.sub(r"([{;]\s*)[^\s(){};,]+(?=\s+=\s)", r"\1", text))


class Source:
    """A file: its definitions, and what the words in it mean."""

    def __init__(self, file, text):
        self.file, self.crate, self.definitions = file, file.split("/")[1], []
        self.own, self.members, self.imports, self.aliases, self.types = {}, {}, {}, {}, {}
        (self.read_code if file.endswith(".rt") else self.read_logic)(bare(text))

    def read_use(self, text):
        code = USE_OF_CODE.fullmatch(" ".join(text.split()))
        if code:
            self.types.update(used(code[1]))
            return
        path, names, alias = USE.match(" ".join(text.split())).groups()
        if names is None:
            self.aliases[alias or path.split(".")[-1]] = path
        else:
            for name in filter(None, map(str.strip, names.split(","))):
                name, _, other = name.partition(" as ")
                self.imports.update((word, (path, name)) for word in spoken(other or name))

    def add(self, *parts):
        self.definitions.append(Definition(self, *parts))
        self.own.update((word, self.definitions[-1]) for word in spoken(parts[0]))

    def read_logic(self, text, around=""):
        """Reads lines of one indentation. `around` are the parameters of the sections about them."""
        for chunk in chunks(text):
            head = HEAD.match(chunk)
            if re.match(r"(pub )?use ", chunk):
                self.read_use(chunk)
            elif chunk.startswith("open "):
                around += "\n" + chunk
            elif chunk.startswith("module "):
                parameters, body = re.match(r"module \S+(.*?)\bwhere\n(.*)", chunk, re.S).groups()
                self.read_logic(body, around + parameters)
            elif head and head[3]:
                self.read_data(chunk, around, *head.groups()[2:])
            elif head and re.match(r"\s+:\s", head[5]):
                self.add(head[4], head[1] or ("theorem" if head[2] else "lemma"), chunk, around + head[5])
            elif self.definitions and not re.match(r"(pub )?mod |unfolding ", chunk):
                self.definitions[-1].add_clause(chunk)

    def read_data(self, chunk, around, kind, name, rest):
        """A record or a data type: the names of its fields or constructors are no words of it."""
        head, _, body = rest.partition(" where\n")
        members = [member.removeprefix("pub ").partition(" :") for member in chunks(body)]
        self.add(name, kind, chunk, "\n".join([around, head] + [said for _, _, said in members]))
        members = {word: self.definitions[-1] for names, _, _ in members for word in names.split()}
        self.members.update(members)
        self.own.update(members if kind == "data" else {})

    def read_code(self, text):
        """The structs and enums of a file of code, and the contracts of its functions."""
        for use in re.findall(r"^(?:pub |ghost )?use [^;]*;", text, re.M):
            self.read_use(use)
        for item in STRUCT.finditer(text):
            self.add(item[1], "type", item[0], "", re.findall(r"\w+", item[0]))
        for item in FUNCTION.finditer(text):
            parameters = re.findall(r"(\w+):", item[2])
            # the name of a clause is no name of the logic
            clauses = CLAUSE.sub(r"\1 ", item[3] or "")
            words = [word for word in WORD.findall(clauses) if word not in parameters]
            self.add("fn " + item[1], "contract", item[0], " ".join(words), re.findall(r"\w+", item[2]))


def bare(text):
    """The text without comments, strings and empty lines."""
    lines = (re.sub(r'"[^"]*"', '""', re.sub(r"(^|\s)(--|//).*", "", line)) for line in text.splitlines())
    return "\n".join(line for line in lines if line.strip())


def chunks(text):
    """The text, cut before each line that is indented as the first one; without that indentation."""
    depth = len(text) - len(text.lstrip(" "))
    return re.split(r"\n(?=\S)", "\n".join(line[depth:] for line in text.splitlines())) if text else []


def used(tree, above=""):
    """What a `use` of the code brings in: each name with its module and its name there. Braces hold parts of a path."""
    depth, part, parts = 0, "", []
    for letter in tree + ",":
        depth += (letter == "{") - (letter == "}")
        if letter == "," and not depth:
            parts.append(part.strip())
            part = ""
        else:
            part += letter
    for part in filter(None, parts):
        head, brace, inside = part.partition("{")
        if brace:
            yield from used(inside.removesuffix("}"), above + head)
        else:
            path, _, alias = (above + part).partition(" as ")
            module, _, name = path.removesuffix("::self").rpartition("::")
            yield alias or name, (module, name)


def spoken(name):
    """The words by which a name is used: those of an operator stand between its circles, ◌."""
    return [part for part in name.split("◌") if part] if "◌" in name else [name]


class Tree:
    """All sources, docs/PROOF.md and README.md. `errors` are names that were not found."""

    def __init__(self, root):
        folders = ["specs/**/*.antt", "proofs/*.antt", "src/**/*.rt"]
        files = sorted(str(file.relative_to(root)) for folder in folders for file in root.glob("crates/*/" + folder))
        self.crates = {file.split("/")[1] for file in files}
        self.sources = {file: Source(file, (root / file).read_text()) for file in files}
        self.all = [definition for source in self.sources.values() for definition in source.definitions]
        self.proof, self.readme = (root / "docs/PROOF.md").read_text(), (root / "README.md").read_text()
        self.errors = []

    def code(self, crate, steps):
        files = [f"crates/{crate}/src/{place}.rt" for place in (["/".join(steps)] if steps else ["lib", "main"])]
        return next((self.sources[file] for file in files if file in self.sources), None)

    def find(self, source, path, name):
        """What a module of the logic calls by a name; None where it is the library's."""
        logic = LOGIC.match(path)
        if not logic or logic[1] not in self.crates:
            return None
        crate, folder, module = logic.groups()
        steps = module.split(".")
        if steps[0] == "declared":
            *steps, name = [step for step in steps[1:] if step != "TheVariants"]
            target = self.code(crate, steps)
        else:
            target = self.sources.get(f"crates/{crate}/{folder}/{'/'.join(steps)}.antt")
        word = spoken(name)[0]
        found = target and (target.own.get(word) or target.members.get(word))
        if target and not found and word in target.imports:
            found = self.find(target, *target.imports[word])
        if not found:
            self.errors.append(f"{source.file}: no {name} in {path}")
        return found

    def meaning(self, source, word):
        """The definition that a word of the logic means; None for a variable, a projection, a name of the library."""
        word, _, member = word.rstrip(".").partition(".")
        if member and word in source.aliases:
            return self.find(source, source.aliases[word], member)
        if word in source.own and source.file.endswith(".antt"):
            return source.own[word]
        return self.find(source, *source.imports[word]) if word in source.imports else None

    def type_of_code(self, source, word):
        path, name = source.types.get(word, ("crate", word))
        crate, *steps = path.split("::")
        target = source if word in source.own else self.code(source.crate if crate == "crate" else crate, steps)
        return target and target.own.get(name)

    def needs(self, one):
        """The definitions that one rests on; of a theorem only its statement counts."""
        proved = one.kind in ("theorem", "lemma") and "/proofs/" in one.source.file
        meant = [self.meaning(one.source, word) for word in one.stated + ([] if proved else one.defined)]
        meant += [self.type_of_code(one.source, word) for word in one.types]
        return [other for other in dict.fromkeys(meant) if other and other is not one]

    def calls(self):
        """The contracts of the public calls."""
        contracts = {}
        for one in self.all:
            if one.kind == "contract":
                path = one.source.file.replace("/src/", "/").removesuffix(".rt").split("/")[1:]
                contracts["::" + "::".join(path + [one.name.removeprefix("fn ")])] = one
        tables = re.findall(r"^\| (?:Public|Exported) call \|.*?(?:\n\n|\Z)", self.proof, re.M | re.S)
        if not tables:
            self.errors.append("docs/PROOF.md: no public call")
        for table in tables:
            for call in re.findall(r"^\| `([\w:]+)` \|", table, re.M):
                found = [contract for path, contract in contracts.items() if path.endswith("::" + call)]
                if len(found) != 1:
                    self.errors.append(f"docs/PROOF.md: {len(found)} functions are called {call}")
                yield from found

    def theorems(self):
        """The theorems for the reader."""
        for one in self.all:
            if one.kind == "theorem" and "/proofs/" in one.source.file:
                file = one.source.file.split("/")[-1]
                row = rf"^\|.*`{re.escape(one.name)}`.*`[\w/]*proofs/{file}`"
                if file == "Theorems.antt" or re.search(row, self.proof, re.M):
                    yield one


def main(words):
    roots = [word for word in words if word != "--unbelieved"]
    tree = Tree(Path(roots[0] if roots else Path(__file__).parent.parent))
    calls, theorems = list(tree.calls()), list(tree.theorems())
    needed_by, todo = {}, calls + theorems
    while todo:
        one = todo.pop()
        new = [other for other in tree.needs(one) if other not in needed_by]
        needed_by.update((other, one) for other in new)
        todo += new

    believed = [one for one in needed_by if not INNER.match(one.source.file)]
    inner = [one for one in needed_by if one not in believed]
    failures = [f"not to be believed: {one}, which {needed_by[one]} rests on" for one in inner]
    failures += sorted(set(tree.errors))
    due = (f"What has to be believed are {len(believed)} definitions, {sum(one.lines for one in believed):,} lines "
           f"without comments, for {len(calls)} public calls and {len(theorems)} theorems.")
    if due not in " ".join(tree.readme.split()):
        failures.append(f"README.md has other counts; the line to write:\n{due}")
    print(f"{len(calls)} public calls and {len(theorems)} theorems rest on")
    for crate in [*sorted({one.source.crate for one in believed}), "all"]:
        here = [one.lines for one in believed if crate in (one.source.crate, "all")]
        print(f"{crate:>12} {len(here):4} definitions {sum(here):5} lines")
    if "--unbelieved" in words:
        for one in tree.all:
            if "/specs/" in one.source.file and not INNER.match(one.source.file) and one not in needed_by:
                print(f"unbelieved: {one}")
    for failure in failures:
        print(failure)
    return 1 if failures else 0


if __name__ == "__main__":
    sys.exit(main(sys.argv[1:]))
