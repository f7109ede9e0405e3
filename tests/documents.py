#!/usr/bin/env python3
"""Runs every command that the documents show, and compares what it prints with what they show.

    tests/documents.py              all documents: *.md here and in docs/
    tests/documents.py FILE ..      these only

Commands stand in fenced blocks tagged `console`. A line that starts with `$ ` is a command, run by `bash -c` in the
repository's root; if it ends in a backslash it goes on in the next line. The lines after it, up to the next command or
the end of the block, are what it prints, errors too; a last line `status N` says that its exit status is N and not 0.
Files that commands make go to target/class/, which is cleared before each document, so that no document rests on
another or on an earlier run.

An indented line that starts with a command is a failure, unless NOT_RUN has it, with the reason.

It needs the program and the libraries: `make run` and `make lib`.
"""
import difflib
import os
import pathlib
import re
import shutil
import signal
import subprocess
import sys

ROOT = pathlib.Path(__file__).resolve().parent.parent
MADE = ROOT / "target" / "class"
NEEDED = ("target/bin/nearby", "target/lib/libnearby.a", "target/lib/libnearby.so")
SECONDS = 300
SHELLS = ("", "sh", "bash", "shell", "shell-session")
FENCE = re.compile(r"^( *)(`{3,}|~{3,})\s*([^\s`]*)[^`]*$")
# What would let a command print something else on another machine.
LEFT_OUT = ("MAKEFLAGS", "MFLAGS", "MAKELEVEL", "MAKEOVERRIDES", "NEARBY_LIB", "LD_LIBRARY_PATH", "PKG_CONFIG_PATH")


# Commands that stand indented in a document, up to a comment, and are not run from there.
NOT_RUN = {
    "make install PREFIX=/usr/local": "with other folders, by README itself and by tests/install.sh",
    "make uninstall PREFIX=/usr/local": "with other folders, by README itself and by tests/install.sh",
    "make test": "it is the whole of the tests",
    "make bench": "it takes some minutes, and writes docs/BENCHMARK.md",
    "rt check": "it is run in a crate's folder; what it prints in exercise 6 is compared by tests/exercises.py",
    "rt check --allow-holes": "it is run in a crate's folder",
    "rt check --only FILE::NAME": "FILE::NAME stands for a function",
    "rt try": "it is run in a crate's folder",
    "rt fmt": "it changes files; `rt ci` refuses what it would change",
    "rt tidy": "it changes files",
    "rt all check": "`rt ci` proves all crates, and trusts less",
    "rt must-fail NAME": "NAME stands for a crate; `rt ci` does it for all",
    "rt ci NAME": "NAME stands for a crate; `rt ci` does it for all",
    "docs/figures/draw.py": "it changes files; tests/run.sh does it with --check",
    "tests/why.py --write": "it changes files; tests/run.sh does it without --write",
}
INDENTED = re.compile(r"^ {4,}((?:rt|make|gcc|cc|git|python3?|cargo|apt-get) .*"
                      r"|(?:tools|tests|docs|target|examples|\.ci)/\S+( .*)?)$")


class Command:
    def __init__(self, line, text):
        self.line, self.text, self.shown = line, text, []


def fenced_blocks(text):
    """The fenced blocks: number of the first line, tag, and lines; the tag is None where the fence is not closed. A
    line outside of them comes alone, with the tag `outside`."""
    lines = text.split("\n")
    at = 0
    while at < len(lines):
        start = FENCE.match(lines[at])
        at += 1
        if not start:
            yield at, "outside", [lines[at - 1]]
            continue
        indent, fence, tag = len(start[1]), start[2], start[3]
        end = re.compile(rf"^ *{re.escape(fence[0])}{{{len(fence)},}} *$")
        first = at
        while at < len(lines) and not end.match(lines[at]):
            at += 1
        inside = [line[min(indent, len(line) - len(line.lstrip(" "))) :] for line in lines[first:at]]
        yield first + 1, tag if at < len(lines) else None, inside
        at += 1


def commands_of(first, lines):
    """The commands of a console block; None if it starts with something else, or has none."""
    commands = []
    going_on = False
    for number, line in enumerate(lines, first):
        if going_on:
            commands[-1].text += "\n" + line
        elif line.startswith("$ "):
            commands.append(Command(number, line[2:]))
        elif not commands:
            return None
        else:
            commands[-1].shown.append(line)
            continue
        going_on = line.endswith("\\")
    return commands or None


def printed(command):
    """The lines that a command prints, and its status if that is not 0."""
    environment = {name: value for name, value in os.environ.items() if name not in LEFT_OUT}
    environment.update(LC_ALL="C.UTF-8", COLUMNS="120", PYTHONDONTWRITEBYTECODE="1")
    run = subprocess.Popen(
        ["bash", "-c", command.text],
        cwd=ROOT,
        env=environment,
        stdin=subprocess.DEVNULL,
        stdout=subprocess.PIPE,
        stderr=subprocess.STDOUT,
        start_new_session=True,
    )
    try:
        text = run.communicate(timeout=SECONDS)[0].decode("utf-8", "backslashreplace")
    except subprocess.TimeoutExpired:
        # With all that it started, which may hold the pipe.
        os.killpg(run.pid, signal.SIGKILL)
        run.communicate()
        return [f"(no end after {SECONDS} seconds)"]
    lines = text.removesuffix("\n").split("\n") if text else []
    return lines + ([f"status {run.returncode}"] if run.returncode else [])


def run_document(path, left_out):
    """Runs the commands of a document. Gives their number and that of the faults, and adds to the commands that are
    left out."""
    name = path.relative_to(ROOT) if path.is_relative_to(ROOT) else path
    shutil.rmtree(MADE, ignore_errors=True)
    MADE.mkdir(parents=True)
    count, faults = 0, 0

    def fault(line, what):
        nonlocal faults
        faults += 1
        print(f"{name}:{line}: {what}")

    for first, tag, lines in fenced_blocks(path.read_text(encoding="utf-8")):
        if tag == "outside":
            indented = INDENTED.match(lines[0])
            if indented and (shown := indented[1].partition(" #")[0].strip()) not in NOT_RUN:
                fault(first, f"a command that no test runs: put `{shown}` into a console block, "
                             "or into NOT_RUN of this test")
            elif indented:
                left_out.add(shown)
        elif tag is None:
            fault(first - 1, "a fenced block that is not closed")
        elif tag == "console":
            commands = commands_of(first, lines)
            if commands is None:
                fault(first - 1, "a console block has to start with a command, '$ ..'")
            for command in commands or []:
                count += 1
                found = printed(command)
                if found != command.shown:
                    fault(command.line, f"$ {command.text}")
                    difference = difflib.unified_diff(command.shown, found, "shown", "printed", lineterm="", n=1)
                    print("\n".join("    " + line for line in difference))
        elif tag in SHELLS:
            for number, line in enumerate(lines, first):
                if line.startswith("$ "):
                    fault(number, "a command that no test runs: the block is not tagged 'console'")
    return count, faults


def main(names):
    missing = [name for name in NEEDED if not (ROOT / name).exists()]
    if missing:
        sys.exit(f"documents: there is no {', '.join(missing)}: `make run` and `make lib` make them")
    paths = [pathlib.Path(name).resolve() for name in names]
    paths = paths or sorted(ROOT.glob("*.md")) + sorted(ROOT.glob("docs/**/*.md"))
    documents, commands, faults, left_out = 0, 0, 0, set()
    for path in paths:
        if not path.is_file():
            sys.exit(f"documents: there is no {path}")
        count, wrong = run_document(path, left_out)
        documents, commands, faults = documents + (count > 0), commands + count, faults + wrong
    for gone in sorted(set(NOT_RUN) - left_out) if not names else ():
        faults += 1
        print(f"tests/documents.py: NOT_RUN has `{gone}`, which no document shows")
    if faults:
        sys.exit(f"documents: {faults} faults, {commands} commands of {documents} documents run")
    rest = f"; {len(left_out)} are shown and not run from there:" if left_out else ""
    print(f"documents: {commands} commands of {documents} documents run{rest}")
    for command in sorted(left_out):
        print(f"    {command}: {NOT_RUN[command]}")


main(sys.argv[1:])
