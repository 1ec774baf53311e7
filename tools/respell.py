#!/usr/bin/env python3
"""Brings the repository's own definitions and lemmas to one spelling, after the toolchain's port.py: words in snake case. Types, modules,
functions of src/, exported C functions, edits, files and strings keep their names, and so do the names that the prover makes.

usage: tools/respell.py [TOP]    rewrites the sources, edits and pages below TOP (this repository, if left out). Run once.
       tools/respell.py --list [TOP]    prints each old name and its new one, and writes nothing
"""

import collections
import os
import re
import sys

TOKEN = re.compile(r"[^\W\d][\w'-]*")
HEAD = re.compile(r"^((?:pub|abbrev|unfoldable)\s+)*([^\W\d_A-Z][\w'-]*)\s*:(?!=)")
INSIDE = re.compile(r"^\s+(?:(?:unfoldable|abbrev)\s+)*(?:pub )?(?:(?:unfoldable|abbrev)\s+)*([^\W\d_A-Z][\w'-]*)\s*:(?!=)")
MEMBERS = re.compile(r"^\s+(?:pub )?((?:[^\W\d_A-Z][\w'-]* )+):")
OPENS = re.compile(r"^(?:(?:pub|abbrev|unfoldable)\s+)*(?:record|data)\b")

# A lemma and a definition that would fall together: the lemma has `_law` behind its name.
LAWS = (
    "fault-runs first-free first-sent from-le16 heard-as in-pieces in-time is-command is-quiet item-runs kept-runs last-id may-go-again no-response "
    "not-command on-ack on-command on-data on-message on-nak on-response on-sequenced past-of poll-line receive-line refusal-runs request-runs second-id start-before"
).split()

# Pages whose names between backticks are the repository's: not the words of a format, and no landing's note.
PAGES = "ARCHITECTURE ASSURANCE DECISIONS RELEASES".split()

# Variables of specs/ that several definitions share.
VARIABLES = "backSeq bufferExit framesExit otherKept outputExit replyExit storeExit".split()

# Names that port.py has turned already, and that would fall together with one that is turned here: in the crates named alone.
BEFORE = {
    "listing_lines": {"has_room": "has_room_law", "no_room": "no_room_law"},
    "claims": {"is_live": "still_live", "one_left": "one_left_law"},
}


def snake(name):
    if name in LAWS:
        return name.replace("-", "_") + "_law"
    return re.sub(r"(?<=[A-Za-z0-9])([A-Z])", lambda m: "_" + m.group(1).lower(), name).replace("-", "_")


def files(root, ends):
    for folder, dirs, names in os.walk(root):
        dirs[:] = sorted(d for d in dirs if d not in ("out", "target", ".git"))
        for name in sorted(names):
            if name.endswith(ends):
                yield os.path.join(folder, name)


def read(path):
    with open(path, encoding="utf-8") as f:
        return f.read()


def declared(path):
    """Names at the head of a line, and the members of a record or of a data type."""
    inside = False
    for line in read(path).splitlines():
        if OPENS.match(line):
            inside = True
        elif HEAD.match(line):
            inside = False
            yield HEAD.match(line).group(2)
        elif inside and MEMBERS.match(line):
            yield from MEMBERS.match(line).group(1).split()
        elif INSIDE.match(line):
            yield INSIDE.match(line).group(1)
        elif line.strip() and not line.startswith(" "):
            inside = False


def of_a_function(crates):
    """The files of functions' proofs."""
    for path in files(os.path.join(crates), ".antt"):
        parts = os.path.relpath(path, crates).split(os.sep)
        if parts[1] == "proofs" and len(parts) > 3:
            yield path


def helpers(text):
    """The lemmas that a function's proof declares for itself: their new names hold in that file alone."""
    out = {}
    for line in text.splitlines():
        m = HEAD.match(line)
        if m and not re.search(r": (tie|goal)\.|spec :", line) and snake(m.group(2)) != m.group(2):
            to = snake(m.group(2))
            out[m.group(2)] = to + "_law" if to in TOKEN.findall(text) else to
    return out


def renamed(crates):
    names = set()
    for path in files(crates, ".antt"):
        parts = os.path.relpath(path, crates).split(os.sep)
        if parts[1] == "specs" or (parts[1] == "proofs" and len(parts) == 3):
            names.update(declared(path))
    names -= of_the_library(crates)
    names.update(VARIABLES)
    return {name: snake(name) for name in sorted(names) if snake(name) != name}


def of_the_library(crates):
    """Names that some file brings in from outside the repository: one of its own with that spelling keeps it."""
    own, out = {*os.listdir(crates)}, set()
    for path in files(crates, ".antt"):
        for module, brought in re.findall(r"^use ([^\s{]+)\.\{([^}]*)\}", read(path), re.MULTILINE):
            parts = module.split(".")
            if parts[0] != "Rattle" or parts[1] not in own:
                out.update(TOKEN.findall(brought))
    return out


def turn(text, names):
    """Names alone: a string stays as it is."""
    one = lambda m: m.group(0) if m.group(0).startswith('"') else names.get(m.group(0), m.group(0))
    return re.sub(r'"(?:[^"\\]|\\.)*"|' + TOKEN.pattern, one, text)


def camel(names):
    return {name: to for name, to in names.items() if "-" not in name}


def turn_ticked(text, names):
    """In prose only what stands between backticks, and there no name of an edit or a file: those stand behind a slash."""
    inside = lambda m: re.sub(r"(?<![\w/-])" + TOKEN.pattern, lambda t: names.get(t.group(0), t.group(0)), m.group(0))
    return re.sub(r"`[^`\n]*`", inside, text)


def turn_source(text, names, mark):
    """Code by its names; a comment's prose by those of more than one capital alone, and between backticks by all."""
    out = []
    for line in text.split("\n"):
        cut = line.find(mark)
        cut = len(line) if cut < 0 else cut
        code, comment = line[:cut], line[cut:]
        out.append(turn(code, names) + turn_ticked(turn(comment, camel(names)), names))
    return "\n".join(out)


def main(argv):
    wanted = [a for a in argv if not a.startswith("--")]
    top = wanted[0] if wanted else os.path.dirname(os.path.dirname(os.path.abspath(__file__)))
    crates = os.path.join(top, "crates")
    for crate, first in BEFORE.items():
        for path in files(os.path.join(crates, crate), ".antt"):
            if "--list" not in argv:
                write(path, turn_source(read(path), first, "--"))
    names = renamed(crates)
    if "--list" in argv:
        print("\n".join(f"{name} {to}" for name, to in names.items()))
        return
    for path in files(crates, ".antt"):
        write(path, turn_source(read(path), names, "--"))
    for path in of_a_function(crates):
        write(path, turn_source(read(path), helpers(read(path)), "--"))
    for path in files(crates, ".rt"):
        write(path, turn_source(read(path), camel(names), "//"))
    for path in files(crates, ".edit"):
        code = lambda line: turn(line, names if "antt" in read(path) else camel(names))
        write(path, "\n".join(code(l) if l.startswith(("old:", "new:")) else turn_ticked(l, names) for l in read(path).split("\n")))
    pages = [os.path.join(top, "README.md"), *(os.path.join(top, "docs", f"{page}.md") for page in PAGES)]
    for path in pages:
        write(path, turn_ticked(read(path), names))


def write(path, text):
    if text != read(path):
        with open(path, "w", encoding="utf-8") as f:
            f.write(text)


main(sys.argv[1:])
