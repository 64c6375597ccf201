#!/usr/bin/env python3
"""Brings the repository's own names to today's spelling: words in snake case, types and modules in camel case.

usage: python3 tools/respell.py          once, at the top, after port.py

It turns definitions, lemmas, fields, constructors and local names of .antt files, the clauses of .rt files, the folders
of the rules' proofs, and the must-fail edits, whose other spelling it brings over too. Functions of src/, exported
names and strings keep theirs. It prints the names whose spelling stood somewhere before.
"""

import os
import re
import subprocess

SEGMENT = re.compile(r"(?<![\w'])[a-z][\w']*")
FOLDERS = ("acceptance cases claim layout lists memory numbers runs simulation translation").split()
# Rattle makes a module Layout of its own.
CAMEL = {folder: folder.capitalize() for folder in FOLDERS} | {"layout": "Layouts"}
MODULE = re.compile(r"(Rattle\.rules\.proofs\.)(%s)(?![\w'])" % "|".join(FOLDERS))
# Lemmas and fields that a definition would meet in their file, where it is spelled anew: a lemma gets '_lem'.
NAMESAKES = [
    ("crates/", "on_value", "on_value_lem"),
    ("crates/", "made_in", "made_in_lem"),
    ("crates/", "in_scope", "in_scope_at_root"),
    ("crates/rules/", "child_fits", "child_fits_lem"),
    ("crates/rules/", "field_fits", "field_fits_lem"),
    ("crates/recorder/", "too_short", "too_short_lem"),
]


def snake(word):
    return re.sub(r"(?<=[a-z0-9₀-₉])[A-Z]", lambda m: "_" + m[0].lower(), word)


def camel(word):
    return re.search(r"[a-z0-9₀-₉][A-Z]", word) is not None


def apart(path, text):
    for folder, old, new in NAMESAKES:
        if path.startswith(folder):
            text = re.sub(r"(?<![\w'-])" + old + r"(?![\w'-])", new, text)
    return text


def respelled(text):
    text = MODULE.sub(lambda m: m[1] + CAMEL[m[2]], text)
    return SEGMENT.sub(lambda m: snake(m[0]) if camel(m[0]) else m[0], text)


def outside_strings(text):
    parts = re.split(r'("(?:[^"\\\n]|\\.)*")', text)
    return "".join(p if i % 2 else respelled(p) for i, p in enumerate(parts))


def files(*endings):
    for folder, dirs, names in os.walk("crates"):
        dirs[:] = sorted(d for d in dirs if d != "out")
        for name in sorted(names):
            if name.endswith(endings):
                yield os.path.join(folder, name)


def read(path):
    with open(path, encoding="utf-8") as f:
        return f.read()


def write(path, text, old):
    if text != old:
        with open(path, "w", encoding="utf-8") as f:
            f.write(text)


def git(*words):
    return subprocess.run(["git", *words], capture_output=True, text=True, check=True).stdout


DECLARED = re.compile(
    r"^\s*(?:(?:abbrev|unfoldable|pub|record|data|ruleset)\s+)*([^\s():{}]+)\s*(?:[({][^:]*:[^)}]*[)}]\s*)*:"
)


def declared(text):
    return [m[1] for line in text.split("\n") if (m := DECLARED.match(line))]


def tight(text):
    """A projection is written tight: '(m .blocks)' is 'm.blocks'."""
    text = re.sub(r"(?<=[\w'₀-₉)]) \.(?=[\w])", ".", text)
    return re.sub(r"(?<![\w'])\(([\w'₀-₉]+(?:\.[\w'₀-₉]+)+)\)", r"\1", text)


HOLES = {"_≡_": "◌≡◌", "_&&_": "◌&&◌", "_≤_": "◌≤◌", "_+_": "◌+◌", "_-_": "◌-◌", "_*_": "◌*◌", "_++_": "◌++◌"}


def turned_by_port():
    """The names that port.py respelled, by the order of declarations in each file."""
    found = {}
    for path in git("ls-tree", "-r", "--name-only", "HEAD", "crates").split():
        if path.endswith(".antt") and os.path.exists(path):
            old, new = declared(git("show", "HEAD:" + path)), declared(read(path))
            if len(old) == len(new):
                found.update({a: b for a, b in zip(old, new) if a != b and "-" in a})
    return found


def edit_line(line, names):
    key, _, text = line.partition(": ")
    if key not in ("old", "new"):
        return line
    text = re.sub(r"Rattle·(\w+)·(?:specs|proofs)\.", r"Rattle.\1.", text)
    text = text.replace("Rattle·", "Rattle.")
    for a, b in HOLES.items():
        text = text.replace(a, b)
    for a, b in names.items():
        text = re.sub(r"(?<![\w'-])" + re.escape(a) + r"(?![\w'-])", b, text)
    return key + ": " + tight(text)


def main():
    texts = {p: read(p) for p in files(".antt", ".rt")}
    before = {w for t in texts.values() for w in SEGMENT.findall(re.sub(r"--.*|//.*", "", t))}
    ported = turned_by_port()
    for path, text in texts.items():
        write(path, outside_strings(text) if path.endswith(".rt") else respelled(apart(path, text)), text)
    for path in files(".edit"):
        text = read(path)
        lines = [edit_line(line, ported) for line in text.split("\n")]
        turned = "\n".join(respelled(line) for line in lines)
        turned = re.sub(r"(?m)^(file: proofs/)(%s)(?=/)" % "|".join(FOLDERS), lambda m: m[1] + CAMEL[m[2]], turned)
        write(path, turned, text)
    root = "crates/rules/proofs/"
    lib = read(root + "Lib.antt")
    write(root + "Lib.antt", re.sub(r"(?m)^((?:pub )?mod )(%s)$" % "|".join(FOLDERS), lambda m: m[1] + CAMEL[m[2]], lib), lib)
    for folder in FOLDERS:
        for name in (folder, folder + ".antt"):
            if os.path.exists(root + name):
                os.rename(root + name, root + name.replace(folder, CAMEL[folder]))
    met = sorted({w for w in before if camel(w) and snake(w) in before})
    print("names that are also spelled so elsewhere, as functions of src/:", " ".join(met))


main()
