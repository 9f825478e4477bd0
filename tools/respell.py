#!/usr/bin/env python3
"""Respells this repository's own names: definitions, lemmas, fields and variables in snake case, types and records in camel case.

Run it once at the top of the repository, after the kit's port.py: python3 tools/respell.py [--check]

A name counts as the repository's own where it is defined in specs/ or in proofs/ (a definition, a field, a constructor, a
variable) and is no goal of a function's proof. Names of the library, names that the check makes, functions of src/, texts and
comments keep their spelling; in a comment, in README.md and in docs/ a name between back quotes is respelled too.
--check writes nothing, and lists the names and those that would fall together.
"""
import glob
import re
import sys

TOKEN = re.compile(r"[^\s(){}\[\],.;⌜⌝`\"]+")
HYPHEN = re.compile(r"[A-Za-z0-9_']-[A-Za-z0-9_]")
# names that are written with a hyphen and bound here, but are the check's own (parts of goals, steps and their fields)
KEEP = re.compile(r"^(invariant|decreases|loop|returns|overflow|bounds|offset_bounds|from_residual)[-_]")
# a name of the repository that begins like one of them
OWN_ALL_THE_SAME = {"loop-never-helps"}


def read(path):
    with open(path, encoding="utf-8") as f:
        return f.read()


def without_comments(text, mark):
    return "\n".join(line.split(mark)[0] for line in text.split("\n"))


def antt_files():
    return sorted(glob.glob("crates/*/specs/**/*.antt", recursive=True) + glob.glob("crates/*/proofs/**/*.antt", recursive=True))


def defined(text):
    """The names that a file of definitions or lemmas binds."""
    found = set()
    head = r"^[ \t|]*(?:(?:pub|abbrev|unfoldable|data|record)[ \t]+)*"
    for m in re.finditer(head + r"([^\s(){}\[\],.;]+)", text, re.M):
        found.add(m.group(1))
    for m in re.finditer(r"^([^\n]*?)(?:=|↦)(?:\s|$)", text, re.M):
        if "λ" not in m.group(1) and "let " not in m.group(1):
            found.update(TOKEN.findall(m.group(1)))
    for m in re.finditer(r"\blet\s+([^\s(){}\[\],.;:=]+)", text):
        found.add(m.group(1))
    for m in re.finditer(r"λ([^.]*)\.", text):
        found.update(TOKEN.findall(m.group(1)))
    for m in re.finditer(r"[({]([^(){}:→=]+):(?!:)", text):
        found.update(TOKEN.findall(m.group(1)))
    return found


def own_names():
    own, goals, lib = set(), set(), set()
    for path in antt_files():
        text = without_comments(read(path), "--")
        goals.update(re.findall(r"goal\.([^\s(){}\[\],.;]+)", text))
        for m in re.finditer(r"use ([\w.+\-'◌]+)\.\{([^}]*)\}", text):
            own |= set(re.findall(r" as ([^\s,}]+)", m.group(2)))
            names = {n.strip().split(" as ")[0] for n in m.group(2).split(",")}
            mine = re.match(r"Rattle\.(measure|network|drawing|book|search|build|roadtext)\.", m.group(1))
            if not mine:
                lib |= names
            elif re.search(r"\.(Goals|Given)$", m.group(1)):
                goals |= names
            else:
                own |= names
        if not re.search(r"/(Answers|Invariants)\.antt$", path):
            own |= defined(text)
        else:
            own |= {m.group(1) for m in re.finditer(r"^(?:abbrev )?([^\s(){}\[\],.;]+) :", text, re.M)}
            own |= {m.group(1) for m in re.finditer(r"\blet\s+([^\s(){}\[\],.;:=]+)", text)}
    for path in glob.glob("crates/*/src/**/*.rt", recursive=True):
        for line in re.findall(r"ghost use [^;]*;", read(path)):
            own |= set(re.findall(r" as ([^\s,}]+)", line))
    return {n for n in own - goals - lib if HYPHEN.search(n) and not n.startswith("-") and (not KEEP.match(n) or n in OWN_ALL_THE_SAME)}


FUNCTIONS = set()


def functions():
    """The free functions of src/: a definition that would have the name of one of them ends in _lem. (A method's is another place.)"""
    for path in glob.glob("crates/*/src/**/*.rt", recursive=True):
        FUNCTIONS.update(re.findall(r"^(?:pub(?:\(crate\))? )?fn (\w+)", read(path), re.M))


def respelled(name):
    parts = name.split("-")
    if re.match(r"[A-Z]", parts[0]):
        return "".join(p[:1].upper() + p[1:] for p in parts)
    plain = "_".join(parts)
    return plain + "_lem" if plain in FUNCTIONS else plain


def turned(text, names, mark, code):
    """The text with its names respelled: all of them outside comments and strings, else those in back quotes."""
    lines = []
    for line in text.split("\n"):
        before, sep, comment = line.partition(mark)
        if code:
            before = "".join(p if i % 2 else words(p, names) for i, p in enumerate(re.split(r'("(?:[^"\\]|\\.)*")', before)))
        else:
            before = words(before, names)
        comment = in_quotes(comment, names)
        lines.append(before + sep + comment)
    return "\n".join(lines)


def words(text, names):
    return re.sub(r"(?<!goal\.)" + TOKEN.pattern, lambda m: respelled(m.group(0)) if m.group(0) in names else m.group(0), text)


def in_quotes(text, names):
    return re.sub(r"`([^`\s]+)`", lambda m: "`" + (respelled(m.group(1)) if m.group(1) in names else m.group(1)) + "`", text)


def fall_together(names):
    spelled = {}
    for n in names:
        spelled.setdefault(respelled(n), set()).add(n)
    for s, ns in sorted(spelled.items()):
        if len(ns) > 1:
            print("fall together: " + " ".join(sorted(ns)) + " -> " + s)
    for path in antt_files() + sorted(glob.glob("crates/*/src/**/*.rt", recursive=True)):
        tokens = set(TOKEN.findall(without_comments(read(path), "//" if path.endswith(".rt") else "--")))
        for n in sorted(tokens & names):
            if respelled(n) in tokens:
                print(f"{path}: {n} and {respelled(n)}")


def main(check):
    functions()
    names = own_names()
    if check:
        print("\n".join(sorted(names)))
        fall_together(names)
        return
    for path in antt_files() + sorted(glob.glob("crates/*/src/**/*.rt", recursive=True)) + sorted(glob.glob("crates/*/must-fail/*.edit")):
        text = read(path)
        if path.endswith(".edit"):
            new = turned(text, names, "\0", False)
        else:
            new = turned(text, names, "//" if path.endswith(".rt") else "--", path.endswith(".rt"))
        if new != text:
            with open(path, "w", encoding="utf-8") as f:
                f.write(new)
    for path in ["README.md"] + sorted(glob.glob("docs/*.md")):
        text = read(path)
        new = in_quotes(text, names)
        if new != text:
            with open(path, "w", encoding="utf-8") as f:
                f.write(new)


if __name__ == "__main__":
    main("--check" in sys.argv[1:])
