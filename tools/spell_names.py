#!/usr/bin/env python3
"""Spells the repository's own names as today's Rattle does: words of definitions, laws, fields and constructors in snake case.

usage: python3 tools/spell_names.py [ROOT]      once, after port.py
       python3 tools/spell_names.py --map [ROOT]  prints old and new name, a pair a line, and changes nothing

Names in camel case become snake case (`firstFrom-is` is `first_from-is`). Fields, constructors and definitions lose their dash (`p1-low`
is `p1_low`), and a law of the same name with them; other laws keep it, since there a dash joins two names. The proof of a function f is `f_spec`.
Predicates begin with a capital. Functions of src/ keep their names. Names that fall together are reported, and nothing is written
(the walks in Proof.antt aside, where a part of a path has the name of a function).
"""
import collections
import os
import re
import subprocess
import sys

TOKEN = re.compile(r"[^\W\d_][\w'?\-]*|_[\w'?\-]+")
CAMEL = re.compile(r"[a-z][a-z0-9']*[A-Z]")
PREDICATES = {"hopBy": "HopBy"}
# Names that would fall together with a function or a constructor: a law that has its function's name ends in `_lem`.
APART = {
    "read_found": "read_found_lem",
    "read_answer": "read_answer_lem",
    "is_up": "is_up_lem",
    "load_said": "load_said_lem",
    "first_on": "first_on_lem",
    "counted-off": "off_counted",
    "well-formed": "is_well_formed",
}
# The same in one file alone.
APART_IN = {("crates/tree_formed/proofs/Builds.antt", "node_ok"): "node_ok_lem"}


def files(root):
    for folder, dirs, names in os.walk(os.path.join(root, "crates")):
        dirs[:] = sorted(d for d in dirs if d != "out")
        for name in sorted(names):
            if name.endswith((".antt", ".rt")):
                yield os.path.join(folder, name)


def parts(line):
    """A line's code and its comment."""
    at = re.search(r"(?:^|\s)--(?:\s|$)", line)
    return (line, "") if not at else (line[: at.start()], line[at.start() :])


def snake(word):
    word = re.sub(r"(?<=[a-z0-9'])([A-Z])", lambda m: "_" + m.group(1).lower(), word)
    return re.sub(r"(?<=_[a-z])([A-Z])", lambda m: "_" + m.group(1).lower(), word)


def camel(name):
    return "-".join(snake(p) if CAMEL.match(p) else p for p in name.split("-"))


def dashed(root):
    """The fields, constructors and definitions with a dash in their names."""
    found = set()
    for path in files(root):
        if not path.endswith(".antt"):
            continue
        inside, where = None, 0
        for line in open(path, encoding="utf-8"):
            code = parts(line.rstrip("\n"))[0]
            if not code.strip():
                continue
            deep = len(code) - len(code.lstrip())
            if inside and deep <= where:
                inside = None
            head = re.match(r"\s*(?:pub |pattern )*(record|data) .*\bwhere$", code)
            if head:
                inside, where = head.group(1), deep
                continue
            m = re.match(r"\s*((?:pattern |unfoldable |abbrev |pub )*)([^\s:(){}]+-[^\s:(){}]+)(?: \{[^}]*\})? :", code)
            if not m or not re.match(r"[^\W\d_]", m.group(2)):
                continue
            if inside or "abbrev" in m.group(1) or "unfoldable" in m.group(1):
                found.add(m.group(2))
    return found


def renamed(root):
    new = {}
    for name in sorted(dashed(root)):
        new[name] = camel(name).replace("-", "_")
    for path in files(root):
        for line in open(path, encoding="utf-8"):
            for token in TOKEN.findall(line):
                if token in new:
                    continue
                if token in PREDICATES:
                    new[token] = PREDICATES[token]
                elif re.fullmatch(r"[a-z0-9]+(?:[-_][a-z0-9]+)*-spec", token):
                    new[token] = token.replace("-", "_")
                elif not re.match(r"x[0-9A-F]", token) and camel(token) != token:
                    new[token] = camel(token)
    new.update(APART)
    return new


def names_in(path, root, new):
    where = os.path.relpath(path, root)
    return new | {old: name for (file, old), name in APART_IN.items() if file == where}


def together(root, new):
    bad = []
    for path in files(root):
        if not path.endswith(".antt") or path.endswith("/Proof.antt"):
            continue
        here = names_in(path, root, new)
        seen = collections.defaultdict(set)
        for line in open(path, encoding="utf-8"):
            for token in TOKEN.findall(parts(line)[0]):
                seen[here.get(token, token)].add(token)
        for name, olds in seen.items():
            if len(olds) > 1:
                bad.append((name, sorted(olds), os.path.relpath(path, root)))
    return bad


def turn_code(text, new):
    return TOKEN.sub(lambda m: new.get(m.group(0), m.group(0)), text)


def turn_words(text, new):
    """Prose: names in backticks, and names in camel case, which no English word is."""
    text = re.sub(r"`[^`\n]*`", lambda m: turn_code(m.group(0), new), text)
    return TOKEN.sub(lambda m: new[m.group(0)] if m.group(0) in new and "-" not in m.group(0) else m.group(0), text)


def turn_antt(text, new):
    out = []
    for line in text.split("\n"):
        code, words = parts(line)
        out.append(turn_code(code, new) + turn_words(words, new))
    return "\n".join(out)


def turn_rust(text, new):
    """In a source file names of definitions are in the clauses, in `ghost use` lines and in comments."""
    out = []
    for line in text.split("\n"):
        at = re.search(r"(?:^|\s)//", line)
        code, words = (line, "") if not at else (line[: at.start()], line[at.start() :])
        if '"' in code and not re.search(r"ensures|requires|ghost", code):
            out.append(code + turn_words(words, new))
        else:
            out.append(turn_code(code, new) + turn_words(words, new))
    return "\n".join(out)


def main(argv):
    only_map = "--map" in argv
    argv = [a for a in argv if a != "--map"]
    root = argv[0] if argv else "."
    new = renamed(root)
    if only_map:
        for old in sorted(new):
            print(old, new[old])
        return 0
    bad = together(root, new)
    for name, olds, path in bad:
        print(f"fall together: {' '.join(olds)} in {path}: {name}")
    if bad:
        return 1
    for path in files(root):
        text = open(path, encoding="utf-8").read()
        turned = (turn_antt if path.endswith(".antt") else turn_rust)(text, names_in(path, root, new))
        if turned != text:
            open(path, "w", encoding="utf-8").write(turned)
    print(f"{len(new)} names")
    for crate in sorted(os.listdir(os.path.join(root, "crates"))):
        subprocess.run(["rt", "fmt"], cwd=os.path.join(root, "crates", crate), capture_output=True, check=False)
    return 0


if __name__ == "__main__":
    raise SystemExit(main(sys.argv[1:]))
