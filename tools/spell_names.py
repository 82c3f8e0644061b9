#!/usr/bin/env python3
"""Spells this repository's own definitions, lemmas and fields as today's Rattle does.

usage: tools/spell_names.py [--check]        at the top of the repository, once, right after port.py

Words of the own specs/ and proofs/ are in snake case, types and facts in upper camel case: `quorum-of` becomes
`quorum_of`, and `First-law` becomes `FirstLaw`. Turned are the names that files of specs/ and lemma files of proofs/
make, wherever they are cited: in the code of .antt files, in the clauses and `ghost use` lines of .rt files, in the
texts of must-fail edits, and in the code spans of pages. Names that a file imports from a library, the names of goals,
comments and strings stay. Two names that would fall together, and a name that a file imports from a library too, are
refused. --check writes nothing.
"""
import os
import re
import sys

NAME = re.compile(r'[^\s(){}.;,@"«»`]+')
DEFINED = re.compile(r'(?m)^(?:abbrev |unfoldable )?(?:pub )?(?:record |data )?([^\s(){}.;,@"«»`]+)(?: [({].*)? :')
FIELD = re.compile(r'(?m)^ +(?:pub )?([^\s(){}.;,@"«»`]+) : ')
RECORD = re.compile(r'(?m)^(?:abbrev |unfoldable )?(?:pub )?(?:record|data) ([^\s(){}.;,@"«»`]+)')
GOAL = re.compile(r'(?m)^(?:abbrev )?pub (\S+) : goal\.')
IMPORT = re.compile(r'(?m)^(?:ghost )?use ([^\s;{]+)\{([^}]*)\}')
# A list, and no type: its name keeps the letter that FIPS 180-4 gives it.
WORDS = {"K-words": "K_words"}
ANSWERS = ("Answers.antt", "Invariants.antt", "Proof.antt")


def spelled(name):
    if name in WORDS:
        return WORDS[name]
    if name[0].isupper():
        return "".join(part[:1].upper() + part[1:] for part in name.split("-"))
    name = re.sub(r"(?<=[a-z0-9])[A-Z](?=[a-z])", lambda m: "_" + m[0].lower(), name)
    return name.replace("-", "_").replace("′", "'")


def is_answer(path, root):
    """Whether a file answers the goals of a function: what it declares are names that Rattle makes."""
    steps = os.path.relpath(path, root).split(os.sep)
    return steps[2] == "proofs" and steps[-1] in ANSWERS


def files(root):
    for folder, dirs, names in os.walk(root):
        dirs[:] = sorted(d for d in dirs if d not in ("out", ".git", "target", "tools"))
        for name in sorted(names):
            yield os.path.join(folder, name)


def crates(root):
    return sorted(os.listdir(os.path.join(root, "crates")))


def read(path):
    with open(path, encoding="utf-8") as f:
        return f.read()


def borrowed(text, own):
    """The names that a file imports from a library."""
    found = set()
    for path, items in IMPORT.findall(text):
        steps = path.rstrip(".").split(".")
        if steps[0] == "Rattle" and steps[1] in own:
            continue
        for item in items.split(","):
            found.add(item.split(" as ")[-1].strip().strip("«»"))
    return found


def turned(text, table, kept):
    return NAME.sub(lambda m: m[0] if m[0] in kept or text[: m.start()].endswith("goal.") else table.get(m[0], m[0]), text)


def pieces(text, quiet):
    """The text in pieces, each with whether it is code."""
    at = 0
    for m in quiet.finditer(text):
        yield text[at : m.start()], True
        yield m[0], False
        at = m.end()
    yield text[at:], True


ANTT = re.compile(r'"(?:[^"\\\n]|\\.)*"|(?<![^\s(){}.;,@"«»])--[^\n]*')
RUST = re.compile(r'//[^\n]*|b?"(?:\\.|[^"\\])*"|b?\'(?:\\.|[^\'\\])\'', re.S)
SPAN = re.compile(r"`[^`\n]+`")


def in_code(text, quiet, turn):
    return "".join(turn(t) if code else SPAN.sub(lambda m: turn(m[0]), t) for t, code in pieces(text, quiet))


def in_page(text, turn):
    return SPAN.sub(lambda m: turn(m[0]), text)


def in_edit(text, turn):
    lines = text.split("\n")
    return "\n".join(turn(l) if l.startswith(("old:", "new:")) else l for l in lines)


def main(root, check):
    own = set(crates(root))
    table, home = {}, {}
    for path in files(os.path.join(root, "crates")):
        if not path.endswith(".antt"):
            continue
        text = read(path)
        names = set()
        if not is_answer(path, root):
            names = set(DEFINED.findall(text)) | set(FIELD.findall(text)) | set(RECORD.findall(text))
            names |= {n for n in NAME.findall(ANTT.sub("", text)) if "-" in n} - borrowed(text, own)
        for name in names:
            if spelled(name) != name and re.fullmatch(r"[\w'′-]*[A-Za-z][\w'′-]*", name) and not name.startswith("-"):
                table[name] = spelled(name)
                home.setdefault(name, path)
    meets = {}
    for old, new in table.items():
        if meets.setdefault(new, old) != old:
            sys.exit(f"{old} and {meets[new]} would both be {new}")
    bad = []
    for path in files(root):
        text = read(path) if path.endswith((".antt", ".rt", ".edit", ".md")) else ""
        kept, goals = set(), set()
        if path.endswith((".antt", ".rt")):
            kept = borrowed(text, own)
            goals = set(GOAL.findall(text))
        turn = lambda t: turned(t, table, kept | goals)
        if path.endswith(".antt"):
            new = in_code(text, ANTT, turn)
            cited = set(NAME.findall(text))
            for old in cited & set(table):
                if table[old] in kept:
                    bad.append(f"{path}: {old} would meet the {table[old]} that it imports")
        elif path.endswith(".rt"):
            new = in_code(text, RUST, turn)
        elif path.endswith(".edit"):
            new = in_edit(text, turn)
        elif path.endswith(".md"):
            new = in_page(text, turn)
        else:
            continue
        if new != text:
            print(os.path.relpath(path, root))
            if not check:
                with open(path, "w", encoding="utf-8") as f:
                    f.write(new)
    for line in bad:
        print("look: " + line, file=sys.stderr)
    print(f"{len(table)} names")
    return table


if __name__ == "__main__":
    main(os.getcwd(), "--check" in sys.argv[1:])
