#!/usr/bin/env python3
"""Brings the repository's own definitions and lemmas to the library's spelling: words in snake case, types and modules in camel case.

usage: python3 tools/respell_names.py          rewrites crates/ in place, once, behind the kit's port.py
       python3 tools/respell_names.py --list   prints the old and the new name of each, and changes nothing

A name that specs/ or a file of lemmas declares and that is in lower camel case or has dashes gets underscores. Where two old names
would become one, the one with dashes, a lemma, ends in `_lem`. Functions of src/, their goals, strings and names that are imported from
elsewhere keep theirs.
"""
import collections
import os
import re
import sys

WORD = re.compile(r"[^\s(){}\[\],;.\"`]+")
DECLARED = re.compile(r"^\s*(?:abbrev\s+|unfoldable\s+)?(?:pub\s+)?([^\s:()]+)\s*:(?:\s|$)")
PARAMETER = re.compile(r"\b([a-z_0-9]+): ")
IMPORT = re.compile(r"^(?:ghost )?use ([\w.+·◌-]+)\.\{([^}]*)\}")


def files(endings):
    for folder, dirs, names in os.walk("crates"):
        dirs[:] = sorted(d for d in dirs if d not in ("out", "must-fail"))
        for name in sorted(names):
            if name.endswith(endings):
                yield os.path.join(folder, name)


def read(path):
    with open(path, encoding="utf-8") as f:
        return f.read()


def of_a_function(path):
    return os.path.basename(path) == "Proof.antt"


def snake(word):
    return re.sub(r"(?<=[a-z0-9])([A-Z])", lambda m: "_" + m.group(1).lower(), word)


def turned(name):
    parts = [p if p[:1].isupper() else snake(p) for p in name.split("-")]
    out = parts[0]
    for before, part in zip(parts, parts[1:]):
        out += ("-" if before[:1].isupper() or part[:1].isupper() else "_") + part
    return out


def own_names():
    crates = set(os.listdir("crates"))
    own, foreign, words = set(), set(), collections.Counter()
    for path in files((".antt",)):
        text = read(path)
        for line in text.splitlines():
            found = DECLARED.match(line)
            if found and not of_a_function(path):
                own.add(found.group(1))
            brought = IMPORT.match(line)
            if brought and not (brought.group(1).startswith("Rattle.") and brought.group(1).split(".")[1] in crates):
                foreign.update(w.split(" as ")[0].strip() for w in brought.group(2).split(","))
        if not of_a_function(path):
            words.update(set(WORD.findall(text)))
    for path in files((".rt",)):
        words.update(PARAMETER.findall(read(path)))
    return own, foreign, words


def new_names():
    own, foreign, words = own_names()
    wanted = {n for n in own if not n[:1].isupper() and ("-" in n or snake(n) != n) and re.match(r"[A-Za-zα-ω]", n)}
    kept = sorted(wanted & foreign)
    new, taken = {}, set(foreign)
    for name in sorted(wanted - foreign, key=lambda n: ("-" in n, n)):
        to = turned(name)
        while to in taken or (to != name and to in words):
            to += "_lem"
        taken.add(to)
        if to != name:
            new[name] = to
    return new, kept


def rewritten(text, new, path):
    def one(found):
        return new.get(found.group(0), found.group(0))

    if path.endswith(".antt"):
        return WORD.sub(one, text)
    # In a source file strings stay as they are.
    pieces = re.split(r'("(?:[^"\\]|\\.)*")', text)
    return "".join(p if k % 2 else WORD.sub(one, p) for k, p in enumerate(pieces))


def main():
    new, kept = new_names()
    if "--list" in sys.argv[1:]:
        for old in sorted(new):
            print(old, new[old])
        for name in kept:
            print("# kept, as another name is imported:", name)
        return
    for path in files((".antt", ".rt")):
        before = read(path)
        after = rewritten(before, new, path)
        if after != before:
            with open(path, "w", encoding="utf-8") as f:
                f.write(after)


if __name__ == "__main__":
    main()
