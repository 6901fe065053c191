#!/usr/bin/env python3
"""Brings the texts of must-fail edits to today's spelling, as far as words go.

usage: python3 tools/respell_edits.py NAMES    NAMES has the lines 'old new' of `tools/respell_names.py --list`, taken before it ran

Only lines `old:` and `new:` change. Edits of programs keep their words unless a definition stands in them.
"""
import glob
import re
import sys

WORD = re.compile(r"[^\s(){}\[\],;.\"`]+")
STD = {"getD": "get_or", "headOf": "head_of", "parentOf": "parent_of", "keyOf": "key_of", "countOf": "count_of", "startOf": "start_of", "holdOf": "hold_of"}


def main():
    names = dict(STD)
    with open(sys.argv[1], encoding="utf-8") as f:
        for line in f:
            pair = line.split()
            if len(pair) == 2 and not line.startswith("#"):
                names[pair[0]] = pair[1]
    for path in sorted(glob.glob("crates/*/must-fail/*.edit")):
        with open(path, encoding="utf-8") as f:
            before = f.read().splitlines(keepends=True)
        after = []
        for line in before:
            if line.startswith(("old:", "new:")):
                head, text = line[:4], line[4:]
                if "specs/" in "".join(before):
                    text = re.sub(r"(?<=\S) \.(?=[\w])", ".", text).replace("′", "'")
                line = head + WORD.sub(lambda m: names.get(m.group(0), m.group(0)), text)
            after.append(line)
        if after != before:
            with open(path, "w", encoding="utf-8") as f:
                f.write("".join(after))


if __name__ == "__main__":
    main()
