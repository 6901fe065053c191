"""What the scripts of this folder share: the rows of a program's input, each repeated with what it gives behind it."""
import os
import sys


def sums(words):
    """A list's plain sum, and its sum weighted by place, the last word once and each earlier one once more."""
    plain = weighted = 0
    for word in words:
        plain += word
        weighted += plain
    return plain, weighted


def spaced(word, numbers):
    return " ".join([word] + [str(number) for number in numbers]) + "\n"


def print_rows(crate, act):
    """Every row of the crate's input, or of the file that is named, and behind it what `act` gives for it."""
    root = os.path.join(os.path.dirname(os.path.abspath(__file__)), "..", "..")
    name = sys.argv[1] if len(sys.argv) > 1 else os.path.join(root, "crates", crate, "stdin")
    with open(name, encoding="ascii", newline="\n") as rows:
        text = rows.read()
    assert text.endswith("\n") and len(text) <= 65536
    for line in text[:-1].split("\n"):
        sys.stdout.write(line + "\n" + act(line))
