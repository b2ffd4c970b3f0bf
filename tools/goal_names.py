#!/usr/bin/env python3
"""Gives today's spelling to names that the check makes for a function's goals, in proofs/F/ of each crate.

usage: python3 tools/goal_names.py [ROOT]

A name of a place of the check's own (in_default, in_err, in_ok), of an operation (overflow_add) or of a function of the
code (from_residual) has underscores inside and hyphens between names.
"""
import re
import sys
from pathlib import Path

TURNS = [
    (r"(?<![\w'])((?:[\w'+-]*[-+.])?)([Ii])n-(err|ok|default|loop_end)(?![a-z])", r"\1\2n_\3"),
    (r"overflow-(add|sub|mul|neg|shl|shr)(?![a-z])", r"overflow_\1"),
    (r"from-residual(?![a-z])", "from_residual"),
]


WORD = re.compile(r"(?:fn|let|let mut|for|mut|ref)\s+([a-z][a-z0-9]*(?:_[a-z0-9]+)+)\b|\b([a-z][a-z0-9]*(?:_[a-z0-9]+)+|[A-Z][A-Z0-9]*(?:_[A-Z0-9]+)+)\b")


def files(root, suffix):
    return (p for p in sorted(Path(root, "crates").rglob("*" + suffix)) if "out" not in p.parts)


def words(root):
    """The names of the code with underscores, which the check once wrote with hyphens."""
    out = set()
    for p in files(root, ".rt"):
        for line in p.read_text(encoding="utf-8").splitlines():
            if not line.strip().startswith(("//", "ghost use", "ensures", "requires")):
                out |= {a or b for a, b in WORD.findall(line)}
    return sorted(out, key=len, reverse=True)


def main(argv):
    root = argv[0] if argv else "."
    turns = TURNS + [(r"(?<![\w'])(c\.|[\w'.]*\.|(?:[\w'+]+-)+|)" + w.replace("_", "-") + r"(?![a-z])", r"\1" + w) for w in words(root)]
    for p in files(root, ".antt"):
        if p.name in ("Answers.antt", "Invariants.antt"):
            text = p.read_text(encoding="utf-8")
            for _ in range(6):
                for old, put in turns:
                    text = re.sub(old, put, text)
            p.write_text(text, encoding="utf-8")
    return 0


if __name__ == "__main__":
    raise SystemExit(main(sys.argv[1:]))
