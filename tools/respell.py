#!/usr/bin/env python3
"""Brings the repository's own names in specs/, proofs/ and contracts to the library's spelling, after port.py.

usage: python3 tools/respell.py [--list] [ROOT]

Definitions, lemmas, fields, constructors, modules and local names that a .antt file here declares and that have hyphens are
respelt: a name that begins with a capital in camel case (Rule-of: RuleOf), any other in snake case (stop-number: stop_number).
A prime is an apostrophe. Goals, invariants and other names that the check makes (goal.NAME, given.NAME, c.NAME) and the
library's own hyphenated names stay. --list prints old and new names and changes nothing. Names that would fall together
are printed, and then nothing is changed.
"""
import os
import re
import sys

# names that would fall together with a type, a constructor or a module
OTHERWISE = {"No-unit": "BeginsNoUnit", "Open-frame": "IsOpenFrame", "So-far": "IsSoFar"}
# definitions that may bear the name of a function or a module of the code, as others here do
SHARED = {"first-mark", "frame-touches", "two-scans-suffice", "yes-no"}
TOKEN = re.compile(r"(?<![\w'\u2032-])([A-Za-z_\u0370-\u03FF][\w'\u2032\u2070-\u209F]*(?:-[\w'\u2032\u2070-\u209F]+)*)")


def files(root):
    for folder, dirs, names in os.walk(os.path.join(root, "crates")):
        dirs[:] = sorted(d for d in dirs if d != "out")
        for n in sorted(names):
            if n.endswith((".antt", ".rt")):
                yield os.path.join(folder, n)


def pages(root):
    for folder in (root, os.path.join(root, "docs")):
        if os.path.isdir(folder):
            for n in sorted(os.listdir(folder)):
                if n.endswith(".md"):
                    yield os.path.join(folder, n)


def declared(path, text):
    """Names with a hyphen that the .antt text declares."""
    out = set()
    goals = set(re.findall(r"(?:goal|given|need)\.([\w'-]+)", text))
    for line in text.splitlines():
        s = line.strip()
        if s.startswith("--"):
            continue
        m = re.match(r"(?:(?:abbrev|unfoldable|pub|mutual|opaque|record|data|mod|module)\s+)*([\w'\u2032\u2070-\u209F-]+)\s*(?:[:({]|$|where|\s+\()", s)
        if m and "-" in m.group(1):
            out.add(m.group(1))
        for m in re.finditer(r"\blet ([\w'\u2032\u2070-\u209F-]+)\s*[=:]", s):
            if "-" in m.group(1):
                out.add(m.group(1))
        m = re.match(r"(?:pub )?mod ([\w'-]+)", s)
        if m and "-" in m.group(1):
            out.add(m.group(1))
        # binders: (a-b c : T), {a-b : T}, λ a-b.
        for m in re.finditer(r"[({]([^(){}:]*?) : ", s):
            for w in m.group(1).split():
                if "-" in w and re.fullmatch(r"[\w'\u2032\u2070-\u209F-]+", w):
                    out.add(w)
        for m in re.finditer(r"λ ([^.]*)\.", s):
            for w in m.group(1).split():
                if "-" in w and re.fullmatch(r"[\w'\u2032\u2070-\u209F-]+", w):
                    out.add(w)
    return {n for n in out if n not in goals and not re.match(r"-|.*-$", n)}


def respelt(name):
    if name in OTHERWISE:
        return OTHERWISE[name]
    if name[:1].isupper():
        return "".join(w[:1].upper() + w[1:] for w in re.split("[-_]", name))
    return name.replace("-", "_")


def comment_free(line, rt):
    """The part of a line before its comment."""
    mark = "//" if rt else "-- "
    i = line.find(mark) if rt else (0 if line.strip().startswith("--") else line.find(" -- "))
    return (line, "") if i < 0 else (line[:i], line[i:])


def turn(text, names, rt):
    out, ghost = [], False
    for line in text.split("\n"):
        body, rest = comment_free(line, rt)
        if rt:
            s = body.strip()
            if not (s.startswith(("ghost", "ensures", "requires", "invariant", "law")) or ghost):
                out.append(line)
                continue
            depth = body.count("{") - body.count("}")
            ghost = (s.startswith(("ghost", "ensures", "requires")) or ghost) and depth > 0 and not s.endswith(";")
            if ghost and s.startswith("impl"):
                ghost = False
        body = TOKEN.sub(lambda m: names.get(m.group(1), m.group(1)), body)
        body = body.replace("\u2032", "'")
        out.append(body + rest)
    return "\n".join(out)


def main(argv):
    listing = "--list" in argv
    rest = [a for a in argv if a != "--list"]
    root = rest[0] if rest else "."
    texts = {}
    for p in files(root):
        with open(p, encoding="utf-8") as f:
            texts[p] = f.read()
    own, used, kept = set(), set(), set()
    for p, t in texts.items():
        if p.endswith(".antt"):
            own |= declared(p, t)
        used |= {m.group(1) for m in TOKEN.finditer(t)}
        for m in re.finditer(r"use (?:Rattle\.std|mathlib|lib|native|borrow|denote|Prim)[\w.']*\.\{([^}]*)\}", t):
            kept |= {w.split(" as ")[0].strip() for w in m.group(1).split(",")}
    own -= kept
    names = {n: respelt(n) for n in sorted(own)}
    bad = 0
    back = {}
    for old, new in names.items():
        if (new in used or new in kept) and old not in SHARED:
            print(f"falls together: {old} with {new}", file=sys.stderr)
            bad += 1
        if back.setdefault(new, old) != old:
            print(f"falls together: {old} and {back[new]}: {new}", file=sys.stderr)
            bad += 1
    if listing:
        for old, new in names.items():
            print(old, new)
        return 0
    if bad:
        return 1
    for p, t in texts.items():
        new = turn(t, names, p.endswith(".rt"))
        if new != t:
            with open(p, "w", encoding="utf-8") as f:
                f.write(new)
    for p in pages(root):
        with open(p, encoding="utf-8") as f:
            t = f.read()
        new = re.sub(r"`[^`\n]+`", lambda m: TOKEN.sub(lambda k: names.get(k.group(1), k.group(1)), m.group(0)), t)
        if new != t:
            with open(p, "w", encoding="utf-8") as f:
                f.write(new)
    return 0


if __name__ == "__main__":
    raise SystemExit(main(sys.argv[1:]))
