#!/usr/bin/env python3
"""Gives the repository's own definitions, lemmas and fields one spelling: words in snake case, primes as apostrophes.

usage: python3 tools/respell.py [--list]      at the top of the repository; --list only prints what would change

Types, modules, variants and names of src/ keep their spelling, and so do the names that the check makes for goals and steps.
A name is changed where it is declared, where a file brings it in from one of the repository's crates, and in the records that have it as a field.
Where the new name is in use in such a file already, nothing is written, and the clash is printed.
"""

import os
import re
import sys

DECLARED = re.compile(r"^[ \t]*(?:(?:pub|abbrev|unfoldable|opaque)[ \t]+)*(?:module[ \t]+)?(?P<name>[^\s(){}.,;:|=]+)[ \t]+(?::)(?=\s)", re.M)
IMPORT = re.compile(r"^[ \t]*(?:pub[ \t]+)?(?:ghost )?use (?P<path>\S+?)\.\{(?P<names>[^}]*)\};?", re.M)
EDGE = r"\s(){}\.,;|`«»⌜⌝\[\]"
GOALS = re.compile(r":\s*goal\.")

# a lemma that would have the name of the function it is about
LEMMAS = {n: n.replace("-", "_") + "_lem" for n in ("entry-at", "prefix-at", "lowest-over", "same-writing", "lines-decide", "no-wrong-moment", "plan-is-smooth", "sending-decides")}


def snake(name):
    if name in LEMMAS:
        return LEMMAS[name]
    new = name.replace("′", "'")
    if not new[:1].isupper():
        new = re.sub(r"(?<=[a-z0-9])([A-Z])(?=[a-z]|$)", lambda m: "_" + m.group(1).lower(), new)
    return re.sub(r"(?<=[\w'])-(?=\w)", "_", new)


def files(top):
    for crate in sorted(os.listdir(os.path.join(top, "crates"))):
        for folder, dirs, names in os.walk(os.path.join(top, "crates", crate)):
            dirs[:] = sorted(d for d in dirs if d not in ("out", "target"))
            for f in sorted(names):
                if f.endswith((".rt", ".antt")):
                    yield crate, os.path.join(folder, f)


def declared(path, text):
    """Names that a file declares: those whose type is a goal are the check's own."""
    if not path.endswith(".antt"):
        return set()
    found = set()
    for m in DECLARED.finditer(text):
        line = text[m.start():text.find("\n", m.end())]
        if GOALS.search(line) and m.group("name") == line.split("goal.")[-1].split()[0]:
            continue
        found.add(m.group("name"))
    return found


def fields(text):
    found = set()
    for m in re.finditer(r"^(?:pub )?record .*?(?=^\S)", text + "\nx", re.M | re.S):
        for n in re.finditer(r"^[ \t]+pub (\S+) :", m.group(0), re.M):
            found.add(n.group(1))
    return found


def token(name):
    return re.compile(r"(?<![^" + EDGE + r"])" + re.escape(name) + r"(?![^" + EDGE + r"])")


def main():
    top = os.getcwd()
    texts = {p: (c, open(p, encoding="utf-8").read()) for c, p in files(top)}
    crates = {c for c, _ in texts.values()}
    own, own_fields = {}, set()
    for p, (c, t) in texts.items():
        own[p] = declared(p, t)
        own_fields |= fields(t)
    turned, clashes, seen = {}, [], {}
    for p, (c, t) in texts.items():
        scope, alien = set(own[p]) | own_fields, set()
        for m in IMPORT.finditer(t):
            mine = m.group("path").split(".")[:2]
            mine = len(mine) > 1 and mine[0] == "Rattle" and mine[1] in crates and ".specs.declared." not in m.group("path") and ".Goals" not in m.group("path")
            for n in m.group("names").split(","):
                n = n.strip()
                parts = n.split(" as ")
                for part in parts[:1] if mine else []:
                    scope.add(part)
                if len(parts) == 2:
                    scope.add(parts[1])
                if not mine:
                    alien.add(parts[0])
        scope -= alien - own_fields
        new = t
        for n in sorted(scope):
            s = snake(n)
            if s == n or (n in alien and n not in own[p]):
                continue
            if n in own_fields and n not in own[p] and not token(n).search(t):
                continue
            if not token(n).search(t):
                continue
            if token(s).search(t):
                clashes.append((p, n, s))
            new = token(n).sub(s, new)
            seen.setdefault(n, s)
        if new != t:
            turned[p] = new
    for p, n, s in clashes:
        print(f"clash: {os.path.relpath(p, top)}: {n} would be {s}, which is there already")
    if "--list" in sys.argv:
        for n, s in sorted(seen.items()):
            print(f"{n} {s}")
        return
    if clashes and "--force" not in sys.argv:
        raise SystemExit(1)
    for p, new in turned.items():
        with open(p, "w", encoding="utf-8") as f:
            f.write(new)
    after = {snake(n) for names in own.values() for n in names}
    pages = ["README.md"] + [os.path.join("docs", f) for f in sorted(os.listdir("docs")) if f.endswith(".md")]
    for p in pages:
        with open(p, encoding="utf-8") as f:
            t = f.read()
        new = re.sub(r"`([^`\n]+)`", lambda m: "`" + (snake(m.group(1)) if snake(m.group(1)) in after else m.group(1)) + "`", t)
        if new != t:
            with open(p, "w", encoding="utf-8") as f:
                f.write(new)
    print(f"respell: {len(seen)} names, {len(turned)} files")


main()
