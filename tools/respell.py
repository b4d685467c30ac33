#!/usr/bin/env python3
"""Brings the names that specs/ and proofs/ declare to the spelling of today's Rattle.

usage: python3 tools/respell.py          once, at the top of the repository, after the kit's own port.py
       python3 tools/respell.py --list   prints each name with its new one, and changes nothing

Types, facts and modules are in upper camel case; every other name is in snake case, and keeps the capitals of the paper's words (DEC_kind).
Names that are imported from elsewhere keep their spelling, as do strings, and words in comments that do not stand in backticks.
"""

import os
import re
import sys

TOKEN = re.compile(r"[^\s(){}\[\];,.\"|`◌]+")


def texts(root, endings):
    for folder, dirs, files in os.walk(os.path.join(root, "crates")):
        dirs[:] = sorted(d for d in dirs if d != "out")
        for f in sorted(files):
            if f.endswith(endings):
                yield os.path.join(folder, f)


def read(path):
    with open(path, encoding="utf-8") as f:
        return f.read()


def code_of(line):
    """The line without its comment."""
    return re.split(r"(?:^|(?<=\s))--(?=\s)", line)[0]


def declared(root):
    """Names with a dash that the shared files of specs/ and proofs/ declare or bind, and those that any file imports from elsewhere."""
    crates = {d for d in os.listdir(os.path.join(root, "crates"))}
    own, foreign = {}, set()
    for path in texts(root, (".antt", ".rt")):
        for m in re.finditer(r"use ([\w.]+?)\.\{([^}]*)\}", read(path)):
            parts = m.group(1).split(".")
            if parts[0] != "Rattle" or parts[1] not in crates:
                for name in m.group(2).split(","):
                    foreign.update(w for it in name.split(" as ") for w in it.replace("◌", " ").split())
    for path in texts(root, (".antt",)):
        if os.path.basename(os.path.dirname(path)) not in ("specs", "proofs"):
            continue
        for line in read(path).splitlines():
            code = code_of(line)
            found = re.match(r"^\s*(?:(?:abbrev|unfoldable)\s+)?(?:pub\s+)?(?:record\s+|data\s+)?([^(){}:;,.]+?)\s*(?::|[({].*:)", code)
            names = found.group(1).split() if found else []
            found = re.match(r"\s*([^=:]+) = |.* as ([^\s;]+)$|.*let \(([^()]*)\)", code)
            for it in found.groups() if found else []:
                names += re.split(r"[^\w'-]+", it or "")
            for m in re.finditer(r"[({]([^(){}:]+) :", code):
                names += m.group(1).split()
            for m in re.finditer(r"λ ([^.():]+)\.", code):
                names += m.group(1).split()
            for m in re.finditer(r"\blet (\S+) [:=]", code):
                names.append(m.group(1))
            for name in names:
                for w in name.split("◌"):
                    if re.search(r"\w-\w", w):
                        own.setdefault(w, path)
    return own, foreign


def today(name):
    parts = name.split("-")
    if re.match(r"[A-Z][a-z]", name):
        return "".join(p[0].upper() + (p[1:].lower() if p.isupper() else p[1:]) for p in parts)
    return "_".join(parts)


def turned(text, names):
    return TOKEN.sub(lambda m: names.get(m.group(0), m.group(0)), text)


def in_backticks(text, names):
    return re.sub(r"`[^`]*`", lambda m: turned(m.group(0), names), text)


def turn_line(path, line, names):
    if path.endswith(".edit"):
        return turned(line, names) if re.match(r"(old|new|fact|found): ", line) else in_backticks(line, names)
    mark = re.search(r"(?:^|(?<=\s))--(?=\s)" if path.endswith(".antt") else r"//", line)
    at = mark.start() if mark else len(line)
    return turned(line[:at], names) + in_backticks(line[at:], names)


def main():
    root = "."
    own, foreign = declared(root)
    names = {n: today(n) for n in own if n not in foreign}
    taken = {}
    for path in texts(root, (".antt", ".rt")):
        for line in read(path).splitlines():
            for m in TOKEN.finditer(code_of(line)):
                taken.setdefault(m.group(0), path)
    clash = [f"{n} becomes {t}, which stands in {taken[t]}" for n, t in sorted(names.items()) if t in taken]
    new = sorted(names.values())
    clash += [f"two names become {t}" for t in sorted(set(new)) if new.count(t) > 1]
    if "--list" in sys.argv:
        print("\n".join(f"{n} {t}" for n, t in sorted(names.items())))
    print("\n".join(clash), file=sys.stderr)
    if "--list" in sys.argv:
        return 0
    for path in texts(root, (".antt", ".rt", ".edit")):
        text = read(path)
        with open(path, "w", encoding="utf-8") as f:
            f.write("\n".join(turn_line(path, line, names) for line in text.split("\n")))
    print(f"respell: {len(names)} names")
    return 0


if __name__ == "__main__":
    raise SystemExit(main())
