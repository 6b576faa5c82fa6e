#!/usr/bin/env python3
"""Respells the names that this repository's own specs/ and proofs/ declare: words in snake case, types and facts in camel case,
a prime as an apostrophe. Names of source functions, of goals and of the library stay.

usage: tools/respell.py        at the top of the repository, once
"""

import collections
import os
import re
import sys

IDENT = r"[^\s(){}\[\].,;:\"`\\|?«»⟨⟩·λ]+"
DECL = re.compile(r"^\s*(?:(?:abbrev|unfoldable|opaque|pub|instance)\s+)*(record\s+|data\s+|ruleset\s+)?(" + IDENT + r")(\s*(?:[({].*)?:(?:\s|$).*)$")
USE = re.compile(r"use\s+([\w.·'+-]+)\.\{([^}]*)\}")


def texts(top):
    for folder, dirs, names in os.walk(os.path.join(top, "crates")):
        dirs[:] = sorted(d for d in dirs if d not in ("out", "target"))
        for name in sorted(names):
            if name.endswith((".antt", ".rt")):
                yield os.path.join(folder, name)


def shared(path, top):
    """A file right in specs/ or proofs/, and not one of a function's own proof."""
    parts = os.path.relpath(path, top).split(os.sep)
    return len(parts) == 4 and parts[2] in ("specs", "proofs")


def declared(top):
    """The names with a dash that are declared here, and facts with an underscore, each with whether it is a type or fact
    everywhere."""
    kinds = collections.defaultdict(set)
    for path in texts(top):
        if not path.endswith(".antt"):
            continue
        for line in open(path, encoding="utf-8"):
            line = re.sub(r"\s*--.*", "", line.rstrip("\n"))
            m = DECL.match(line)
            if not m or not re.search(r"\w-\w|^[A-Z]\w*_\w", m[2]) or m[2].startswith("-") or re.match(r"\s*(use|pub use|mod|pub mod|module|open)\b", line):
                continue
            if not shared(path, top) and re.search(r":\s*(goal|given)\.", line):
                continue
            fact = bool(m[1]) or re.search(r"\bType\s+\d\s*$", m[3]) is not None
            kinds[m[2]].add(fact)
    return kinds


def respelled(name, kinds):
    if name[0].isupper():
        if kinds == {True}:
            head, *rest = re.split("[-_]", name)
            return head + "".join(r[0].upper() + r[1:] for r in rest)
        return None
    return re.sub(r"(?<=\w)-(?=\w)", "_", name)


def foreign(text):
    """The names that a file brings in from elsewhere than this repository's crates."""
    out = set()
    for m in USE.finditer(text):
        if re.match(r"Rattle\.(std|core)\b", m[1]) or not m[1].startswith("Rattle."):
            out |= {w.strip().split(" as ")[-1].strip() for w in m[2].split(",")}
    return out


def turn(text, names, rust, own_proof, fields):
    skip = foreign(text)
    if "AllByRecursion as All" in text:
        # `All` is to stand for the library's own word of that name alone
        text = text.replace("AllByRecursion as All", "AllByRecursion")
        text = re.sub(IDENT, lambda m: "AllByRecursion" if m[0] == "All" else m[0], text)

    def word(m):
        w, before = m[0], m.string[m.start() - 1 : m.start()]
        core = w.rstrip("′'") if w not in names else w
        if core not in names or core in skip:
            return w
        if own_proof and before == "." and core not in fields:
            return w
        return names[core] + w[len(core) :]

    out = []
    for line in text.split("\n"):
        mark = "//" if rust else "--"
        at = line.find(mark)
        code, note = (line, "") if at < 0 else (line[:at], line[at:])
        parts = re.split(r'("(?:[^"\\]|\\.)*")', code)
        code = "".join(p if i % 2 else re.sub(IDENT, word, p) for i, p in enumerate(parts))
        note = re.sub(r"`[^`]*`", lambda q: re.sub(IDENT, word, q[0]), note)
        out.append(code + note)
    return "\n".join(out).replace("′", "'")


def main(top):
    kinds = declared(top)
    names = {n: r for n, k in kinds.items() if (r := respelled(n, k))}
    fields = set()
    for path in texts(top):
        if path.endswith(".antt") and shared(path, top):
            for line in open(path, encoding="utf-8"):
                m = re.match(r"\s+pub\s+(" + IDENT + r")\s*:", line)
                if m:
                    fields.add(m[1])
    back = collections.defaultdict(set)
    for n, r in names.items():
        back[r].add(n)
    for r, ns in sorted(back.items()):
        if len(ns) > 1:
            print("fall together:", r, sorted(ns))
    clash = 0
    for path in texts(top):
        text = open(path, encoding="utf-8").read()
        words = set(re.findall(IDENT, re.sub(r"(--|//).*", "", text)))
        for w in sorted(words):
            if w in names and names[w] in words:
                clash += 1
                print("has both:", os.path.relpath(path, top), w, names[w])
        own_proof = not shared(path, top) and path.endswith(".antt")
        new = turn(text, names, path.endswith(".rt"), own_proof, fields)
        if new != text and "--dry" not in sys.argv:
            open(path, "w", encoding="utf-8").write(new)
    docs = os.path.join(top, "docs")
    for path in [os.path.join(docs, f) for f in sorted(os.listdir(docs)) if f.endswith(".md")] + [os.path.join(top, "README.md")]:
        text = open(path, encoding="utf-8").read()
        new = re.sub(r"`[^`\n]*`", lambda q: re.sub(IDENT, lambda m: names.get(m[0], m[0]), q[0]), text).replace("′", "'")
        if new != text and "--dry" not in sys.argv:
            open(path, "w", encoding="utf-8").write(new)
    print(len(names), "names respelled;", clash, "places with both spellings")
    if "--list" in sys.argv:
        for n, r in sorted(names.items()):
            print(n, r)


if __name__ == "__main__":
    main(os.getcwd())
