#!/usr/bin/env python3
"""Brings the names of this repository's own definitions, lemmas and fields to snake case, as the language spells words.

usage: python3 tools/respell.py [--list] [FOLDER]      rewrites the files below FOLDER (here, if none is given) in place; --list only prints the names

It was run once, on a tree that `port.py` of the kit had turned, and is kept so that the older text can be turned again and laid beside today's.
A name that a library gives, and a name that Rattle makes (a goal, a step of a proof), keeps its dashes.
"""
import os
import re
import sys

NAME = r"[A-Za-z][\w']*(?:-[\w']+)+"
TOKEN = re.compile(r"(?<![\w'-])(\.?)(" + NAME + r")(?![\w'-])")
DEFINED = re.compile(r"^[ \t]*(?:(?:abbrev|unfoldable|pub|data|record|ruleset)\s+)*(" + NAME + r")\s*(?:[({][^:]*:[^)}]*[)}]\s*)*:(?!\s*goal\.)", re.M)
FIELD = re.compile(r"^[ \t]+pub (" + NAME + r")\s*:", re.M)
USE = re.compile(r"\b(?:pub )?use\s+([\w.·'-]+?)\.?\{([^}]*)\}|\b(?:pub )?use\s+([\w.·'+-]+)(?:\s+as\s+([\w'-]+))?")
# words of an older library in names of our own, by what stands for them now
WORDS = {"getD": "get_or", "kept-by": "filter"}


def spelled(name):
    for old, new in WORDS.items():
        name = re.sub(r"(?<![\w'])" + old + r"(?![\w'])", new, name)
    return name.replace("-", "_")


def texts(top):
    for folder, dirs, files in os.walk(top):
        dirs[:] = sorted(d for d in dirs if d not in ("out", "target", ".git", "tools"))
        for f in sorted(files):
            if f.endswith((".rt", ".antt", ".edit", ".md")):
                path = os.path.join(folder, f)
                with open(path, encoding="utf-8") as opened:
                    yield path, opened.read()


def kind(path):
    """What a file is: definitions and lemmas, the proof of one function, code, or words."""
    if not path.endswith(".antt"):
        return "words" if path.endswith(".md") else "code"
    parts = path.split(os.sep)
    if "proofs" in parts and parts.index("proofs") + 2 < len(parts):
        return "proof"
    return "laws"


def foreign(text, crates):
    names = set()
    for m in USE.finditer(text):
        module = m.group(1) or m.group(3) or ""
        words = module.split(".")
        if words[0] == "Rattle" and len(words) > 1 and words[1] in crates:
            continue
        for item in (m.group(2) or "").split(","):
            names.update(item.split(" as ")[-1].split())
        names.add(m.group(4) or words[-1])
    return names


def turned(path, text, own, fields, crates):
    what = kind(path)
    theirs = foreign(text, crates) if what in ("laws", "proof") else set()

    def one(m):
        dot, name = m.groups()
        if dot and name not in fields and name not in own:
            return m.group(0)
        if dot and what == "proof" and name not in fields:
            return m.group(0)
        if not dot and (name in theirs or (what != "laws" and name not in own)):
            return m.group(0)
        return dot + spelled(name)

    if what == "words":
        return re.sub(r"`[^`\n]*`", lambda code: TOKEN.sub(one, code.group(0)), text)
    return TOKEN.sub(one, text)


def main():
    words = [w for w in sys.argv[1:] if w != "--list"]
    top = words[0] if words else "."
    crates = set(os.listdir(os.path.join(top, "crates")))
    files = list(texts(top))
    own, fields = set(), set()
    for path, text in files:
        if kind(path) in ("laws", "proof"):
            own |= set(DEFINED.findall(text)) - foreign(text, crates)
        if kind(path) == "laws":
            fields |= set(FIELD.findall(text))
    own |= fields
    if "--list" in sys.argv[1:]:
        for name in sorted(own):
            print(name, spelled(name), "field" if name in fields else "")
        return
    for path, text in files:
        new = turned(path, text, own, fields, crates)
        if new != text:
            with open(path, "w", encoding="utf-8") as opened:
                opened.write(new)


main()
