#!/usr/bin/env python3
"""Spell this repository's own definitions and lemmas as today's Rattle spells its own: words in snake case.

usage: python3 tools/spelling.py [FOLDER]      once, at the top of a tree on which the kit's port script was run

A definition `storedAfter` becomes `stored_after`; a lemma or a field `read-back` becomes `read_back`, or `read_back_lem`
where a definition has that name. Functions of src/, strings, inputs and outputs keep their names. What a comment says is
turned where it names a definition. Names that Rattle makes, and the library's, are not touched.
"""
import os
import re
import sys

WORD = re.compile(r"(?<![A-Za-z0-9_'-])[A-Za-z][A-Za-z0-9_']*(?:-[A-Za-z0-9_']+)*")
CAMEL = re.compile(r"^[a-z][a-z0-9]*(?:[A-Z][A-Za-z0-9]*)+'?$")
DASHED = re.compile(r"(?m)^\s*(?:(?:abbrev|unfoldable|pub|constructor) )*([A-Za-z][A-Za-z0-9_']*(?:-[A-Za-z0-9_']+)+)(?: [a-z]+)* :")
COMMENT = re.compile(r"^\s*(--|//)")
# lemmas that the port script had spelled already, as a definition is spelled now
SPELLED = {"rules/proofs/History.antt": {"goes_on": "goes_on_lem"}}
TAKEN = {"word-bytes": "word_bytes_lem"}


def files(root):
    for folder, inside, names in os.walk(os.path.join(root, "crates")):
        inside[:] = sorted(x for x in inside if x != "out")
        for name in sorted(names):
            if name.endswith((".antt", ".rt", ".edit")):
                yield os.path.join(folder, name)


def snake(word):
    return re.sub(r"(?<=[a-z0-9])(?=[A-Z])", "_", word).lower()


def turned(line, camel, dashed, own, kind):
    def turn(m):
        word = m.group(0)
        if word in camel:
            return camel[word]
        if kind == "text":
            return word
        return own.get(word, dashed.get(word, word))

    return WORD.sub(turn, line)


def main(root):
    text = {}
    for path in files(root):
        with open(path, encoding="utf-8") as f:
            text[path] = f.read()
    camel, dashed = {}, {}
    for path, t in text.items():
        if not path.endswith(".antt"):
            continue
        code = "\n".join(line for line in t.split("\n") if not COMMENT.match(line))
        camel.update((w, snake(w)) for w in WORD.findall(code) if CAMEL.match(w))
        if "/specs/" in path or re.search(r"/proofs/[^/]*\.antt$", path):
            dashed.update((w, w.replace("-", "_")) for w in DASHED.findall(code))
    words = set(camel.values())
    dashed = {w: n + "_lem" if n in words else n for w, n in dashed.items()} | TAKEN
    for path, t in text.items():
        own = next((names for end, names in SPELLED.items() if path.endswith(end)), {})
        lines = []
        for line in t.split("\n"):
            code = path.endswith(".antt") and not COMMENT.match(line) or re.match(r"(old|new): ", line)
            lines.append(turned(line, camel, dashed, own, "code" if code else "text"))
        said = "\n".join(lines)
        if said != t:
            with open(path, "w", encoding="utf-8") as f:
                f.write(said)
    print(f"{len(camel)} definitions, {len(dashed)} lemmas and fields")


main(sys.argv[1] if len(sys.argv) > 1 else ".")
