#!/usr/bin/env python3
"""Spells this repository's definitions and lemmas in snake case, as today's Rattle does: noRegion and print-slots become no_region and print_slots.

usage: tools/respell.py [--list] ROOT

Run once, right after port.py: it turns each name that a file of specs/ or proofs/ declares (a definition, a lemma, a field, a constructor, or what a
function's proof exports), wherever it stands in a file of specs/, proofs/ or src/. Types, modules, functions of src/ and strings keep their spelling.
Where a lemma would fall together with a definition or with another word of a file, it ends in _law.
It stops, and writes nothing, where two names would still be one. --list prints the names and writes nothing.
"""

import os
import re
import sys

NAME = r'[^\s(){}.;,@"«»]+'
WORD = re.compile(r'"(?:[^"\\]|\\.)*"|--[^\n]*|' + NAME)
CODE = re.compile(r'"(?:[^"\\]|\\.)*"|//[^\n]*|' + r"[^\s(){}\[\].;,@\"<>&*!?:|]+")
DECLARED = re.compile(rf"^\s*(?:(?:abbrev|unfoldable|pub|record|data) )*({NAME})(?: [({{][^(){{}}\n]*[)}}])* :(?: |$)", re.M)
DASH = re.compile(r"(?<=[\w'₀-₉])-(?=[\w'])")
HUMP = re.compile(r"(?<=[a-z0-9])[A-Z]")
USE = re.compile(r"^(?:pub |ghost )*use ([^\s{]+)\.\{([^}]*)\}", re.M)
# What the code of a function proves, and what Rattle calls it
MADE = re.compile(r"^(?:loop|returns|match|overflow|After|Need|Start)[\d-]|^(?:invariant|measure)-|^(?:if|then|else)\d")


def snake(name):
    if name[0].isupper():
        return name
    return HUMP.sub(lambda m: "_" + m[0].lower(), DASH.sub("_", name))


def texts(root, endings):
    for folder, dirs, files in os.walk(os.path.join(root, "crates")):
        dirs[:] = sorted(d for d in dirs if d != "out")
        for file in sorted(files):
            if file.endswith(endings):
                yield os.path.join(folder, file)


def read(path):
    with open(path, encoding="utf-8") as f:
        return f.read()


def declared(root):
    names = {}
    for path in texts(root, ".antt"):
        for name in DECLARED.findall(re.sub(r"--[^\n]*", "", read(path))):
            new = snake(name)
            if new != name and not MADE.match(name):
                names[name] = new
    return names


def alone(path):
    """The words of a file that stand behind no dot and before none."""
    text = re.sub(r"--[^\n]*", "", read(path))
    return {m[0] for m in WORD.finditer(text) if text[m.start() - 1 : m.start()] != "." and text[m.end() : m.end() + 1] != "."}


def apart(root, names):
    """Where two names would fall together, or one with a word that stands in one of its files, the lemma, which had dashes, ends in _law."""
    files = [alone(path) for path in texts(root, ".antt") if not path.endswith("ulavrepit_runs/Proof.antt")]
    spelled = {name for path in texts(root, ".antt") for name in DECLARED.findall(re.sub(r"--[^\n]*", "", read(path)))}
    defined = {new for old, new in names.items() if HUMP.search(old)}
    for old, new in list(names.items()):
        if old.endswith("-spec"):
            continue
        if "-" not in old and new in spelled:
            names[new] = new + "_law"
            continue
        if "-" in old and new in defined or any(old in words and new in words for words in files):
            names[old] = new + "_law"
    told, to = [], {}
    for old, new in names.items():
        if new in to or new not in names and any(new in words for words in files if old in words):
            told.append(f"{old} would be {new}, and so is {to.get(new, 'a word that stands there')}")
        to[new] = old
    return told


def brought(text, own):
    """The names that a file brings from a library that is not the repository's."""
    of_library = (m for m in USE.finditer(text) if m[1].split(".")[:2][-1] not in own)
    return {name.strip() for m in of_library for it in m[2].split(",") for name in it.split(" as ")}


def turned(text, names, own, word, comment):
    stays = brought(text, own)

    def one(m):
        w = m[0]
        if w.startswith('"'):
            return w
        if w.startswith(comment):
            return re.sub(r"[\w'-]+", lambda c: names.get(c[0], c[0]) if HUMP.search(c[0]) else c[0], w)
        if w in stays or w not in names or w == snake(w) and (comment == "//" or "." in (text[m.start() - 1 : m.start()], text[m.end() : m.end() + 1])):
            return w  # a function or a module of that name stays
        return names[w]

    return word.sub(one, text)


def main(args):
    root = args[-1]
    names = declared(root)
    told = apart(root, names)
    if "--list" in args:
        for old, new in sorted(names.items()):
            print(old, new)
        return 0
    if told:
        print("\n".join(told), file=sys.stderr)
        return 1
    own = set(os.listdir(os.path.join(root, "crates")))
    for path in texts(root, (".antt", ".rt")):
        old = read(path)
        new = turned(old, names, own, *((WORD, "--") if path.endswith(".antt") else (CODE, "//")))
        if new != old:
            with open(path, "w", encoding="utf-8") as f:
                f.write(new)
    print(f"{len(names)} names")
    return 0


if __name__ == "__main__":
    sys.exit(main(sys.argv[1:]))
