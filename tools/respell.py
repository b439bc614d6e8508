#!/usr/bin/env python3
"""Respells this repository's own names as today's Rattle has them: a dash between words becomes `_`, and a type has no dash.

usage: python3 tools/respell.py        at the top of the repository, once, right after the kit's port.py

Only words of the repository's own specs/ and proofs/ are turned; what a file takes from the kit's library keeps its spelling.
Two names that would fall together are told apart by CLASHES. Code, strings, exported names and the text of comments stay.
"""

import glob
import re

WORD = re.compile(r"[^\s(){}\[\].;,«»`:]+")
USE = re.compile(r"((?:ghost )?use )([^\s{]+?)\.\{([^}]*)\}", re.S)
OWN = re.compile(r"Rattle\.(?!std\.)")
JOINED = re.compile(r"[A-Za-z0-9'ᴰ]-[A-Za-z0-9]")
# Names of the library that are only reached through their type, and names that would fall together with another or that are types.
LIBRARY = {"not-nil"}
CLASHES = {"place-of": "place_of_code", "Added-all": "AddedAll", "Judged-bad": "JudgedBad", "Numbers-of": "numbers_of", "Finished-from": "finished_from"}


def code(text):
    """The lines of a text that are no comments."""
    return "\n".join(line for line in text.split("\n") if not line.lstrip().startswith(("--", "//")))


def own_words(files, everything):
    """The words with a dash that the definitions and lemmas have of their own."""
    library = set(LIBRARY)
    for path in everything:
        for _, module, items in USE.findall(open(path).read()):
            if not OWN.match(module):
                library |= {item.split(" as ")[0].strip().strip("«»") for item in items.split(",")}
    words = set()
    for path in files:
        text = USE.sub(lambda m: m.group(3) if OWN.match(m.group(2)) else "", code(open(path).read()))
        words |= {w for w in WORD.findall(text) if JOINED.search(w)}
    return words - library


def quoted_words(sources):
    """The words with a dash that a source quotes: what it calls a definition in its contracts."""
    return {w for path in sources for w in re.findall(r"«([^»]*)»", open(path).read()) if JOINED.search(w)}


def respelled(word):
    return CLASHES.get(word, word.replace("-", "_"))


def turn(text, words):
    text = WORD.sub(lambda m: respelled(m.group(0)) if m.group(0) in words else m.group(0), text)
    return re.sub(r"«([a-z0-9_']+)»", lambda m: m.group(1) if m.group(1) not in ("data", "record", "open", "in", "as", "let", "use", "mod", "where", "module", "type") else m.group(0), text)


def main():
    antt = sorted(glob.glob("crates/*/**/*.antt", recursive=True))
    rt = sorted(glob.glob("crates/*/src/**/*.rt", recursive=True))
    edits = sorted(glob.glob("crates/*/must-fail/*.edit"))
    lemmas = [p for p in antt if "/specs/" in p or p.count("/") == 3]
    words = own_words(lemmas, antt + rt) | quoted_words(rt)
    for path in antt + rt + edits:
        old = open(path).read()
        lines = old.split("\n")
        new = "\n".join(line if line.lstrip().startswith(("--", "//")) else turn(line, words) for line in lines)
        if new != old:
            open(path, "w").write(new)
    # A page may name what port.py respelled too: a word that is no file and that stands in the tree with `_`.
    known = {w for path in antt for w in WORD.findall(open(path).read())}
    for path in sorted(glob.glob("docs/**/*.md", recursive=True)) + ["README.md", "CONTRIBUTING.md", ".ci/asking"]:
        old = open(path).read()
        named = words | {w for w in re.findall(r"[a-z][a-z0-9']*(?:-[a-z0-9']+)+", old) if w.replace("-", "_") in known}
        new = re.sub(r"`([^`\n]+)`", lambda m: "`" + turn(m.group(1), named) + "`", old)
        if new != old:
            open(path, "w").write(new)
    print(f"{len(words)} words respelled")


main()
