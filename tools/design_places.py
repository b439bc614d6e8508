#!/usr/bin/env python3
"""Counts, for each point of docs/DESIGN-PASS.md, the places of the older language's forms in crates/*/src.

    tools/design_places.py [--list POINT] [FOLDER]

FOLDER is a checkout, this one by default. With --list the places of one point are printed.
"""
import collections
import glob
import os
import re
import sys

# Enums whose cases are the subject's own kinds or refusals, and not a value or none.
KINDS = {"Refusal", "Stop", "Rule", "Letter", "Heuristic", "Kind"}


def sources(top):
    for path in sorted(glob.glob(os.path.join(top, "crates/*/src/*.rt"))):
        yield os.path.relpath(path, top), open(path, encoding="utf-8").read()


def functions(text):
    """Yields name, parameters, result, clauses and body of each function."""
    for found in re.finditer(r"\bfn (\w+)(?:<[^(]*>)?\(", text):
        at, depth = found.end(), 1
        while depth:
            depth += {"(": 1, ")": -1}.get(text[at], 0)
            at += 1
        head = text[found.end():at - 1]
        opening = re.compile(r"(?:^\s*\{|\{)[ \t]*$", re.M).search(text, at)
        if not opening:
            continue
        between = text[at:opening.start()]
        end = re.compile(r"^ {0,4}\}", re.M).search(text, opening.end())
        yield found.group(1), head, between, text[opening.end():end.start() if end else len(text)]


def enums(top):
    for path, text in sources(top):
        for found in re.finditer(r"^(?:pub )?enum (\w+)", text, re.M):
            if found.group(1) not in KINDS:
                yield f"{path}: enum {found.group(1)}"


def flags(top):
    for path, text in sources(top):
        for found in re.finditer(r"^\s*(?:pub )?(\w+): bool,$", text, re.M):
            if found.group(1) != "by_hand":
                yield f"{path}: field {found.group(1)}: bool"
        for name, head, between, _ in functions(text):
            if "&mut" in head and re.match(r"\s*-> bool", between) and re.match(r"read|put", name):
                yield f"{path}: fn {name} fills what is lent and says so by a bool"


def numbers(top):
    for path, text in sources(top):
        for name, head, _, _ in functions(text):
            for word in re.findall(r"\b(rule|heuristic|number): usize", head):
                if word != "number" or name == "put_reason":
                    yield f"{path}: fn {name} takes {word} as a number"


def shape(body):
    body = re.sub(r"//.*", "", body)
    order = {}
    word = lambda m: order.setdefault(m.group(0), f"v{len(order)}")
    body = re.sub(r"\b[0-9][0-9_a-z]*\b", "N", body)
    body = re.sub(r"\bu(?:8|16|32|64|size)\b", "T", body)
    keep = r"\b(?!while\b|if\b|else\b|let\b|mut\b|return\b|match\b|for\b|in\b|N\b|T\b|true\b|false\b|len\b)[A-Za-z_]\w*\b"
    return re.sub(r"\s+", " ", re.sub(keep, word, body)).strip()


def twins(top):
    shapes = collections.defaultdict(list)
    for path, text in sources(top):
        for name, _, _, body in functions(text):
            form = shape(body)
            if len(re.findall(r"\w+", form)) >= 14:
                shapes[form].append(f"{path}: fn {name}")
    for places in shapes.values():
        if len(places) > 1:
            yield " = ".join(places)


def loops(top):
    for path, text in sources(top):
        for line, words in enumerate(text.split("\n"), 1):
            if re.match(r"\s*(while |loop \{)", words):
                yield f"{path}:{line}: {words.strip()}"


HAND = r"\bfn (?:same|same_bytes|same_slots|larger|copy|fill|clear_front|put_front|all_are|wide|long|packed|not_none|byte)\b|\bfn (?:number|rule_of|heuristic_of)\((?:rule|number|name)\b"


def by_hand(top):
    for path, text in sources(top):
        for line, words in enumerate(text.split("\n"), 1):
            if re.search(HAND, words):
                yield f"{path}:{line}: {words.strip()}"


def facts(top):
    where = collections.defaultdict(set)
    for path, text in sources(top):
        for name, _, between, _ in functions(text):
            for clause in re.findall(r"requires(?: \w+)? \{ (.*) \}", between):
                for fact in re.split(r" × ", clause):
                    where[fact.strip("() ")].add(f"{path}: {name}")
    for fact, places in sorted(where.items(), key=lambda item: -len(item[1])):
        if len(places) >= 3:
            yield f"{len(places)} functions require {fact}"


def together(top):
    where = collections.defaultdict(set)
    for path, text in sources(top):
        for name, head, _, _ in functions(text):
            words = re.findall(r"(\w+): ", head)
            for size in (3, 4, 5):
                for at in range(len(words) - size + 1):
                    where[tuple(words[at:at + size])].add(f"{path}: {name}")
    often = {group: places for group, places in where.items() if len(places) >= 3}
    for group, places in sorted(often.items(), key=lambda item: -len(item[1])):
        if not any(set(group) < set(other) and len(often[other]) == len(places) for other in often):
            yield f"{len(places)} functions take {', '.join(group)}"


def buffers(top):
    for path, text in sources(top):
        for line, words in enumerate(text.split("\n"), 1):
            if re.search(r"let mut \w+ = \[[^;\]]+; \d+\]", words):
                yield f"{path}:{line}: {words.strip()}"
            if re.match(r"\s+(?:pub )?\w+: \[\w+; \d+\],", words):
                yield f"{path}:{line}: {words.strip()}"


def switches(top):
    for path, text in sources(top):
        for name, head, _, body in functions(text):
            if "by_hand: bool" in head and "if by_hand" in body:
                yield f"{path}: fn {name} switches on by_hand"
            if re.search(r"match kind \{", body):
                yield f"{path}: fn {name} switches on a kind"
            if len(re.findall(r"if (?:parts::same_bytes\(name|name ==)", body)) > 1:
                yield f"{path}: fn {name} switches on a name"


POINTS = [
    ("1 enums of the shape of Option or Result", enums),
    ("1 flags with a value beside them", flags),
    ("1 numbers for kinds", numbers),
    ("2 functions of one shape", twins),
    ("3 loops by while or loop", loops),
    ("4 equality, copying and conversion by hand", by_hand),
    ("5 facts required by three functions or more", facts),
    ("5 parameters that travel together", together),
    ("6 fixed buffers", buffers),
    ("7 switches", switches),
]


def main(words):
    wanted = None
    if words[:1] == ["--list"]:
        wanted, words = words[1], words[2:]
    top = words[0] if words else os.path.join(os.path.dirname(__file__), "..")
    for title, count in POINTS:
        places = list(count(top))
        if wanted is None:
            print(f"{len(places):4} {title}")
        elif title.startswith(wanted):
            print(title)
            for place in places:
                print(f"  {place}")


main(sys.argv[1:])
