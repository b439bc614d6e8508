#!/usr/bin/env python3
"""Prints what docs/DESIGN-PASS.md ends with: each function, clause, ghost item, definition and edit that changed, old and new.

    tools/design_changes.py OLD

OLD is a checkout of the commit in that page's first line. The comparison is by the kit's port/contracts.py, of which this prints every line.
"""
import json
import os
import shutil
import subprocess
import sys


def compare(old, new):
    kit = os.path.dirname(os.path.dirname(os.path.realpath(shutil.which("rt"))))
    script = os.path.join(kit, "port", "contracts.py")
    done = subprocess.run([sys.executable, script, old, new, "--json"], check=True, capture_output=True, text=True)
    return json.loads(done.stdout)


def one_line(text):
    return " ".join((text if isinstance(text, str) else " ".join(text)).split())


def clause(pair):
    name, words = pair
    return f"{name} {words}" if name else words


def changed_contract(place, gone_requires, gone_ensures, new_requires, new_ensures):
    yield f"contract of {place}"
    for sign, kind, clauses, others in (
        ("-", "requires", gone_requires, new_requires),
        ("-", "ensures", gone_ensures, new_ensures),
        ("+", "requires", new_requires, gone_requires),
        ("+", "ensures", new_ensures, gone_ensures),
    ):
        for pair in clauses:
            if pair not in others:
                yield f"    {sign} {kind} {clause(pair)}"


def lines(found):
    for key in ("crates", "functions", "with ensures"):
        yield f"{key}: {found[key][0]} -> {found[key][1]}"
    yield f"contracts the same: {found['contracts the same']}, changed {len(found['contracts changed'])}; signatures changed {len(found['signatures changed'])}"
    for key in ("ghost items and constants", "definitions", "tests", "edits and outputs"):
        part = found[key]
        yield f"{key}: {part['old']} -> {part['new']}: the same {part['same']}, changed {len(part['changed'])}, gone {len(part['gone'])}"
    for key in ("functions not found again", "ensures all gone", "fewer ensures", "more requires", "no longer pub", "a new Wait or Threads"):
        for place in found[key]:
            yield f"{key}: {place}"
    for place, old, new in found["signatures changed"]:
        yield f"signature of {place}"
        yield f"    - {old}"
        yield f"    + {new}"
    for change in found["contracts changed"]:
        yield from changed_contract(*change)
    for key in ("ghost items and constants", "definitions", "edits and outputs"):
        part = found[key]
        for gone in part["gone"]:
            yield f"{key}, gone: {' '.join(gone)}"
        for *place, old, new in part["changed"]:
            yield f"{key}: {' '.join(place)}"
            yield f"    - {one_line(old)}"
            yield f"    + {one_line(new)}"


if len(sys.argv) != 2:
    sys.exit(__doc__)
for line in lines(compare(sys.argv[1], os.path.join(os.path.dirname(os.path.abspath(__file__)), ".."))):
    print(line)
