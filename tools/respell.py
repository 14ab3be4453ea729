#!/usr/bin/env python3
"""Respells the repository's own definitions and lemmas: words in snake case, types in camel case.

usage: python3 tools/respell.py        once, at the top, after port.py

A name is respelled where a file of specs/ or proofs/ defines it. A name that a file imports from elsewhere is left in that file.
Functions of src/, outputs and inputs keep their names. It prints each name with its new spelling, and names that fall together.
"""

import os
import re
import subprocess

WORD = r"[^\W\d][\w'-]*"
# Turned by port.py already, since a library spells them so: only pages still have the old spelling.
TURNED = """after-look all-fit all-here all-room and-assoc and-fact as-bits as-read at-last at-more at-position bind-all body-more
body-ok body-reads cell-same cells-same compares-decides cond-more cut-on cut-short entry-of every-append fact-small filled-more
first-taken first-word fit-at fit-length fit-next fit-parts fits-head fits-in fits-kept fits-wider front-at front-length guard-all
guard-ok has-all has-more head-ok held-at held-below held-one held-place in-table inv-new is-call kept-more kindOf labels-apart
last-more later-same length-at length-without list-full met-next name-in no-number no-ok no-place none-has none-left none-only
nth-after nth-drop nth-end nth-in nth-last nth-left nth-right one-each one-lane one-more one-of one-place own-at own-back own-same
parts-all parts-more parts-none past-all payload-lt placed-one places-of puts-none puts-one read-done read-off readBody readHead
readParts ready-moved room-next run-wider same-at same-kind set-agrees signed-back small-at some-at some-more sound-more stop-is
sum-more table-same take-counting take-found take-min take-nth take-past taken-more taken-places test-at then-ok too-few too-long
took-it whole-length word-value wordAt wordsIn wordsOf wrong-word parts-at""".split()

# A lemma beside the definition that it is about: it keeps the name, with an ending.
BESIDE = "body-rest guard-rest head-rest count-in label-in rule-size test-number".split()
# The same where port.py turned the lemma: only in these files.
BESIDE_IN = {"name_in": "crates/grammar/proofs/", "test_at": "crates/grammar/proofs/"}


def files(*ends):
    said = subprocess.run(["git", "ls-files", "-co", "--exclude-standard"], capture_output=True, text=True, check=True).stdout.split("\n")
    return [f for f in said if f.endswith(ends) and os.path.exists(f)]


def read(path):
    with open(path, encoding="utf-8") as f:
        return f.read()


def snake(part):
    return re.sub(r"(?<=[a-z0-9])([A-Z])", lambda m: "_" + m.group(1).lower(), part)


def respelled(name, is_type):
    parts = name.split("-")
    if is_type:
        return "".join(p[:1].upper() + p[1:] for p in parts)
    if name[0].isupper():
        return name
    parts = [p if p[:1].isupper() else snake(p).replace("get_d", "get_or") for p in parts]
    return ("-" if any(p[:1].isupper() for p in parts) else "_").join(parts)


def defined(path):
    """The names that a file defines, each with whether it is a type."""
    text = read(path)
    for m in re.finditer(rf"(?m)^ *(?:pub |open |abbrev |unfoldable )*(record|data) ({WORD})", text):
        yield m.group(2), True
    for m in re.finditer(rf"(?m)^( *)(?:pub |abbrev |unfoldable )*({WORD}) :(?!:)\s*(.*(?:\n\1 +[^\n]*)*)", text):
        name, of = m.group(2), m.group(3)
        if re.match(r"(goal|need|given|choice)\.", of) or name[0] == "_":
            continue
        yield name, bool(re.search(r"Type 0\s*$", of)) and name[0].isupper()


def imports(text):
    """The names that a file brings in from a library."""
    for m in re.finditer(r"use (?!Rattle\.)[\w.'-]+\.\{([^}]*)\}|use Rattle\.std\.[\w.'+-]+\.\{([^}]*)\}", text):
        for n in (m.group(1) or m.group(2)).split(","):
            yield n.strip().split(" as ")[-1].strip()


def main():
    names = {}
    for path in files(".antt"):
        for name, is_type in defined(path):
            new = respelled(name, is_type)
            if name in BESIDE:
                new += "_lem"
            if new != name:
                names[name] = new
    used = set()
    sources = files(".antt", ".rt")
    for path in sources:
        used |= set(re.findall(WORD, read(path)))
    for name, new in sorted(names.items()):
        print(f"{name} {new}" + ("   FALLS TOGETHER" if new in used or list(names.values()).count(new) > 1 else ""))
    pages = [f for f in files(".md") if f != "docs/PORT.md"]
    for path in sources + files(".edit") + pages:
        old = text = read(path)
        own = dict(names)
        if path in pages:
            own |= {n: respelled(n, False) for n in TURNED}
        else:
            for n in imports(text):
                own.pop(n, None)
            own |= {n: n + "_lem" for n, where in BESIDE_IN.items() if path.startswith(where)}
        longest = sorted(own, key=len, reverse=True)
        rule = re.compile(r"(?<![\w'-])(" + "|".join(map(re.escape, longest)) + r")(?![\w'-])")
        if path in pages:
            text = re.sub(r"`[^`\n]*`", lambda m: rule.sub(lambda k: own[k.group(1)], m.group(0)), text)
        else:
            text = rule.sub(lambda k: own[k.group(1)], text)
        if text != old:
            with open(path, "w", encoding="utf-8") as f:
                f.write(text)


main()
