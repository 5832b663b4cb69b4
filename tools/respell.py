#!/usr/bin/env python3
"""Brings the definitions and lemmas of crates/ to the spelling of the library: types in camel case, all else in snake case.

    tools/respell.py          in the repository's top folder, once, right after the files were turned to this Rattle's forms
    tools/respell.py --list   prints the names and changes nothing

Names from src/, goals of proofs and their steps keep their spelling. OTHER has the names that would fall together with another one.
"""

import os
import re
import sys

OTHER = {
    "allOrNone": "all_letters_if",
    "all-or-none": "all_letters_if_where",
    "allWordly": "wordly_throughout",
    "avoidOf": "avoid_value",
    "bit-and": "bit_bit_and",
    "bit-or": "bit_bit_or",
    "everyLetter": "letters_over",
    "firstBeyond": "place_beyond",
    "getD-in": "get_or_in",
    "howMany": "set_count",
    "in-getD": "in_get_or",
    "isWord": "is_word_text",
    "last-met": "is_last_met_lem",
    "lastLetter": "state_letter",
    "lastMet": "is_last_met",
    "meaning-of": "meaning_of_lem",
    "noPair": "absent_pair",
    "tooDeep": "too_deep_at",
    "turnAfter": "next_turn",
    "turnsAfter": "next_turns",
    "visitOf": "visit_value",
}
TOKEN = re.compile(r"[^\s(){}\[\].,;|\"]+")
PLAIN = r"[A-Za-zα-ω][^\s:(){}.,\[\]|]*"
DECLARED = re.compile(rf"^\s*(?:abbrev pub |unfoldable pub |abbrev |unfoldable |pub )?({PLAIN})((?:\s+{PLAIN})*)\s:\s")


def files():
    for folder, dirs, names in os.walk("crates"):
        dirs[:] = sorted(d for d in dirs if d != "out")
        for name in sorted(names):
            if name.endswith((".rt", ".antt")):
                yield os.path.join(folder, name)


def is_answer(path):
    return "proofs" in path.split(os.sep) and os.path.basename(path) in ("Answers.antt", "Invariants.antt", "Proof.antt")


def read(path):
    with open(path, encoding="utf-8") as f:
        return f.read()


def respelt(name):
    if name in OTHER:
        return OTHER[name]
    return re.sub(r"([a-z0-9])([A-Z])", lambda m: m[1] + "_" + m[2].lower(), name.replace("-", "_")).lower()


def renamed():
    declared = set()
    for path in files():
        if path.endswith(".antt") and not is_answer(path):
            for line in read(path).splitlines():
                found = DECLARED.match(line)
                if found:
                    declared |= {found[1], *found[2].split()}
                derived = re.match(r"^\s*deriving \w+ as (\S+)", line)
                if derived:
                    declared.add(derived[1])
    return {n: respelt(n) for n in declared if not n[0].isupper() and n not in ("use",) and (n in OTHER or re.search(r"-|[a-z0-9][A-Z]", n))}


def turn(text, names, answer):
    def one(match):
        word = match[0]
        if word not in names:
            return word
        # in an answer a part of a path is a step or a clause of the code, but for the fields of records declared here
        if answer and match.start() and text[match.start() - 1] == "." and re.search(r"(?:^|[^\w'-])[cgw](?:\.[^\s(){}\[\],;|\"]*)?$", text[: match.start() - 1]) and "-" in word:
            return word if word not in FIELDS else names[word]
        return names[word]

    return TOKEN.sub(one, text)


def fields():
    found = set()
    for path in files():
        if path.endswith(".antt") and not is_answer(path):
            inside = None
            for line in read(path).splitlines():
                opened = re.match(r"^(\s*)(?:pub )?record \S", line)
                if opened:
                    inside = len(opened[1])
                elif line.strip() and inside is not None and len(line) - len(line.lstrip()) <= inside:
                    inside = None
                elif inside is not None:
                    field = DECLARED.match(line)
                    if field:
                        found.add(field[1])
    return found


FIELDS = fields()


def main(argv):
    names = renamed()
    if argv == ["--list"]:
        for old, new in sorted(names.items()):
            print(old, new)
        return
    if argv:
        sys.exit(__doc__)
    for path in files():
        text = read(path)
        other = turn(text, names, is_answer(path))
        if other != text:
            with open(path, "w", encoding="utf-8") as f:
                f.write(other)


main(sys.argv[1:])
