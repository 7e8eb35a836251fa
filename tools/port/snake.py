#!/usr/bin/env python3
"""Brings the repository's own definitions, constructors, fields and lemmas to snake case: `insertCell-is` becomes `insert_cell-is`.

usage: python3 tools/port/snake.py [ROOT]          rewrites crates/ in place, once, after the kit's port.py
       python3 tools/port/snake.py --list [ROOT]   prints the table and the names that would fall together, and writes nothing

A name is turned where it is declared in an .antt file of the repository, begins with a small letter and has a capital further in; a type
keeps its capitals. It is turned as a whole word in .antt and .rt files and must-fail edits, comments too; in .rt files not in strings.
"""
import collections
import glob
import os
import re
import sys

WORD = re.compile(r"[^\s(){}\[\],;.:|=\"`«»@&*!<>/]+")
HEAD = re.compile(r"^(?:(?:unfoldable|abbrev|pub|private|data|record|mutual|pattern) )*([^\s:(){}\[\]]+) *(.*)$")
INNER = re.compile(r"^ +(?:(?:unfoldable|abbrev|pub) )*([^\s:(){}\[\]=]+)(?: \{[^}]*\})* : ")
NOT_A_DECLARATION = re.compile(r"^(use|--|mod|open|infix|infixl|infixr|unfolding|module|pub mod|pub use)\b")
FIELD = re.compile(r"^  (?:pub )?((?:[^\s:(){}]+ )+):")


def declared(text):
    """The names that an .antt file declares: at the left edge, and the constructors and fields of its data and records."""
    block = False
    for line in text.split("\n"):
        if re.match(r"^\S", line):
            m = HEAD.match(line)
            block = bool(re.match(r"^(?:abbrev |pub |unfoldable )*(?:data|record) ", line))
            if m and not NOT_A_DECLARATION.match(line) and (m.group(2).startswith(":") or block):
                yield m.group(1)
        elif block:
            m = FIELD.match(line)
            if m:
                yield from m.group(1).split()
        else:
            # in a module with parameters, or below `where`
            m = INNER.match(line)
            if m:
                yield m.group(1)


def snake(name):
    """Small letters and underscores, in each part between dashes that begins with a small letter; a run of capitals stays one word."""
    parts = [p if p[:1].isupper() else re.sub(r"(?<=[a-z0-9₀-₉])([A-Z]+)", lambda m: "_" + m.group(1).lower(), STD.get(p, p)) for p in name.split("-")]
    return "-".join(parts)


# what std calls these today, in the name of a lemma
STD = {"getD": "get_or"}


def paths(root):
    for kind in ("specs/**/*.antt", "proofs/**/*.antt", "src/**/*.rt", "must-fail/*.edit"):
        for p in sorted(glob.glob(os.path.join(root, "crates/*", kind), recursive=True)):
            if "/out/" not in p:
                yield p


def table(root):
    names = set()
    for p in paths(root):
        if p.endswith(".antt"):
            names.update(declared(open(p, encoding="utf-8").read()))
    turned = {n: snake(n) for n in names if not n[0].isupper() and snake(n) != n}
    for n, to in EXCEPTIONS.items():
        if n in turned:
            turned[n] = to
    return names, turned


# A lemma or constructor that already has the name that a definition gets here: "a lemma that would have its function's name gets `_lem`".
LEMMAS = {
    "all_in": ("all_in_lem", "keeps/specs sparse_test/specs simplex/specs/bridge"),
    "all_shown": ("all_shown_lem", "steps/specs/ReadBack.antt"),
    "cells_fit": ("cells_fit_lem", "sparse_test/specs/WrittenReads.antt"),
    "goes_on": ("goes_on_lem", "reader/specs/Ends.antt reader/specs/second/Ends.antt"),
    "gone_of": ("gone_of_lem", "sparse_test/specs/Meant.antt"),
    "is_digit": ("is-digit", "grammar/specs/Reach.antt grammar/specs/Begun.antt"),
    "line_reply": ("line_reply_lem", "session/specs/Calls.antt"),
    "not_finite": ("broken_write", "run/proofs/stall/Turns.antt"),
    "open_by": ("open_by_lem", "sparse_test/specs/Open.antt sparse_test/proofs/tableau/keys_fit"),
    "other_place": ("other_place_lem", "sparse/specs/Elements.antt sparse/specs/ReadBack.antt sparse_test/specs/WrittenReads.antt"),
    "row_count": ("row_count_lem", "optimising/specs/suggestion/Shifts.antt sparse_test/specs/Meant.antt"),
    "same_key": ("same_key_lem", "run/specs/Perm.antt run/specs/Refit.antt"),
    "scaled_value": ("scaled_value_lem", "rows/specs/Table.antt rows/proofs/row/scale_at"),
}

# `first_of` is one of the language's tactics; `place_at` is a lemma of rows.
EXCEPTIONS = {
    "firstOf": "is_first_of",
    "placeAt": "place_byte",
}


def turn(text, turned):
    return WORD.sub(lambda m: turned.get(m.group(0), m.group(0)), text)


def turn_code(text, turned):
    """As turn, but strings stay."""
    return "".join(part if i % 2 else turn(part, turned) for i, part in enumerate(re.split(r'("(?:[^"\\\n]|\\.)*")', text)))


def lemmas(path):
    """The names of LEMMAS that stand in this file."""
    return {n: to for n, (to, where) in LEMMAS.items() if any(f"/crates/{w}" in "/" + path for w in where.split())}


def main(argv):
    only = "--list" in argv
    root = ([a for a in argv if not a.startswith("--")] + ["."])[0]
    names, turned = table(root)
    if only:
        back = collections.defaultdict(list)
        for n, to in sorted(turned.items()):
            back[to].append(n)
        for to, ns in sorted(back.items()):
            if len(ns) > 1:
                print("two names:", to, ns)
        met = collections.defaultdict(set)
        for p in paths(root):
            words = set(WORD.findall(open(p, encoding="utf-8").read()))
            for n in words & turned.keys():
                if turned[n] in words and turned[n] not in lemmas(p):
                    met[n].add(p)
        for n, ps in sorted(met.items()):
            print("met:", n, turned[n], turned[n] in names, len(ps), sorted(ps)[:4])
        print(len(turned), "names")
        return
    for p in paths(root):
        text = open(p, encoding="utf-8").read()
        new = turn(text, turned | lemmas(p)) if p.endswith(".antt") else turn_code(text, turned)
        if new != text:
            open(p, "w", encoding="utf-8").write(new)


if __name__ == "__main__":
    main(sys.argv[1:])
