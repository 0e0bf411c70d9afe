#!/usr/bin/env python3
"""Brings the repository's own definitions and lemmas to the spelling of Rattle's guides, once, after port.py.

usage: python3 tools/spell.py            at the top of the repository

A word is in snake case: `firstFrom` is `first_from`, `seek-found` is `seek_found`. A dash stays where it joins two names, as in
`rank-suc`. It goes by tokens, in specs/ and proofs/ and in the clauses and `ghost` lines of src/. Functions of src/, exported names, strings, inputs and outputs stay as they are. Names that would fall
together are spelled by AGREED.
"""

import collections
import glob
import os
import re
import subprocess
import sys

TOKEN = re.compile(r"[^\s(){}.;,@\"«»\[\]\\:`|/]+")
# A comment of antt, or a token.
PIECE = re.compile(r"--[^\n]*|" + TOKEN.pattern)
DECLARED = re.compile(r"(?m)^\s*(?:(?:abbrev|unfoldable|pub)\s+)*(%s)(?: %s)* :(?= |\n)(?!\s*tie\.|\s*\{M : Type 1\}|\s*\{ℓ)" % (TOKEN.pattern, TOKEN.pattern))
DEFINED = re.compile(r"(?m)^\s*(?:abbrev|unfoldable) (?:pub )?([a-z]%s) :" % TOKEN.pattern)
BOUND = re.compile(r"\blet (%s) (?::|=)" % TOKEN.pattern)
USE = re.compile(r"(?m)^\s*(?:ghost )?(?:unfoldable )?(?:pub )?use ([^\s{;]+?)\.?\{([^}]*)\}")
# What a dash may join: words of the library that lemmas are named after, beside the definitions of specs/.
OF_LIBRARY = set("zero suc length append take drop cons replicate".split())
# Names that would be another's.
AGREED = {
    "atMark": "step_at_mark",
    "byte-nibbles": "byte_nibbles_lem",
    "entry-by": "entry_by_lem",
    "entry-of": "entry_of_lem",
    "hint-at": "hint_at_lem",
    "inventory-left": "inventory_left_lem",
    "lane-of": "lane_of_lem",
    "mark-number": "mark_number_lem",
    "nan-bits": "nan_bits_lem",
    "of-fields": "of_fields_lem",
    "own-cells": "own_cells_lem",
    "same-list": "same_list_lem",
    "single-words": "single_words_lem",
    "small-m": "small_m_lem",
    "spill-in": "spill_in_lem",
    "spill-left": "spill_left_lem",
    "spilled-by": "spilled_by_lem",
    "step-of": "step_of_lem",
    "taken-off": "taken_off_lem",
    "word-seek-found": "word_seek_found",
    "word-bytes": "word_bytes_lem",
}
# The same within one file, where the name is no field.
AGREED_IN = {
    "crates/index_image/proofs/Formed.antt": {"header_of": "header_of_lem"},
    "crates/read_inventory/proofs/Reading.antt": {"spot_in": "spot_in_lem"},
    "crates/edge_index/proofs/Lists.antt": {"step_by": "step_by_lem"},
}
# Goals, which Rattle names.
GOAL = re.compile(r"returns(-\d+)?|invariant-loop|decreases-loop")
# Another name for a definition, in a source or a proof.
OTHER = re.compile(r" as ([a-z]\w*[A-Z]\w*)(?=[,}])")


def read(path):
    with open(path, encoding="utf-8") as it:
        return it.read()


def antt():
    return sorted(glob.glob("crates/*/specs/**/*.antt", recursive=True) + glob.glob("crates/*/proofs/**/*.antt", recursive=True))


def rust():
    return sorted(glob.glob("crates/*/src/**/*.rt", recursive=True))


def no_comments(text):
    return re.sub(r"--[^\n]*", "", text)


def snake(name):
    return re.sub(r"(?<=[a-z0-9])(?=[A-Z])", "_", name).lower() if re.match(r"[a-z]", name) and re.search(r"[A-Z]", name) and "-" not in name else name


def new_name(name, words):
    if name in AGREED:
        return AGREED[name]
    parts = [snake(it) for it in name.split("-")]
    out, last = parts[0], name.split("-")[0]
    for old, part in zip(name.split("-")[1:], parts[1:]):
        joins = (last in words) and (old in words)
        out += ("-" if joins else "_") + part
        last = old
    return out


def plan():
    """Returns the new spelling of each name, and the names that fall together."""
    own, specs, lib, seen = collections.OrderedDict(), set(OF_LIBRARY), set(), set()
    for path in antt():
        text = no_comments(read(path))
        seen |= set(TOKEN.findall(text))
        for module, names in USE.findall(text):
            if not re.match(r"Rattle\.(?!std\b)", module):
                lib |= {it for one in re.split(r",\s*", names) for it in re.split(r" as ", one.strip())}
        for name in DECLARED.findall(text):
            own[name] = True
        if "/specs/" in path:
            specs |= set(DEFINED.findall(text))
        for name in BOUND.findall(text):
            own[name] = True
    aliases = {n for path in antt() for n in re.findall(r"\blet (%s)(?: :[^=]*)? = (?:c|at[-_][\w-]+)(?:\.before)*(?= in)" % TOKEN.pattern, read(path))}
    renamed = {}
    for name in own:
        if name in lib or name in aliases or GOAL.fullmatch(name) or not re.match(r"[a-z]", name):
            continue
        new = new_name(name, specs)
        if new != name:
            renamed[name] = new
    for path in antt() + rust():
        for name in OTHER.findall(read(path)):
            renamed[name] = own[name] = snake(name)
        for name in re.findall(r" as (\w+·v)(?=\n|;)", read(path)):
            renamed[name] = name.replace("·v", "Variants")
    back = collections.defaultdict(set)
    for name in list(own) + sorted(lib):
        back[renamed.get(name, name)].add(name)
    apart = {it for here in AGREED_IN.values() for it in here}
    together = {new: olds for new, olds in back.items() if len(olds) > 1 and new not in apart}
    taken = {new: old for old, new in renamed.items() if new in seen and new not in together}
    return renamed, together, taken


def by_token(text, renamed):
    return PIECE.sub(lambda m: renamed.get(m[0], m[0]), text)


def in_rust(text, renamed):
    """Turns the `ghost` lines and the clauses of a source."""
    out, at = [], 0
    for m in re.finditer(r"(?m)^[ \t]*ghost use [^\n]*$|^[ \t]*(?:requires|ensures)\*?(?: \w+)? \{", text):
        if m.start() < at:
            continue
        end = m.end()
        if text[end - 1] == "{":
            deep = 1
            while deep:
                deep += {"{": 1, "}": -1}.get(text[end], 0)
                end += 1
        out += [text[at : m.start()], by_token(text[m.start() : end], renamed)]
        at = end
    return "".join(out) + text[at:]


def main():
    renamed, together, taken = plan()
    if "--plan" in sys.argv:
        for old, new in sorted(renamed.items()):
            print(old, new)
        for new, olds in sorted(together.items()):
            print("TOGETHER", new, *sorted(olds))
        for new, old in sorted(taken.items()):
            print("TAKEN", new, old)
        return
    assert not together, together
    for path in antt():
        old = read(path)
        here = AGREED_IN.get(path, {})
        new = re.sub(r"(?<![.\w-])(%s)(?![\w-])" % "|".join(here), lambda m: here[m[1]], old) if here else old
        new = by_token(new, renamed)
        if new != old:
            open(path, "w", encoding="utf-8").write(new)
    for path in rust():
        old = read(path)
        new = in_rust(old, renamed)
        if new != old:
            open(path, "w", encoding="utf-8").write(new)
    for crate in sorted(glob.glob("crates/*")):
        if os.path.isdir(crate + "/src"):
            subprocess.run(["rt", "fmt"], cwd=crate, check=False, stdout=subprocess.DEVNULL)


if __name__ == "__main__":
    main()
