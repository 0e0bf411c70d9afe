#!/usr/bin/env python3
"""Holds every definition of specs/ to a contract: python3 tools/reached.py, from the root.

A statement that no function's contract names may stay unproved, and a definition that none names is one that nobody has to believe.
So each name that a specs/ declares has to be reached from a clause of some function, or from a ghost field or member of a type, by name and through
the definitions of specs/. What is not is listed, and the exit status is 1. What serves proofs alone stands in proofs/.

It finds definitions that nothing leads to, and no clause that is missing where another function's names the same words; and it does not
tell a word that a clause concludes from one that it asks for.
"""

import collections
import glob
import os
import re
import sys

NAME = r"[^\s(){}.;,@\"«»\[\]\\:`|/]+"
WORD = re.compile(r"[^\s(){};,@\"«»\[\]\\`|]+")
COMMENT = re.compile(r"--[^\n]*")
USE = re.compile(r"(?m)^[ \t]*(?:ghost[ \t]+)?(?:pub[ \t]+)?use[ \t]+([^\s{;]+?)(?:\.\{([^}]*)\}|[ \t]+as[ \t]+(%s))?;?[ \t]*$" % NAME)
KIND = re.compile(r"^( *)((?:abbrev|unfoldable) )?(pub )?(record|data) (%s)(?=[ :(])" % NAME)
VALUE = re.compile(r"^( *)((?:abbrev|unfoldable) )?(pub )?((?:%s )+): " % NAME)
# The name of a field or of a constructor, which is no word of its type.
FIELD = re.compile(r"^ *(?:pub )?(?:%s )+: " % NAME)
CLAUSE = re.compile(r"\b(?:requires|ensures)\*?(?:\s+\w+)?\s*\{|\bghost\s+\w+\s*[:=]\s*\{")


class Module:
    """A file of specs/: what it declares, with the words that each declaration is made of, and what it imports."""

    def __init__(self, text):
        text = COMMENT.sub("", text)
        self.imports, self.aliases = imports(text)
        self.items = collections.OrderedDict()
        held, deep = [], None  # the names that the lines below belong to, and how far these are in
        shared = []  # the words of the module heads that are open, each with its depth
        for line in USE.sub("", text).split("\n"):
            if not line.strip():
                continue
            at = len(line) - len(line.lstrip())
            shared = [it for it in shared if it[0] < at]
            inside = deep is not None and at > deep
            head = None if inside else KIND.match(line) or VALUE.match(line)
            if head:
                if head.re is KIND:
                    held, deep = [head[5]], at
                else:
                    held, deep = head[4].split(), None
                for name in held:
                    # A name may be declared in several module heads: they are one here.
                    self.items.setdefault(name, set()).update(w for _, words in shared for w in words)
            elif not inside and line.lstrip().startswith("module "):
                held, deep = [], None
                shared.append((at, WORD.findall(line)))
                continue
            elif not inside:
                deep = None
            if inside:
                line = FIELD.sub("", line)
            for name in held:
                self.items[name].update(WORD.findall(line))


def imports(text):
    """Returns the module and the name there of each imported word, and the module of each alias."""
    names, aliases = {}, {}
    for module, listed, alias in USE.findall(text):
        if listed:
            for one in re.split(r",\s*", " ".join(listed.split())):
                name, _, other = one.partition(" as ")
                names[(other or name).strip()] = (module, name.strip())
        elif alias:
            aliases[alias] = module
    return names, aliases


def clauses(text):
    """Yields the text of each clause, and of each ghost field and member."""
    for m in CLAUSE.finditer(text):
        end, open_ = m.end(), 1
        while open_:
            open_ += {"{": 1, "}": -1}.get(text[end], 0)
            end += 1
        yield text[m.end() : end - 1]


def reached(modules, sources):
    """Returns the pairs of module and name that a clause leads to."""
    seen, todo = set(), []

    def go(words, names, aliases, here):
        for word in words:
            # A field of an imported word, or a word behind an alias.
            first, _, rest = word.partition(".")
            for name in (word, first):
                if name in names:
                    todo.append(names[name])
                elif here and name in modules[here].items:
                    todo.append((here, name))
            if first in aliases:
                todo.append((aliases[first], rest))

    for path in sources:
        with open(path, encoding="utf-8") as it:
            text = re.sub(r"(?m)//[^\n]*", "", it.read())
        names, aliases = imports("\n".join(line.rstrip(";") for line in text.split("\n") if line.lstrip().startswith("ghost use")))
        for clause in clauses(text):
            go(WORD.findall(clause), names, aliases, None)
    while todo:
        one = todo.pop()
        if one in seen or one[0] not in modules or one[1] not in modules[one[0]].items:
            continue
        seen.add(one)
        module = modules[one[0]]
        go(module.items[one[1]], module.imports, module.aliases, one[0])
    return seen


def main():
    modules, places = {}, {}
    for path in sorted(glob.glob("crates/*/specs/**/*.antt", recursive=True)):
        crate, file = re.fullmatch(r"crates/([^/]+)/specs/(.*)\.antt", path).groups()
        if file == "Lib":
            continue
        name = "Rattle.%s.specs.%s" % (crate, file.replace(os.sep, "."))
        with open(path, encoding="utf-8") as it:
            modules[name] = Module(it.read())
        places[name] = path
    seen = reached(modules, sorted(glob.glob("crates/*/src/**/*.rt", recursive=True)))
    left = [(places[m], name) for m, it in modules.items() for name in it.items if (m, name) not in seen]
    for path, name in left:
        print("%s: no contract reaches `%s`" % (path, name))
    total = sum(len(it.items) for it in modules.values())
    print("reached: %d of the %d definitions of specs/" % (total - len(left), total))
    sys.exit(1 if left else 0)


if __name__ == "__main__":
    main()
