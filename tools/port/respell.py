#!/usr/bin/env python3
"""Spells this repository's own definitions, lemmas and fields as today's Rattle spells its own: snake case, with capitals for types and facts alone.

usage: respell.py [--check] ROOT

It goes over the .antt files below ROOT/crates, and over the clauses and `ghost use` items of the .rt files. A name turns if a file of this
repository declares it, or if it is in camel case and begins small, since no name of Rattle's own library is. A part that begins with a capital
is a type's or a fact's name and stays. Where two names would fall together, both stay and are shown. --check writes nothing.
"""

import os
import re
import sys

TOKEN = re.compile(r"[^\s(){}.;,@\"«»]+")
COMMENT = re.compile(r"--[^\n]*|\"(?:[^\"\\\n]|\\.)*\"")
DECLARED = re.compile(r"( *)((?:abbrev |unfoldable |pub |data |record )*)([^\s(){}:=]+)(.*)$")
CLAUSE = re.compile(r"(?:requires|ensures|ghost)\s*\*?\s*(?:\w+\s*)?(?::\s*|=\s*)?\{")
USE = re.compile(r"ghost\s+use\b[^;]*;")
# Walks of the code by hand, whose answers are named by Rattle.
WALK = re.compile(r"/proofs/.*/Proof(\.antt|/)")


def part(text):
    """A part of a name between dashes; one that begins with a capital is a fact's."""
    if not re.match(r"[a-z]", text):
        return text
    return re.sub(r"(?<=[a-z0-9])[A-Z](?![A-Z]|$)", lambda m: "_" + m[0].lower(), text)


def respelled(name):
    parts = name.split("-")
    out = part(parts[0])
    for before, after in zip(parts, parts[1:]):
        # a dash stays behind or before a capital, and where it is an operator's
        stays = not (re.match(r"[a-z]", before) or before[-1:].isalnum()) or not re.match(r"[a-z0-9']", after)
        stays = stays or before[:1].isupper() or not before
        out += ("-" if stays else "_") + part(after)
    return out


def files(root, ending):
    for folder, dirs, names in os.walk(os.path.join(root, "crates")):
        dirs[:] = sorted(d for d in dirs if d != "out")
        for name in sorted(names):
            if name.endswith(ending):
                yield os.path.join(folder, name)


def declared(text):
    for line in COMMENT.sub("", text).split("\n"):
        m = DECLARED.match(line)
        if m and re.match(r" :(?: |$)| [({].*? :(?: |$)", m[4]) and "=" not in m[4].split(" : ")[0]:
            yield m[3]


def tokens(text):
    return set(TOKEN.findall(COMMENT.sub("", text)))


def imported(text):
    """The names that a text has from another repository's modules."""
    own = "|".join(sorted(os.listdir(os.path.join(sys.argv[-1], "crates"))))
    for path, names in re.findall(r"\buse (\S+?)\.\{([^}]*)\}", COMMENT.sub("", text)):
        if not re.match(rf"Rattle\.({own})\.", path):
            yield from (n.strip().split(" as ")[0] for n in names.split(","))


def unqualified(text):
    """The names of a text that stand behind no dot, but for what a `use` line's path ends in."""
    text = COMMENT.sub("", text)
    paths = re.sub(r"\buse [^\s{;]+", "use ", text)
    return set(re.findall(r"(?<![^\s(){};,@])" + TOKEN.pattern, paths))


def turned(text, table):
    out, at = "", 0
    for m in COMMENT.finditer(text):
        out += TOKEN.sub(lambda t: table.get(t[0], t[0]), text[at : m.start()]) + comment(m[0], table)
        at = m.end()
    return out + TOKEN.sub(lambda t: table.get(t[0], t[0]), text[at:])


def comment(text, table):
    """In a comment a name in camel case or with an underscore to come is surely a name; a word with a dash may be prose."""
    return re.sub(r"[\w'-]+", lambda t: table.get(t[0], t[0]) if re.search(r"[a-z][A-Z]", t[0]) else t[0], text)


def closing(text, at):
    deep = 1
    while deep and at < len(text):
        deep += {"{": 1, "}": -1}.get(text[at], 0)
        at += 1
    return at


def clauses(text):
    """The spans of a .rt file that are antt."""
    for m in re.finditer(USE.pattern + "|" + CLAUSE.pattern, text):
        yield (m.start(), m.end()) if m[0].startswith("ghost") and "use" in m[0][:12] else (m.end(), closing(text, m.end()))


def main(args):
    root, check = args[-1], "--check" in args
    antt = [p for p in files(root, ".antt") if not WALK.search(p)]
    walks = [p for p in files(root, ".antt") if WALK.search(p)]
    source = list(files(root, ".rt"))
    read = {p: open(p, encoding="utf-8").read() for p in antt + walks + source}
    names = {n for p in antt for n in declared(read[p])}
    # a constructor, a field or a local stands in the text alone
    for p in antt:
        names |= {t for t in tokens(read[p]) if re.match(r"[a-z]\w*$", t) and re.search(r"[a-z0-9][A-Z]", t)}
    # a name of a library stays, also where a file of ours declares one like it
    names -= {n for p in antt + walks + source for n in imported(read[p])}
    table = {n: respelled(n) for n in names if respelled(n) != n}
    taken = {t for p in antt for t in unqualified(read[p])}
    for p in source:
        taken |= {t for a, b in clauses(read[p]) for t in unqualified(read[p][a:b])} | set(re.findall(r"\b(\w+): ", read[p]))
    # a lemma that would have its function's name gets _lem
    for name in sorted(names):
        new = table.get(name, name)
        functions = [n for n in table if table[n] == new and "-" not in n and n != name]
        functions += [n for n in names if n == new and n != name and "-" in name]
        if functions and (new in taken or "-" in name) and not re.search(r"[a-z0-9][A-Z]", name):
            table[name] = new + "_lem"
            print(f"lemma: {name} is {new}_lem beside {functions[0]}")
    goes = set(table)
    stay = {n for n in table if table[n] in taken - goes or any(table[m] == table[n] and m != n for m in table)}
    for name in sorted(stay):
        print(f"stays: {name}, since {table[name]} is another name")
    table = {n: new for n, new in table.items() if n not in stay}
    print(f"{len(table)} names turn, {len(stay)} stay")
    for p in antt + walks:
        new = turned(read[p], table)
        if new != read[p] and not check:
            open(p, "w", encoding="utf-8").write(new)
    for p in source:
        new, at = "", 0
        for a, b in clauses(read[p]):
            new += read[p][at:a] + turned(read[p][a:b], table)
            at = b
        new += read[p][at:]
        if new != read[p] and not check:
            open(p, "w", encoding="utf-8").write(new)


if __name__ == "__main__":
    main(sys.argv[1:])
