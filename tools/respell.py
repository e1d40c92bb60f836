#!/usr/bin/env python3
"""Spells this repository's own definitions and lemmas as today's Rattle does: words in snake case, and a dash only where it joins two names.

usage: tools/respell.py           every .antt and .rt file of crates/, once, right after the kit's port.py
       tools/respell.py FILE..    these files, by the names of crates/ as they stand; in a page only what stands in backquotes
       tools/respell.py --table   what a dash becomes

    --root FOLDER before these takes another checkout.
"""
import os
import re
import sys

TOKEN = re.compile(r"[^\s(){}.;,@\"«»:◌]+")
DECLARED = re.compile(r"(?m)^ *(?:(?:pub|abbrev|unfoldable|pattern) )*([^\s(){}.;,@\"«»:◌]+)(?: \{[^{}\n]*\})? :(?!:)")
# Words of std that lemmas of ours are about.
STD = set("length take drop append map set not has sum refl sym true false suc zero get_or and or".split())
# Words that hang on a name and are none.
PLAIN = set("a after all and at back before both by each end first from in into is last left least many more most new next no none of off old on one or other others out same so some that the then there to too up with".split())
# Lemmas that a definition falls together with once it is in snake case.
LEMMAS = set("all_same all_yes fields_in goes_on".split())


def files(root):
    for folder, dirs, names in os.walk(os.path.join(root, "crates")):
        dirs[:] = sorted(d for d in dirs if d not in ("out", "must-fail", "data"))
        for n in sorted(names):
            if n.endswith((".antt", ".rt")):
                yield os.path.join(folder, n)


def snake(word):
    if not re.match(r"[a-z]", word):
        return word
    return re.sub(r"(?<=[a-z0-9_])[A-Z]+", lambda m: "_" + m[0].lower(), word)


def camel(name):
    return "-".join(snake(it) for it in name.split("-"))


def table(root):
    declared, words, words_of_specs = set(), set(STD), set()
    for p in files(root):
        if not p.endswith(".antt"):
            continue
        text = open(p, encoding="utf-8").read()
        here = {camel(it) for it in DECLARED.findall(text)}
        if os.sep + "proofs" + os.sep in p and p.count(os.sep, p.index(os.sep + "proofs" + os.sep) + 8):
            continue
        declared |= here
        if os.sep + "specs" + os.sep in p:
            words_of_specs |= {it for it in here if "-" not in it}
    words |= {it for it in declared if "-" not in it}
    words -= PLAIN
    rows = {}
    for name in sorted(it for it in declared if "-" in it):
        parts, at, out = name.split("-"), 0, []
        while at < len(parts):
            for end in range(len(parts), at, -1):
                one = "_".join(parts[at:end])
                if one in words or end == at + 1:
                    break
            out.append((one, one in words or one[:1].isupper()))
            at = end
        new = out[0][0]
        for (one, known), (_, before) in zip(out[1:], out):
            new += ("-" if known and before else "_") + one
        if new in {camel(it) for it in words_of_specs}:
            new += "_lem"
        if new != name:
            rows[name] = new
    return rows


def turned(text, rows, kind):
    code = kind == ".rt"
    if kind == ".md":
        return re.sub(r"`[^`\n]*`", lambda m: "`" + turned(m[0][1:-1], rows, "") + "`", text)

    def one(m):
        name = m[0]
        # A name that Rattle makes of a function stands behind a step of the code, as in c.before.all-reads.
        of_code = re.search(r"(?:^|[^\w.-])[a-z][\w'-]*(?:\.[a-z][\w'-]*)*\.$", m.string[max(0, m.start() - 200) : m.start()])
        if name in LEMMAS and not code and not of_code:
            return name + "_lem"
        new = rows.get(camel(name), camel(name))
        return name if of_code and new.endswith("_lem") else new
    if not code:
        return TOKEN.sub(one, text)
    out = []
    for it in re.split(r'("(?:[^"\\\n]|\\.)*")', text):
        out.append(it if it[:1] == '"' else TOKEN.sub(one, it))
    return "".join(out)


def main():
    root = os.path.dirname(os.path.dirname(os.path.realpath(__file__)))
    if len(sys.argv) > 2 and sys.argv[1] == "--root":
        root = sys.argv[2]
        del sys.argv[1:3]
    rows = table(root)
    if sys.argv[1:] == ["--table"]:
        for it in sorted(rows.items()):
            print(*it)
        return
    for p in sys.argv[1:] or list(files(root)):
        old = open(p, encoding="utf-8").read()
        new = turned(old, rows, os.path.splitext(p)[1])
        if new != old:
            open(p, "w", encoding="utf-8").write(new)


main()
