#!/usr/bin/env python3
"""Brings the definitions and lemmas of this repository to today's spelling: `checksOf` and `checks-of` to `checks_of`.

usage: tools/port_names.py        at the top, once, right after port.py

Types, modules and statements keep their capitals, operators their words, functions of src/ and exported names are left as they are. Names that would fall
together with another in a file are in OTHER. Comments of .antt and .rt files have the new names where they stand in back quotes or have a capital inside.
"""
import collections
import os
import re
import sys

OTHER = {
    "all-fit": "fits_all",
    "is-stored": "stored_here",
    "by-words": "merged_by_words",
    "is-used": "used_as",
    "dsmType": "dsm_type_of",
    "goes_on": "goes_on_lem",
    "kept_of": "kept_of_lem",
    "ecdsa-function": "ecdsa_function_is",
}
TOKEN = re.compile(r"[^\s(){};.,«»◌`\"]+")
SIGN = re.compile(r"^\s*(?:(?:abbrev|unfoldable|pub|private)\s+)*([a-z_][^\s:(){};.,◌]*)\s+:(?:\s+(.*))?$")


def files(ends, parts=("src", "specs", "proofs")):
    for c in sorted(os.listdir("crates")):
        for part in parts:
            for folder, dirs, names in os.walk(os.path.join("crates", c, part)):
                dirs.sort()
                for n in sorted(names):
                    if n.endswith(ends):
                        yield os.path.join(folder, n)


def read(p):
    with open(p, encoding="utf-8") as f:
        return f.read()


def snake(n):
    n = n.replace("-", "_")
    return re.sub(r"(?<=[a-z0-9])([A-Z])", lambda m: "_" + m[1].lower(), n)


def split(line, mark):
    """A line's code and its comment."""
    i = line.find(mark)
    while i > 0 and line[i - 1] not in " \t":
        i = line.find(mark, i + 1)
    return (line, "") if i < 0 else (line[:i], line[i:])


def declared():
    own, foreign = collections.defaultdict(set), set()
    for p in files(".antt", ("specs", "proofs")):
        text = read(p)
        for m in re.finditer(r"^use\s+([^\s{]+)\.\{([^}]*)\}", text, re.M):
            if not re.match(r"Rattle\.(%s)\." % "|".join(sorted(os.listdir("crates"))), m[1]):
                foreign |= {w.strip().split(" as ")[0] for w in m[2].split(",")}
        for line in text.split("\n"):
            m = SIGN.match(line)
            if m and not (m[2] or "").startswith(("tie.", "goal.", "given.")):
                own[m[1]].add(p)
    for p in files((".antt", ".rt")):
        for m in re.finditer(r" as ([a-z_][^\s,};]*)", "".join(re.findall(r"^(?:ghost )?use [^;]*?[}]", read(p), re.M))):
            own[m[1]].add(p)
    for p in files(".rt", ("src",)):
        for m in re.finditer(r"^ghost use\s+([^\s{]+)\.\{([^}]*)\}", read(p), re.M):
            if not re.match(r"Rattle\.(%s)\." % "|".join(sorted(os.listdir("crates"))), m[1]):
                foreign |= {w.strip().split(" as ")[0] for w in m[2].split(",")}
    return own, foreign


def words_of(p):
    words = set()
    for line in read(p).split("\n"):
        code, _ = split(line, "//" if p.endswith(".rt") else "--")
        code = re.sub(r'"(?:[^"\\]|\\.)*"', "", code)
        words |= set(TOKEN.findall(re.sub(r"(?:use )?Rattle(?:\.[^\s.{}();]+)+\.(?=[{])|use Rattle[^{]*$", "", code)))
    return words


def turned(text, names, rt):
    mark = "//" if rt else "--"
    out = []
    for line in text.split("\n"):
        code, comment = split(line, mark)
        code = "".join(
            part if i % 2 else TOKEN.sub(lambda m: names.get(m[0], m[0]), part)
            for i, part in enumerate(re.split(r'("(?:[^"\\]|\\.)*")', code))
        )
        comment = re.sub(r"`[^`]*`", lambda m: TOKEN.sub(lambda k: names.get(k[0], k[0]), m[0]), comment)
        comment = TOKEN.sub(lambda m: names.get(m[0], m[0]) if re.search("[a-z][A-Z]", m[0]) else m[0], comment)
        out.append(code + comment)
    return "\n".join(out)


def main():
    own, foreign = declared()
    plain = collections.defaultdict(set)
    for n in set(own) | foreign:
        if "-" not in n:
            plain[snake(n)].add(n)
    spoken = [words_of(p) for p in files((".antt", ".rt"))]
    names = {}
    for n in sorted(own):
        # a lemma with a dash that stands beside a definition whose name it would have
        beside = "-" in n and plain[snake(n)] and any(n in w and w & plain[snake(n)] for w in spoken)
        new = OTHER.get(n) or snake(n) + ("_lem" if beside else "")
        if new != n and n not in foreign:
            names[n] = new
    trouble = set()
    by_new = collections.defaultdict(set)
    for n, new in names.items():
        by_new[new].add(n)
    for p in files((".antt", ".rt")):
        words = words_of(p)
        for n in sorted(words & names.keys()):
            new = names[n]
            if new in words or len(by_new[new] & words) > 1:
                trouble.add((p, n, new))
        if "--dry" not in sys.argv:
            text = read(p)
            fresh = turned(text, names, p.endswith(".rt"))
            if fresh != text:
                with open(p, "w", encoding="utf-8") as f:
                    f.write(fresh)
    for p, n, new in sorted(trouble):
        print(f"together: {p}: {n} and {new}")
    print(f"{len(names)} names, {len(trouble)} that fall together")
    for n in sorted(names):
        if "--list" in sys.argv:
            print(n, names[n])


main()
