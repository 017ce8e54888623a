#!/usr/bin/env python3
"""Spells this repository's own definitions and lemmas as Rattle's library spells its own: words in snake case, types and modules in camel case.

usage: tools/respell.py [--look]      at the top of the repository, once, right after port.py

Turned are the files of crates/*/specs and crates/*/proofs, clauses and comments in crates/*/src, and crates/*/must-fail/*.edit. Functions of src/ have
snake case already, and strings are left. A dash stays in a lemma's name, where it joins two names; definitions and the fields of
records have none. A decision list is written `when .. then .. else ..`, since `if◌then◌else◌` is the library's own operator now,
and the laws of it begin with when-. With --look nothing is written, and names that would fall together are listed.
"""

import glob
import re
import sys

WORD = re.compile(r"(?<![A-Za-z0-9_'])[a-z][A-Za-z0-9_']*")
NAME = r'[^\s(){}.;,@"«»`]+'
DECLARED = re.compile(r"^ *(?:(?:abbrev|pub|unfoldable|data|record) +)*(%s)(?: \{[^{}\n]*\})* :(?!:)" % NAME, re.M)
STRING = re.compile(r'b?"(?:[^"\\\n]|\\.)*"')
PARTS = ("specs", "proofs")


def snake(word):
    word = word.replace("IPv4", "Ipv4").replace("IPv6", "Ipv6").replace("getD", "get_or").replace("get_d_", "get_or_")
    word = re.sub(r"III-IV$", "_iii_iv", re.sub(r"I-II$", "_i_ii", word))
    word = re.sub(r"(?<=[a-z0-9])[A-Z](?=[0-9]|[A-Z]|$)", lambda m: "_" + m[0].lower(), word)
    word = re.sub(r"(?<=[a-z0-9])[A-Z]", lambda m: "_" + m[0].lower(), word)
    return word.lower()


def has_capital(word):
    return re.search(r"[a-z0-9][A-Z]", word)


def dashed(files):
    """The definitions of specs/ and the fields of records whose names have a dash."""
    found = set()
    for path, text in files.items():
        if "/specs/" in path:
            found.update(it for it in DECLARED.findall(text) if "-" in it and re.fullmatch(r"[A-Za-z][\w'-]*", it) and it[0].islower())
    return {it: snake(it).replace("-", "_") for it in found}


def turned(text, whole):
    """The text with each name turned: first whole names, then the words that a name is made of."""
    text = re.sub(NAME, lambda m: whole.get(m[0], m[0]), text)
    return WORD.sub(lambda m: snake(m[0]) if has_capital(m[0]) else m[0], text)


def decisions(text):
    """The text of an .antt file with each decision list by its own name; comments are left, but for names in backticks."""
    out = []
    for line in text.split("\n"):
        if line.lstrip().startswith("--"):
            out.append(re.sub(r"(?<=`)if(?=◌then◌|-)", "when", line))
            continue
        code = line.replace("if◌then◌else◌", "when◌then◌else◌").replace("if_then_else_", "when◌then◌else◌")
        code = re.sub(r"(?<![^\s({,])if-(?=\S)", "when-", code)
        out.append(re.sub(r"(?<![^\s(])if(?=\s)", "when", code))
    return "\n".join(out)


def turned_source(text, whole):
    at, out = 0, []
    for m in STRING.finditer(text):
        out += [turned(text[at : m.start()], whole), m[0]]
        at = m.end()
    return "".join(out) + turned(text[at:], whole)


def main():
    look = "--look" in sys.argv[1:]
    paths = [p for part in PARTS for p in glob.glob(f"crates/*/{part}/**/*.antt", recursive=True)]
    paths += glob.glob("crates/*/src/**/*.rt", recursive=True) + glob.glob("crates/*/must-fail/*.edit")
    files = {p: open(p, encoding="utf-8").read() for p in sorted(paths)}
    whole = dashed(files)
    for path, text in files.items():
        new = (turned_source if path.endswith(".rt") else turned)(decisions(text) if path.endswith(".antt") else text, whole)
        if look:
            words = set(re.findall(NAME, text))
            for word in sorted(words):
                now = turned(word, whole)
                if now != word and now in words:
                    print(f"{path}: {word} falls together with {now}")
        elif new != text:
            with open(path, "w", encoding="utf-8") as f:
                f.write(new)
    if look:
        print(" ".join(f"{a}={b}" for a, b in sorted(whole.items())))


main()
