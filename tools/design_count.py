#!/usr/bin/env python3
"""Counts places that docs/DESIGN-PASS.md speaks of, in crates/*/src: design_count.py flags|numbers|loops|copies|facts|parameters [-v]."""
import collections
import glob
import re
import sys

FUNCTION = re.compile(r'^ *(?:pub )?(?:extern "C" )?fn (\w+)(?:<[^>]*>)?\(((?:[^()]|\([^()]*\))*)\)(?: -> ([^\n{]+))?', re.M)


def sources():
    for path in sorted(glob.glob("crates/*/src/*.rt")):
        with open(path, encoding="utf-8") as file:
            yield path, file.read()


def line_of(text, at):
    return text.count("\n", 0, at) + 1


def flags():
    """Functions that answer bool and have something lent to write."""
    for path, text in sources():
        for it in FUNCTION.finditer(text):
            if "&mut" in it.group(2) and (it.group(3) or "").strip() == "bool":
                yield f"{path}:{line_of(text, it.start())}: {it.group(1)}"


def numbers():
    """Tags and operations as numbers: arms of a match on a tag or an op, and tests of a tag against a number."""
    for path, text in sources():
        if re.search(r"crates/(list\w*|qasm\w*|text_bytes|io)/", path):
            continue
        for it in re.finditer(r"^ +\d+(?: \| \d+)* => |\btag (?:==|!=|<|<=) \d+|\b\d+ (?:<|<=) tag\b", text, re.M):
            yield f"{path}:{line_of(text, it.start())}: {it.group(0).strip()}"


def loops():
    """While loops of which a variable rises or falls by one in each round."""
    for path, text in sources():
        for it in re.finditer(r"^( +)while (.+) \{\n((?:\1 .*\n|\n)*)", text, re.M):
            counted = re.search(r"^ +(\w+) [+-]= 1;$", it.group(3), re.M)
            if counted and re.search(rf"\b{counted.group(1)}\b", it.group(2)):
                yield f"{path}:{line_of(text, it.start())}: while {it.group(2)}"


def copies():
    """Literals of a struct that name two fields or more only to copy them from one value."""
    for path, text in sources():
        for it in re.finditer(r"\b([A-Z]\w+) \{\n((?: +\w+(?:: [^\n]+)?,\n)+)", text):
            whose = collections.Counter(m.group(2) for m in re.finditer(r"^ +(\w+): (\w+)\.\1,$", it.group(2), re.M))
            if whose and max(whose.values()) >= 2:
                yield f"{path}:{line_of(text, it.start())}: {it.group(1)}"


def facts():
    """Clauses that functions require, each with how many require it, three at least."""
    count = collections.Counter()
    for path, text in sources():
        count.update(it.group(1) for it in re.finditer(r"^ *requires (?:\w+ )?\{ (.*) \}$", text, re.M))
    for fact, many in count.most_common():
        if many >= 3:
            yield f"{many} {fact}"


def parameters():
    """Functions of eight parameters or more."""
    for path, text in sources():
        for it in FUNCTION.finditer(text):
            if len(re.findall(r"\b\w+: ", it.group(2))) >= 8:
                yield f"{path}:{line_of(text, it.start())}: {it.group(1)}"


KINDS = {it.__name__: it for it in (flags, numbers, loops, copies, facts, parameters)}

if __name__ == "__main__":
    found = list(KINDS[sys.argv[1]]())
    if "-v" in sys.argv:
        print("\n".join(found))
    print(len(found))
