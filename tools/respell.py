#!/usr/bin/env python3
"""Spells the repository's own antt names in snake case: definitions, fields, constructors, lemmas and variables.

usage: python3 tools/respell.py [FOLDER]     FOLDER: the top of the repository; here, if it is not given

It was run once, right after port.py of the kit, and reads what that left. `wordCount` and `word-count` become `word_count`. Where both a definition and
a lemma would get one name, the lemma (the one with dashes) gets `_lem` behind it. Types, modules, and the names of the libraries stay, and so do the
names of functions in src/. It turns .antt files, the clauses and comments of .rt files, and must-fail/*.edit. It prints the names that it kept apart.
"""

import collections
import os
import re
import sys

TOKEN = re.compile(r"[^\s(){}\[\].;:,@\"«»λ`]+")
CAMEL = re.compile(r"[a-z][A-Za-z0-9]*[A-Z][A-Za-z0-9']*\Z")
DASHED = re.compile(r"[a-z]\S*[a-z0-9']-[a-zA-Z0-9]\S*\Z|[a-z]-[a-zA-Z0-9]\S*\Z")
DECLARED = re.compile(r"(?m)^ *(?:(?:abbrev|unfoldable|pub|data|record|infixl|infixr|infix|ruleset|mutual) )*(\S+)(?: \{[^{}\n]*\})* :")
IMPORT = re.compile(r"use ([\w.·]+)\.\{([^}]*)\}")
GHOST = re.compile(r"\s*(?:ghost\b|requires\b|ensures\b|//)")
# Words of the language's own name, which are no names of ours.
KEPT = {"metaQASM", "openQASM"}


def snake(name):
    return re.sub(r"([a-z0-9])([A-Z])", r"\1_\2", name).lower().replace("-", "_")


def files(top):
    for folder, below, names in os.walk(os.path.join(top, "crates")):
        below[:] = sorted(it for it in below if it != "out")
        for it in sorted(names):
            if it.endswith((".antt", ".rt", ".edit")):
                yield os.path.join(folder, it)


def is_lemma_file(path):
    """A file of specs/ or proofs/ itself, and not the proof of one function."""
    return path.endswith(".antt") and os.path.basename(os.path.dirname(path)) in ("specs", "proofs")


def from_libraries(text, top):
    """The names that a file imports from a library of the kit."""
    found = set()
    for path, names in IMPORT.findall(text):
        steps = path.split(".")
        if steps[0] == "Rattle" and len(steps) > 1 and os.path.isdir(os.path.join(top, "crates", steps[1])):
            continue
        found.update(it.strip().split(" as ")[-1] for it in names.split(","))
    return found


def table(texts):
    """The new name of each of our names that gets one."""
    declared, camel = set(), set()
    for path, text in texts.items():
        if is_lemma_file(path):
            declared.update(DECLARED.findall(text))
        if path.endswith(".antt"):
            code = (line for line in text.split("\n") if not line.lstrip().startswith("--"))
            camel.update(it for line in code for it in TOKEN.findall(line) if CAMEL.match(it))
    camel -= KEPT
    dashed = {it for it in declared if DASHED.match(it)}
    meet = collections.defaultdict(set)
    for it in camel | dashed | declared:
        meet[snake(it)].add(it)
    new = {it: snake(it) for it in camel | dashed}
    for name, old in sorted(meet.items()):
        definitions = sorted(it for it in old if it in camel)
        lemmas = sorted(it for it in old if it in dashed)
        there = name in old
        if definitions and (lemmas or there):
            for it in lemmas + [name] * there:
                new[it] = name + "_lem"
            print(f"kept apart: {name} is {definitions[0]}, and {', '.join(lemmas + [name] * there)} is {name}_lem")
        elif lemmas and there:
            for it in lemmas:
                new[it] = name + "_lem"
            print(f"kept apart: {name} stays, and {', '.join(lemmas)} is {name}_lem")
        if len(definitions) > 1 or len(lemmas) > 1:
            sys.exit(f"several names would be {name}: {sorted(old)}")
    return new


def functions(texts, top):
    """The names of the functions of src/, and of the crates: behind a dot it is they that are meant."""
    found = set(os.listdir(os.path.join(top, "crates")))
    for path, text in texts.items():
        if path.endswith(".rt"):
            found.update(re.findall(r"\bfn (\w+)", text))
    return found


def turned(path, text, new, kept, called):
    def word(found):
        it = found[0]
        is_behind_dot = found.start() > 0 and found.string[found.start() - 1] == "."
        if it in kept or is_behind_dot and it in called:
            return it
        bare = it.strip("◌")
        return it.replace(bare, new.get(bare, bare)) if bare else it

    def said(found):
        """A word of a comment: a name that was in snake case already is a function's or a crate's there."""
        return found[0] if new.get(found[0]) == found[0] + "_lem" else word(found)

    if path.endswith(".antt"):
        return "\n".join(TOKEN.sub(said if line.startswith("--") else word, line) for line in text.split("\n"))
    if path.endswith(".edit"):
        return "\n".join(TOKEN.sub(word, line) if line.startswith(("old:", "new:")) else line for line in text.split("\n"))
    return "\n".join(TOKEN.sub(word, line) if GHOST.match(line) else line for line in text.split("\n"))


def main(top):
    texts = {}
    for path in files(top):
        with open(path, encoding="utf-8") as file:
            texts[path] = file.read()
    new, called = table(texts), functions(texts, top)
    for path, text in texts.items():
        after = turned(path, text, new, from_libraries(text, top), called)
        if after != text:
            with open(path, "w", encoding="utf-8") as file:
                file.write(after)
    print(f"{len(new)} names")


main(sys.argv[1] if len(sys.argv) > 1 else ".")
