#!/usr/bin/env python3
"""Turns the proofs of functions from the older form, Proof.antt, to Invariants.antt and Answers.antt.

usage: python3 tools/turn_proofs.py NAMES CRATE [FUNCTION ..]

It is run at the top of the repository. NAMES is the names.json that `rattle check --generated DIR --old-names` writes of the crate: the older name of each
goal and step, and today's. What has no counterpart is left as it stands, and the check says where. An answer that is only `search rules` goes: the check
tries that by itself.
"""

import json
import os
import re
import sys

ROOT = "crates"
PATH = re.compile(r"(?<![\w.'])(\w+)((?:\.before)*)((?:\.[^\s(){}\[\],;.«»]+)*)")
DECLARATION = re.compile(r"^( *)(?:abbrev )?(?:pub )?(\S+)((?: \{[^{}\n]*\})*) : ")


def plain(name):
    return name.replace("-", "_").lower().removesuffix("_lem")


def nested(names, parts):
    """Parts that lead into pairs nested to the right, as 1, 1, 0, by the names that these have now."""
    if len(names) < 2:
        return parts
    at, parts = 0, list(parts)
    while parts and parts[0] in ("0", "1") and at < len(names) - 1:
        step = parts.pop(0)
        if step == "0":
            return [names[at], *parts]
        at += 1
    return [names[at], *parts] if at == len(names) - 1 else ["1"] * at + parts


# ---- one function


class Turn:
    def __init__(self, entry):
        self.entry = entry
        self.places = {place[0]: (i, place) for i, place in enumerate(entry["places"])}
        self.goals = {}
        for (old, new), (place, _) in zip(entry["needs"], entry["asked_at"]):
            self.goals[plain(old)] = (old, new, place)
        self.loops = {old: (new, names, flags) for ((old, new), names), flags in zip(entry["loops"], entry["changed"])}
        self.lost, self.opened, self.is_cycle = [], False, False

    def above(self, place, steps):
        for _ in range(steps):
            place = self.places[place][1][1]
            if place is None:
                return None
        return place

    def find(self, place, befores, first):
        """The place whose step has the name: the one that so many `.before` lead to, or else the nearest one above that has it."""
        at = self.above(place, befores)
        if at is not None and plain(first) == plain(self.places[at][1][2][0]):
            return at
        at = place
        while at is not None:
            if plain(first) == plain(self.places[at][1][2][0]):
                return at
            at = self.places[at][1][1]
        return None

    def path(self, place, befores, rest):
        """Today's path of `c` and so many `.before`, from a place, and then the parts of rest."""
        if not rest:
            return None
        first = rest[0]
        if plain(first) in ("args", "requires", "type_inv", "ranges", "well_formed"):
            parts = [plain(first), *rest[1:]]
            pre = self.entry["pre"]
            if first == "requires" and self.is_cycle:
                if parts[1:2] == ["0"]:
                    return ".".join(["c", "decreases", *parts[2:]])
                parts = [first, *parts[2:]]
            if first == "requires" and pre:
                parts = [first, *nested(pre["fields"], parts[1:])]
            return "c." + ".".join(parts)
        at = self.find(place, befores, first)
        if at is None:
            return None
        index, (_, _, (old, new), callee, auto) = self.places[at]
        parts = list(rest[1:])
        arm = self.entry["arms"][index]
        if arm:
            step, _, fields = arm
            for field, was, under in sorted(fields, key=lambda it: -len(it[2])):
                if plain(was) == plain(old) and under and parts[: len(under)] == under:
                    more = parts[len(under) :]
                    if field == "ensures":
                        more = self.clause(index, more)
                    return ".".join(["c", step, field, *more])
            for field, was, under in fields:
                if plain(was) == plain(old) and not under and field.endswith("-own"):
                    way = ".".join(["c", step, field, *parts])
                    if parts and parts[0].startswith("keys"):
                        self.opened = True
                        return f"(opened {way})"
                    return way
            return ".".join(["c", step, *parts])
        for was, now in auto:
            if parts and plain(parts[0]) == plain(was):
                return ".".join(["c", new, now, *parts[1:]])
        if parts and parts[0] == "ensures":
            return ".".join(["c", new, "ensures", *self.clause(index, parts[1:])])
        if parts and parts[0] == "new" and len(parts) > 1 and callee in self.entry["params"]:
            return ".".join(["c", new, "new", *nested([*self.entry["params"][callee], None], parts[1:])])
        return ".".join(["c", new, *parts])

    def clause(self, index, parts):
        clauses = self.entry["clauses"][index]
        return nested(clauses["fields"], parts) if clauses else parts

    def body(self, text, place, given="c"):
        """A body with its paths turned. A `let` that names a place higher up goes, and its name stands for that place."""
        roots = {given: (0, [])}
        at = 0
        while True:
            match = re.compile(r"\blet (\w+) = (\w+)((?:\.before)*)((?:\.[\w-]+)*) in\s*").search(text, at)
            if not match:
                break
            at = match.end()
            rest = [it for it in match[4].split(".") if it]
            if match[2] not in roots:
                continue
            befores, under = roots[match[2]]
            if under and match[3]:
                continue
            whole = under + rest
            cut = [it for it in whole if it != "1"]
            if whole and not (cut and cut[-1] in ("requires", "ensures", "new")):
                continue
            roots[match[1]] = (befores + match[3].count(".before"), whole)
            text = text[: match.start()] + text[match.end() :]
            at = match.start()

        def turned(found):
            root, befores, rest = found[1], found[2].count(".before"), [it for it in found[3].split(".") if it]
            if root not in roots:
                return found[0]
            if root != given or not rest:
                befores, rest = befores + roots[root][0], roots[root][1] + rest
            now = self.path(place, befores, rest)
            if now is None:
                self.lost.append(found[0])
                return found[0]
            return now

        return PATH.sub(turned, text)


def split_tuple(text):
    """The parts of a tuple that is a whole body, after its `let`s: the lets, and the parts; or None."""
    lets, rest = "", text.strip()
    if not rest.endswith(")"):
        return None
    # The last top-level parenthesis group.
    depth, start = 0, None
    for i in range(len(rest) - 1, -1, -1):
        if rest[i] in ")]}":
            depth += 1
        elif rest[i] in "([{":
            depth -= 1
            if depth == 0:
                start = i
                break
    if start is None or rest[start] != "(":
        return None
    lets, inner = rest[:start], rest[start + 1 : -1]
    if lets.strip() and not re.search(r"\bin\s*$", lets) and not re.search(r"(?:\A|\bin\s)\s*rw (\S+|\([^\n]*\)) $", lets):
        return None
    parts, depth, last = [], 0, 0
    for i, it in enumerate(inner):
        if it in "([{":
            depth += 1
        elif it in ")]}":
            depth -= 1
        elif it == "," and depth == 0:
            parts.append(inner[last:i].strip())
            last = i + 1
    parts.append(inner[last:].strip())
    return lets, parts if parts[-1] else parts[:-1]


def as_record(text, labels):
    """A tuple as a record of the clauses, where it has as many parts."""
    text = text.strip()
    split = split_tuple(text)
    rewritten = re.search(r"\A((?:.*\bin\s)?\s*)rw (\S+|\(.*?\)) \Z", split[0], re.S) if split else None
    if not split and not re.search(r"(?:\A|\bin)\s*(?:search|omega|grind|simp|elim|rw|cc|absurd|λ)\b[^\n]*\Z", text):
        match = re.match(r"\A(.*\bin\s+)?(.*)\Z", text, re.S)
        parts = [".".join(["both"] + ["1"] * i + (["0"] if i < len(labels) - 1 else [])) for i in range(len(labels))]
        fields = "".join(f"      {label} = {part};\n" for label, part in zip(labels, parts))
        return f"{match[1] or ''}let both = {match[2]} in\n    record {{\n{fields}    }}"
    if not split:
        return text
    lets, parts = split
    before = ""
    if rewritten:
        lets, before = rewritten[1], f"rw {rewritten[2]} "
    while len(parts) < len(labels):
        inner = split_tuple(parts[-1])
        if not inner or inner[0].strip():
            break
        parts = parts[:-1] + inner[1]
    if len(parts) == len(labels) + 1 and parts[-1] == "tt":
        parts = parts[:-1]
    if len(parts) != len(labels):
        return text
    if before:
        parts = [f"{before}({part})" for part in parts]
    fields = "".join(f"      {label} = {part};\n" for label, part in zip(labels, parts))
    return f"{lets}record {{\n{fields}    }}"


def blocks(text):
    """The declarations of a file: the comment and use lines first, and then each signature with its clauses."""
    head, out, current = [], [], None
    for line in text.split("\n"):
        starts = DECLARATION.match(line)
        if starts and starts[1] == "":
            current = [line]
            out.append(current)
        elif current is None:
            head.append(line)
        else:
            current.append(line)
    return head, out


def parameters(crate, function):
    """The parameters of a function, in order."""
    src = os.path.join(ROOT, crate, "src")
    for file in sorted(os.listdir(src)):
        with open(os.path.join(src, file), encoding="utf-8") as it:
            match = re.search(rf"\bfn {function}\s*\(([^)]*)\)", re.sub(r"//.*", "", it.read()))
        if match:
            return re.findall(r"(\w+)\s*:", match[1])
    return []


def measures(shared, crate, members):
    """The measures of a cycle, which its older file had over the arguments as nested pairs."""
    with open(shared, encoding="utf-8") as it:
        text = it.read()
    out = []
    for member in members:
        match = re.search(rf"^μ-{member.replace('_', '[-_]')} κs a =\n(.*?)\n\n", text, re.M | re.S)
        params = parameters(crate, member)
        body = re.sub(r"\ba((?:\.1)*)\.0\b", lambda it: "l." + params[it[1].count(".1")], match[1])
        out.append(f"abbrev pub decreases-{member} : goal.decreases-{member}\ndecreases-{member} l =\n{body.rstrip()}\n")
    return out


def turn_cycle(entries, folder, crate, function, members):
    several = len(members) > 1
    invariants = measures(os.path.join(folder, "Proof", "Shared.antt"), crate, members)
    uses, own, answers, lost = [], [], [], []
    for member in members:
        file = os.path.join(folder, "Proof", "".join(it.capitalize() for it in member.split("_")) + ".antt")
        with open(file, encoding="utf-8") as it:
            text = it.read()
        before, _, inside = text.partition("module _ (t : ℕ) where\n")
        inside = re.sub(r"(?m)^  ", "", inside)
        head, declarations = blocks(before + inside)
        one = Turn(entries[member])
        one.is_cycle = True
        got = answers_of(one, entries[member], head, declarations, f"{member}-" if several else "", "t ")
        for line in got[1]:
            if line not in uses and not re.search(r"\.(Lts-\w+ as lts|Reads\.\{Post\}|Shared\..*)$", line):
                uses.append(line)
        own += got[2]
        invariants += got[3]
        answers += got[4]
        lost += [f"{member}: {it}" for it in one.lost]
    uses.append("use Prim.Native.Nat.{◌+◌, ◌-◌, ◌*◌}")
    # One import a module.
    merged = {}
    for line in uses:
        match = re.fullmatch(r"use ([^{]+)\.\{(.*)\}", line)
        if match:
            merged.setdefault(match[1], [])
            merged[match[1]] += [it.strip() for it in match[2].split(",") if it.strip() not in merged[match[1]]]
        else:
            merged[line] = None
    uses = [f"use {path}.{{{', '.join(names)}}}" if names is not None else path for path, names in merged.items()]
    write(folder, crate, function, ["-- The cycle of calls meets its contracts. Assumes nothing."], uses, own, invariants, answers)
    os.rename(os.path.join(folder, "Proof"), os.path.join(folder, "Proof.old"))
    return lost


def turn(entry, folder, crate, function):
    with open(os.path.join(folder, "Proof.antt"), encoding="utf-8") as it:
        head, declarations = blocks(it.read())
    one = Turn(entry)
    write(folder, crate, function, *answers_of(one, entry, head, declarations, "", ""))
    return one.lost


def answers_of(one, entry, head, declarations, stem, first):
    """The comment, use lines, declarations of its own, invariants and answers of a file."""
    invariants, answers, own = [], [], []
    uses = [line for line in head if line.startswith("use ") and ".Statement." not in line and not line.endswith(" as tie")]
    intro = [line for line in head if line.startswith("--")]
    for lines in declarations:
        name = DECLARATION.match(lines[0])[2]
        signature = lines[0]
        text = "\n".join(lines).rstrip() + "\n"
        if name.endswith("-spec") or name.endswith("_spec"):
            continue
        measure = re.match(r"abbrev (?:pub )?(\S+) : (?:tie|lts)\.(invariant|decreases)-(\S+)", signature)
        if measure:
            old = measure[3]
            if old not in one.loops:
                own.append(text)
                continue
            new, names, flags = one.loops[old]
            clause = "\n".join(lines[1:])
            given, body = clause.split("=", 1)
            params = given.split()[1:]
            changed = [n for n, f in zip(names, flags) if f]
            due = [f"l.initial.{n}" if f else f"l.{n}" for n, f in zip(names, flags)] + [f"l.{n}" for n in changed]
            if len(params) == len(due):
                values = {param: value for param, value in zip(params, due) if param != "_"}
                bound = set(re.findall(r"λ \(?([^.]*?)(?: :[^.]*?)?\)?\.", body) + re.findall(r"\(((?:\w+ )+): ", body))
                bound = {it for group in bound for it in group.split()} - {"λ"}
                body = re.sub(r"to_z w(?:64|32|8) (\w+₀?)(?![\w₀])", lambda it: it[1] if it[1] in values else it[0], body)
                body = re.sub(r"(?<![\w.'₀])[\w]+₀?(?![\w'₀-])", lambda it: values.get(it[0], it[0]) if it[0] not in bound else it[0], body)
                if "l" in bound:
                    body = re.sub(r"(?<![\w.'])l(?![\w'.])", "l'", body)
            else:
                one.lost.append(f"{measure[1]}: {params} for {due}")
            label = f"{measure[2]}-{stem}{new}"
            invariants.append(f"abbrev pub {label} : goal.{label}\n{label} l =" + body.rstrip() + "\n")
            continue
        need = re.search(r": (?:tie|lts)\.Need-(\S+)", signature)
        if not need:
            own.append(text)
            continue
        asked = need[1].removeprefix("overflow-")
        known = one.goals.get(plain(asked))
        if known is None and plain(name) in one.goals:
            known = one.goals[plain(name)]
        for was, now in (("_holds", "_init"), ("_less", "_smaller"), ("_again", "_preserved")):
            if known is None:
                known = one.goals.get(plain(name).replace(was, now))
        clause = "\n".join(lines[1:])
        match = re.search(rf"^{re.escape(name)}((?: \S+)*?) =", clause, re.M)
        unfolding, given, body = clause[: match.start()], match[1].split(), clause[match.end() :]
        if known is None:
            if not plain(asked).startswith(("enum_told", "enum_known", "same_length", "array", "known_told")):
                one.lost.append(f"no goal for {name}")
            continue
        old, new, place = known
        if body.strip() in ("search rules", "search needs"):
            continue
        body = one.body(body, place, given[0] if given else "c")
        labels = entry["asked"].get(old)
        if labels:
            body = "\n    " + as_record(body, labels).strip()
        args = first + " ".join(it for it in given if it != "κs")
        answers.append(f"pub {stem}{new} : goal.{stem}{new}\n{unfolding}{stem}{new} {args.strip()} ={body.rstrip()}\n")
    if one.opened:
        uses.append("use borrow.Enum.Refused.{opened}")
    return intro, uses, own, invariants, answers


def write(folder, crate, function, intro, uses, own, invariants, answers):
    module = ".".join(["Rattle", crate, "proofs", function])
    os.rename(os.path.join(folder, "Proof.antt"), os.path.join(folder, "Proof.antt.old"))
    if invariants:
        with open(os.path.join(folder, "Invariants.antt"), "w", encoding="utf-8") as it:
            it.write("\n".join(intro + uses + [f"use {module}.Given as goal", ""] + invariants))
    if answers or own:
        with open(os.path.join(folder, "Answers.antt"), "w", encoding="utf-8") as it:
            it.write("\n".join(intro + uses + [f"use {module}.Goals as goal", ""] + own + answers))


def main(names, crate, only):
    with open(names, encoding="utf-8") as it:
        entries = json.load(it)
    cycles = {}
    for key in entries:
        match = re.fullmatch(rf"Rattle-{crate}-proofs\.(\+\S+)\.Lts-(\w+)", key)
        if match:
            cycles.setdefault(match[1], {})[match[2]] = entries[key]
    top = os.path.join(ROOT, crate, "proofs")
    for key in sorted(entries):
        match = re.fullmatch(rf"Rattle-{crate}-proofs\.(\S+)\.Lts", key)
        if not match or only and match[1] not in only:
            continue
        folder = os.path.join(top, *match[1].split("."))
        if not os.path.exists(os.path.join(folder, "Proof.antt")):
            continue
        lost = turn(entries[key], folder, crate, match[1])
        print(match[1] + (": " + "; ".join(lost) if lost else ""))
    for function, members in sorted(cycles.items()):
        folder = os.path.join(top, function)
        if os.path.exists(os.path.join(folder, "Proof.antt")) and (not only or function in only):
            lost = turn_cycle(members, folder, crate, function, sorted(members))
            print(function + (": " + "; ".join(lost) if lost else ""))


main(sys.argv[1], sys.argv[2], sys.argv[3:])
