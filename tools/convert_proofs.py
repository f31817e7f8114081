#!/usr/bin/env python3
"""Turns a crate's older proofs, proofs/F/Proof.antt, into Invariants.antt and Answers.antt.

usage: rt check --generated FOLDER --old-names        in the crate's folder, after port.py and snake_names.py
       python3 tools/convert_proofs.py CRATE FOLDER/names.json     at the top of the repository

An older proof names a goal `tie.Need-returns-2` and a fact by the way back to it, `c.before.before.if1.true`; names.json
has today's name of each, `returns-then-k-eq0` and `c.if-k-eq0.true`. An answer that was only `search rules` goes, since the
check tries that itself. What is printed is left to do by hand: the measure of a recursion, proofs that walk the code
(they are left alone), and, after a check, tuples that are records of clauses today.
"""
import glob
import json
import os
import re
import sys

IDENT = r"[^\s(){}\[\].,;:@«»\"`λ]+"
START = r"(?<![\w'.\-])"
END = r"(?![\w'\-])"
OWN = ("requires", "args", "ranges", "type_inv", "well_formed")


def plain(name):
    """A name of the older Rattle as both its files and names.json spell it."""
    name = name.replace("_", "-").lower().removesuffix("-lem")
    for prefix in ("overflow-", "slice-bounds-", "part-"):
        name = name.removeprefix(prefix)
    return name


class Function:
    """What names.json says of a function."""

    def __init__(self, entry):
        self.loops, self.changed, self.arms, self.stem = (entry[k] for k in ("loops", "changed", "arms", "stem"))
        self.places = {place[0]: place for place in entry["places"]}
        self.order = {place[0]: i for i, place in enumerate(entry["places"])}
        self.goals = {plain(old): new for old, new in entry["needs"]}
        self.asked = {plain(need[0]): at[0] for need, at in zip(entry["needs"], entry["asked_at"])}

    def goal(self, need):
        new = self.goals[need]
        return new if not self.stem or new.startswith(self.stem) else f"{self.stem}-{new}"

    def way_back(self, place):
        """The place at which a goal is asked, and those before it, the nearest first."""
        way = [place]
        while self.places[way[-1]][1]:
            way.append(self.places[way[-1]][1])
        return way

    def fact(self, place, field, rest):
        """Today's words for a field of a place, and for what is taken of it; None where there are none."""
        _, _, (old, new), _, parts = self.places[place]
        arm = self.arms[self.order[place]] if self.order[place] < len(self.arms) else None
        for name, of, below in sorted(arm[2], key=lambda it: -len(it[2])) if arm else []:
            if below and plain(of) == plain(field) and rest[:len(below)] == below:
                return [arm[0], name] + rest[len(below):]
        if plain(old) != plain(field):
            return None
        renamed = dict(parts)
        return [new] + [renamed.get(word, word) if i == 0 else word for i, word in enumerate(rest)]


def declarations(text):
    """The head's comments, the imports, and each declaration with the comments above it."""
    head, imports, found, above, current = [], [], [], [], None
    for line in text.split("\n"):
        starts = re.match(rf"(?:abbrev |unfoldable )?(?:pub )?(?:abbrev )?(?:{IDENT} :(\s|$)|data |record |module )", line)
        if line.startswith("use "):
            imports.append(line)
        elif line.startswith("--") and not imports:
            head.append(line)
        elif line.startswith("--"):
            above.append(line)
        elif starts:
            current = above + [line]
            above = []
            found.append(current)
        elif current is not None:
            current.append(line)
    return head, imports, ["\n".join(it).rstrip() for it in found]


def clause(name, lines):
    """A declaration's comments and unfolding lines, its clause's parameters, and the term."""
    first = next(i for i, line in enumerate(lines) if re.match(rf"{re.escape(name)} (?!:)", line))
    body = "\n".join(lines[first:])
    head = re.match(rf"{re.escape(name)}((?: [^=\s]+)*) =(\s*)", body)
    kept = [line for line in lines if line.startswith(("--", "unfolding"))]
    return kept, head[1].split(), "\n    " if "\n" in head[2] else " ", body[head.end():]


def without_aliases(term):
    """`let s = c.before in .. s.args ..` as `.. c.before.args ..`, so that each fact stands with its whole way."""
    while True:
        for let in re.finditer(rf"let ({IDENT}) = (c(?:\.before)*(?:\.(?!before)[\w'\-]+)?) in\s+", term):
            name, way = let[1], let[2]
            after = term[let.end():]
            if way.split(".")[-1] not in ("c", "before") and re.search(rf"{START}{re.escape(name)}(?![\w'\-.])", after):
                continue
            term = term[:let.start()] + re.sub(rf"{START}{re.escape(name)}{END}", way, after)
            break
        else:
            return term


def with_names(term, function, place, said):
    """A term with each fact under today's name."""
    way = function.way_back(place)

    def named(found):
        far, field = min(found[1].count(".before"), len(way) - 1), found[2]
        rest = [word for word in found[3].split(".") if word]
        if field in OWN:
            return ".".join(["c", field] + rest)
        for at in way[far:] + way[:far][::-1]:
            words = function.fact(at, field, rest)
            if words:
                return ".".join(["c"] + words)
        said.append(f"no name for {found[0]}")
        return found[0]

    term = re.sub(rf"{START}c((?:\.before)*)\.((?!before)[\w'\-]+)((?:\.[\w'\-]+)*)", named, without_aliases(term))
    return re.sub(r"\(not-(true|false) \S+ (\S+)\.\1-raw\)", r"\2.\1", term)


def invariant(function, kind, old, parameters, term):
    """An invariant or a measure over the record `l`: its loop's name today, and the term."""
    at = next(i for i, loop in enumerate(function.loops) if loop[0][0].endswith(old))
    (_, loop), variables = function.loops[at]
    changed = [name for name, changes in zip(variables, function.changed[at]) if changes]
    first = [f"l.initial.{name}" if name in changed else f"l.{name}" for name in variables]
    names = dict(zip(parameters, first + [f"l.{name}" for name in changed]))
    return f"{kind}-{loop}", re.sub(rf"(?<!\.){IDENT}", lambda found: names.get(found[0], found[0]), term)


def convert(crate, folder, functions, said):
    path = f"crates/{crate}/proofs/{folder}"
    with open(f"{path}/Proof.antt", encoding="utf-8") as f:
        head, imports, found = declarations(f.read())
    imports = [line for line in imports if not re.search(r"\.(Statement|Tie|Reads|Kinds|Lts-\w+)\b|PlainCycle|Fn\.Kinds", line)]
    invariants, answers, lemmas = [], [], []
    for text in found:
        name, what = re.search(rf"^(?:abbrev )?(?:pub )?({IDENT}) :\s*(.*)", text, re.M).groups()
        goal = re.match(r"tie\.Need-(\S+)|\(t : .*?\) → ([\w\-]+)-lts\.Need-(\S+)", what)
        of_loop = re.match(r"tie\.(invariant|decreases)-(\S+)", what)
        if re.search(r"[-_]spec$", name):
            continue
        if of_loop:
            kept, parameters, space, term = clause(name, text.split("\n"))
            label, term = invariant(next(iter(functions.values())), of_loop[1], of_loop[2], parameters, term)
            invariants.append("\n".join(kept + [f"abbrev pub {label} : goal.{label}", f"{label} l ={space}{term}"]))
        elif goal:
            need = plain(goal[1] or goal[3])
            function = next((it for it in functions.values() if need in it.goals), None)
            if re.search(r"=\s*search rules$", text):
                continue
            if function is None:
                said.append(f"{folder}: no goal {need}")
                continue
            kept, parameters, space, term = clause(name, text.split("\n"))
            parameters = [it for it in parameters if it != "κs"]
            label, term = function.goal(need), with_names(term, function, function.asked[need], said)
            answers.append("\n".join([f"pub {label} : goal.{label}"] + kept + [f"{label} {' '.join(parameters)} ={space}{term}"]))
        else:
            lemmas.append(text)
    module = f"Rattle.{crate}.proofs.{folder.replace('/', '.')}"
    for file, goals, parts in (("Invariants", "Given", invariants), ("Answers", "Goals", lemmas + answers if answers else [])):
        if parts:
            with open(f"{path}/{file}.antt", "w", encoding="utf-8") as f:
                f.write("\n".join(head + imports + [f"use {module}.{goals} as goal", "", "\n\n".join(parts), ""]))
    os.remove(f"{path}/Proof.antt")


def main():
    crate, names = sys.argv[1:]
    with open(names, encoding="utf-8") as f:
        entries = json.load(f)
    said = []
    for path in sorted(glob.glob(f"crates/{crate}/proofs/**/Proof.antt", recursive=True)):
        folder = os.path.dirname(path).split("/proofs/")[1]
        at = rf"Rattle-{crate}-proofs\.{re.escape(folder.replace('/', '.'))}\.Lts(?:-(.*))?$"
        functions = {m[1] or "": Function(entry) for key, entry in entries.items() if (m := re.match(at, key))}
        with open(path, encoding="utf-8") as f:
            walks = "types.Kit" in f.read()
        if walks or not functions:
            said.append(f"{folder}: by hand")
        else:
            convert(crate, folder, functions, said)
    print("\n".join(said))


main()
