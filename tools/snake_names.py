#!/usr/bin/env python3
"""Brings the repository's own definitions and lemmas to the spelling of today's Rattle.

usage: python3 tools/snake_names.py            at the top of the repository, once, right after the kit's port.py
       python3 tools/snake_names.py --list     prints each old and new name, and changes nothing

A definition, a field, a constructor or a theorem of specs/ is in snake case. So is a lemma, but its dashes stay where each
part is the name of a function, as in `length-take`; one that would have its function's name gets `_lem`. Types, modules and
facts keep their capital. Names that Rattle makes (`returns-2`, `new-requires`) and functions of src/ are left alone.
Must-fail edits, README.md and docs/ follow.
"""
import glob
import os
import re
import sys

# A name in antt: no blank, bracket, comma, dot or quote in it.
WORD = re.compile(r"[^\s(){}\[\].,;:\"`@«»]+")
# A dash also stands between the names of these functions of the library, which the lemmas speak of.
LIBRARY = set("length take drop map reverse get set elem sum append cons nil zero suc add sub mul div mod pow min max le lt eq "
              "leb ltb eqb not and or pick shift".split())
# Names that would fall together: a lemma or a field of a lemma's record gets `_lem`, a test `is_`.
APART = {"good-from": "good_from_lem", "index-from": "index_from_lem", "width-from": "width_from_lem", "leads-by": "leads_by_lem",
         "has-content": "has_content_lem", "length-field": "length_field_lem", "row-line": "row_line_lem", "tooDeep": "is_too_deep"}
# The same for names that port.py respelled: only in proofs/.
APART_IN_PROOFS = {"is_name": "is_name_lem", "items_at": "items_at_lem"}
DECLARED = re.compile(r"^( *)(?:unfoldable |abbrev )?(?:pub )?(?:abbrev |unfoldable )?(?:data |record )?(\S+) :(?:\s|$)", re.M)


def text(path):
    with open(path, encoding="utf-8") as f:
        return f.read()


def sources():
    for pattern in ("crates/*/specs/**/*.antt", "crates/*/proofs/**/*.antt", "crates/*/src/**/*.rt", "crates/*/must-fail/*.edit"):
        yield from sorted(glob.glob(pattern, recursive=True))


def declared():
    """The names that specs/ declares, and those of lemmas, in files of their own or in a proof file."""
    defined, lemmas = set(), set()
    for path in glob.glob("crates/*/specs/**/*.antt", recursive=True):
        defined |= {m[2] for m in DECLARED.finditer(text(path))}
    for path in glob.glob("crates/*/proofs/**/*.antt", recursive=True):
        made = os.path.basename(path) == "Proof.antt"
        if made and "/+" in path:
            continue
        for m in DECLARED.finditer(text(path)):
            follows = text(path)[m.end():m.end() + 400].lstrip()
            if not (made and follows.startswith(("tie.", "goal."))):
                lemmas.add(m[2])
    return defined, lemmas


def snake(name):
    return re.sub(r"([a-z0-9])([A-Z])", lambda m: m[1] + "_" + m[2].lower(), name)


def respelled(name, defined, functions):
    """The name in today's spelling."""
    if name in APART:
        return APART[name]
    parts = name.split("-")
    joins = name not in defined and all(part in functions for part in parts)
    return ("-" if joins else "_").join(snake(part) if part[:1].islower() else part for part in parts)


def main():
    defined, lemmas = declared()
    functions = {d for d in defined if "-" not in d} | LIBRARY
    names = {}
    made = re.compile(r"(-requires(-clause-\w+)?|-preserved|-init|-smaller)(-\d+)?$|^(returns|invariant|decreases)-|-spec$|^\+")
    for name in sorted(defined | lemmas):
        if not re.fullmatch(r"[\w'\-→+≡≤₀-₉]+", name) or not re.search(r"-|[a-z][A-Z]", name) or name[0].isupper() and "-" not in name:
            continue
        if name not in defined and made.search(name):
            continue
        new = respelled(name, defined, functions)
        if new != name:
            names[name] = new
    taken = (defined | lemmas) - set(names) - set(APART_IN_PROOFS)
    for name, new in names.items():
        if new in taken or sum(n == new for n in names.values()) > 1:
            print(f"falls together: {name} -> {new}", file=sys.stderr)
    if "--list" in sys.argv:
        for name, new in names.items():
            print(name, new)
        return
    changed = 0
    pages = ["README.md"] + [p for p in sorted(glob.glob("docs/*.md")) if os.path.basename(p) not in ("LANDINGS.md", "PORT.md")]
    for path in list(sources()) + pages:
        old = text(path)
        apart = APART_IN_PROOFS if "/proofs/" in path else {}
        new = WORD.sub(lambda m: apart.get(m[0]) or names.get(m[0], m[0]), old)
        if new != old:
            with open(path, "w", encoding="utf-8") as f:
                f.write(new)
            changed += 1
    print(f"{len(names)} names, {changed} files")


main()
