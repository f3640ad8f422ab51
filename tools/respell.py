#!/usr/bin/env python3
"""Spells the names of this repository's definitions and lemmas as today's Rattle does: words in snake case, facts in camel case.

usage: tools/respell.py [--check]     at the top; run once, right after the toolchain's own port script. --check lists names that would fall together.

A name of ours is a token that begins with a small letter and has a capital behind one: no name of Rust's, C's or the library's has that form.
It is turned wherever it stands: specs/, proofs/, clauses and their imports, comments, must-fail edits, and the pages of docs/.
"""

import collections
import glob
import re
import sys

TOKEN = re.compile(r"[^\s(){}\[\].,;:\"«»\\`'/<>&|!?*=+~^%@#]+")
# An escape of a string, as x00R, is none.
CAMEL = re.compile(r"(?!x[0-9a-f]{2})[a-z][A-Za-z0-9_\-₀-₉]*[a-z0-9][A-Z]")
# Definitions whose value is a type: a fact, or a relation.
FACT = re.compile(r"^\s*(?:abbrev |unfoldable )?(?:pub )?([a-z][^\s:(){}]*) : (?:[^=\n]*→ )?Type(?: \d)?[ \t]*$", re.M)
# Facts whose name is a plain word: turned in these files alone, since elsewhere the word is a variable or a lemma.
PLAIN_FACTS = {
    "in_range": ("crates/accesses/", "crates/rows/", "crates/decode/specs/Ops.antt", "crates/table/proofs/Within.antt", "crates/steps/", "crates/execution/"),
    "in_vectors": ("crates/bounds/", "crates/rules/proofs/StateLaws.antt"),
    "is_none": ("crates/into/proofs/Same.antt",),
    "fewer": ("crates/record/proofs/ThreadLaws.antt", "crates/record/proofs/ScheduleLaws.antt"),
}
# Names that port.py spelled as a name of the library, where a definition of ours now has that spelling: their own dash is put back.
# Those that follow a dot are fields of what is called by a function of the source, but where the second part says otherwise.
DASHED = {
    "too_few": ("crates/demands/", True),
    "too_many": ("crates/demands/", True),
    "none_open": ("crates/demands/", True),
    "met_by": ("crates/ending/proofs/", True),
    "goes_on": ("crates/", True),
    "is_field": ("crates/form/proofs/LetterLaws.antt", True),
    "same_bit": ("crates/ledger/proofs/Partings.antt", True),
    "one_more": ("crates/", False),
    "store_at": (("crates/rules/proofs/", "crates/standing/proofs/"), True),
    "next_row": ("crates/standing/proofs/", True),
    "first_rows": ("crates/writer/proofs/", True),
}
# Facts whose name in camel case is taken already.
TAKEN = {"meetsAt": "MeetsNeeds", "takesAt": "TakesNeeds", "ticksAt": "TicksNeeds"}
FIELDS_TOO = {"one_more": ("crates/offers/", "crates/kept/")}


def snake(name):
    """withNumber -> with_number, atMost-refl -> at_most-refl"""
    return re.sub(r"(?<=[a-z0-9₀-₉])([A-Z])", lambda m: "_" + m[1].lower(), name)


def fact(name):
    """readWithin, in_range -> ReadWithin, InRange"""
    return re.sub(r"(?:^|_)([a-z])", lambda m: m[1].upper(), name)


def files():
    out = []
    for pattern in ("crates/*/**/*.antt", "crates/*/**/*.rt", "crates/*/must-fail/*.edit", "edits/**/*.edit", "docs/**/*.md", "README.md"):
        out += [f for f in glob.glob(pattern, recursive=True) if "/out/" not in f and not f.startswith("docs/PORT")]
    return sorted(set(out))


def undashed(path, text):
    """Puts the dash back into names of DASHED."""
    if not path.endswith(".antt"):
        return text
    for name, (where, fields) in DASHED.items():
        if not path.startswith(where):
            continue
        fields = fields or path.startswith(FIELDS_TOO.get(name, ("-",)))
        before = r"(?<![\w\-])" if fields else r"(?<![\w\-.])"
        # A path's part, as in 'proofs.one_more.Statement', is a function of the source.
        text = re.sub(before + name + r"(?![\w\-₀-₉])(?!\.(?:Statement|Tie|Goals|Given|Code))", name.replace("_", "-"), text)
    return text


def names(texts):
    """The new name of each of ours, and the facts among them."""
    facts = set()
    for path, text in texts.items():
        if path.endswith(".antt"):
            facts |= {m[1] for m in FACT.finditer(text)}
    new = {}
    for path, text in texts.items():
        if path.endswith((".antt", ".rt")):
            for word in TOKEN.findall(text):
                if CAMEL.match(word):
                    new[word] = TAKEN.get(word) or (fact(snake(word)) if word in facts else snake(word))
    return new


def main():
    before = {f: open(f, encoding="utf-8").read() for f in files()}
    # port.py took a function of the source for the library's fact of that name.
    texts = {f: undashed(f, t.replace("is_IsWord", "is_word")) for f, t in before.items()}
    new = names(texts)
    own = lambda path: {k: fact(k) for k, where in PLAIN_FACTS.items() if path.startswith(where)}
    if "--check" in sys.argv:
        for path, text in texts.items():
            if path.endswith(".md"):
                continue
            here = set(TOKEN.findall(text))
            table = {**new, **own(path)}
            for old in sorted(here & table.keys()):
                if table[old] in here:
                    print(f"falls together: {path}: {old} and {table[old]}")
        by = collections.defaultdict(set)
        for old, it in new.items():
            by[it].add(old)
        for it, olds in by.items():
            if len(olds) > 1:
                print("two become one:", it, sorted(olds))
        return
    # port.py respelled some names of ours in the crates; the pages follow.
    now = {new.get(w, w) for path, text in texts.items() if path.endswith(".antt") for w in TOKEN.findall(text)}
    said = {w for path, text in texts.items() if path.endswith(".md") for w in TOKEN.findall(text) if CAMEL.match(w)}
    pages = {w: snake(w) for w in said if snake(w) in now}
    for path, text in texts.items():
        table = {**pages, **new} if path.endswith(".md") else {**new, **own(path)}
        turned = TOKEN.sub(lambda m: table.get(m[0], m[0]), text)
        if turned != before[path]:
            open(path, "w", encoding="utf-8").write(turned)


main()
