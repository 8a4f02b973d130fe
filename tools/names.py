#!/usr/bin/env python3
"""Brings the repository's own definitions and lemmas to snake case: what port.py left as isRulebook or cells-good.

usage: tools/names.py        at the top, once, after port.py and before any edit by hand; it proves nothing

It turns names that a .antt file of specs/, or a file of lemmas in proofs/, declares. Functions of src/, strings, inputs and
outputs keep their names. Two names that would fall together are told apart by APART. Two files get another name, since
Rattle now makes a module `specs.contracts`.
"""
import glob
import os
import re

EDGE = r"[^\s(){}\[\];,.«»⌜⌝`/\"]"
DECLARED = re.compile(r"^(?:(?:abbrev|unfoldable|pub|data|record|opaque) )*([a-z][^\s:(){}.]*)", re.M)
FIELD = re.compile(r"^ +(?:pub )?([a-z][^\s:(){}.]*) : ", re.M)
WORDS = {"use", "mod", "unfolding", "infixl", "infixr", "infix", "syntax", "where"}
CAMEL = re.compile(r"[a-z][A-Za-z0-9]*[A-Z][A-Za-z0-9'-]*")

# Names that would meet another of ours: a lemma that has its definition's name gets `_lem`, a case or a field `_is`.
APART = {
    "in-range": "in_range_lem", "ask-number": "ask_number_lem", "put-in": "put_in_lem", "or-else": "or_else_lem",
    "number-before": "number_before_lem", "group-ladders": "group_ladders_lem", "family-of": "family_of_lem",
    "id-before": "id_before_lem", "contract-before": "contract_before_lem", "account-before": "account_before_lem",
    "same-header": "same_header_lem", "ended-day": "ended_day_lem", "fresh-number": "fresh_number_lem",
    "three-or-five": "three_or_five_lem", "market-makers": "market_makers_lem", "end-number": "end_number_lem",
    "end-found": "end_found_lem", "full-room": "full_room_lem", "cell_in": "cell_in_lem", "ladder_of": "ladder_of_lem",
    "group_at": "group_at_lem", "end_row": "end_row_lem",
    "cells-good": "cells_good_is", "cells-fault": "cells_fault_is", "cell-of": "cell_of_is", "no-book": "no_book_lem",
    "short-out": "short_out_lem", "self-trade-by": "self_trade_by_is", "frequent-by": "frequent_by_is",
    "large-by": "large_by_is", "contracts-part": "contracts_part_is", "accounts-part": "accounts_part_is",
    "take-number": "take_number_is", "year-joined": "year_joined_is", "rows-number": "rows_number_is",
    "log-number": "log_number_is",
}
# Of these the new name is a function's or a definition's too, so they turn only where the file of lemmas is used.
LEMMAS_ALONE = {"cell_in": "LadderLaws", "ladder_of": "LadderLaws", "group_at": "EntryLaws", "end_row": "Answers"}

MOVED = {"tables": "ContractEntries", "positions": "LimitEntries"}


def snake(name):
    name = name.replace("getD", "get_or")
    name = re.sub(r"(?<=[a-z0-9])[A-Z]", lambda m: "_" + m[0].lower(), name)
    return name.replace("-", "_")


def text(path):
    with open(path, encoding="utf-8", newline="") as f:
        return f.read()


def write(path, new):
    with open(path, "w", encoding="utf-8", newline="") as f:
        f.write(new)


def move_contracts():
    for crate, name in MOVED.items():
        os.rename(f"crates/{crate}/specs/Contracts.antt", f"crates/{crate}/specs/{name}.antt")
        lib = f"crates/{crate}/specs/Lib.antt"
        write(lib, re.sub(r"\bmod Contracts\b", f"mod {name}", text(lib)))
    for path in glob.glob("crates/*/**/*", recursive=True) + glob.glob("docs/*.md") + ["README.md"]:
        if not os.path.isfile(path) or "/out/" in path or not path.endswith((".rt", ".antt", ".edit", ".md")):
            continue
        old = text(path)
        new = old
        for crate, name in MOVED.items():
            new = new.replace(f"Rattle.{crate}.specs.Contracts.", f"Rattle.{crate}.specs.{name}.")
            new = new.replace(f"crates/{crate}/specs/Contracts.antt", f"crates/{crate}/specs/{name}.antt")
            if path.startswith(f"crates/{crate}/must-fail/"):
                new = new.replace("file: specs/Contracts.antt", f"file: specs/{name}.antt")
        if new != old:
            write(path, new)


def declared():
    found = set()
    for path in glob.glob("crates/*/specs/**/*.antt", recursive=True) + glob.glob("crates/*/proofs/*.antt"):
        t = re.sub(r"--[^\n]*", "", text(path))
        found |= set(DECLARED.findall(t)) | set(FIELD.findall(t))
        # variables and names of imports too, so that a text has one spelling
        found |= set(re.findall(r"\bas ([a-z][^\s(){}\[\];,.]*)", t))
        for group in re.findall(r"[({]([a-z][^\s(){}:;,.]*(?: [a-z][^\s(){}:;,.]*)*) : ", t):
            found |= set(group.split())
        found |= set(re.findall(rf"(?<!{EDGE}){CAMEL.pattern}(?!{EDGE})", t))
    return found - WORDS


def goals(path, t):
    """The names of a function's goals, which the check makes and another script turns."""
    if re.search(r"crates/[^/]+/proofs/.+/", path):
        return set(re.findall(r"(?m)^(\S+) : tie\.", t)) | set(re.findall(r"\btie\.(\S+)", t))
    return set()


def main():
    move_contracts()
    names = {}
    for n in sorted(declared()):
        new = APART.get(n, snake(n) if n[0].islower() else n)
        if new != n:
            names[n] = new
    word = re.compile(rf"(?<!{EDGE})(?:{'|'.join(sorted(map(re.escape, names), key=len, reverse=True))})(?!{EDGE})")
    for path in sorted(glob.glob("crates/**/*", recursive=True) + glob.glob("docs/*.md") + ["README.md"]):
        if not os.path.isfile(path) or "/out/" in path or not path.endswith((".rt", ".antt", ".edit", ".md")):
            continue
        old = text(path)
        kept = goals(path, old)
        code = path.endswith(".rt") or path.endswith(".edit") and "file: src/" in old or path.endswith(".md")

        def turn(m):
            n = m[0]
            if n in kept:
                return n
            if n in LEMMAS_ALONE:
                file = LEMMAS_ALONE[n]
                used = path.endswith(f"/proofs/{file}.antt") or re.search(rf"proofs\.{file}\.\{{[^}}]*\b{n}\b", old)
                if code or not used or old[: m.start()].endswith("."):
                    return n
            if code and not re.search(r"[a-z0-9][A-Z]", n):
                return n
            return names[n]

        new = word.sub(turn, old)
        if new != old:
            write(path, new)
    print(f"{len(names)} names turned")


if __name__ == "__main__":
    main()
