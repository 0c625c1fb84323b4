#!/usr/bin/env python3
"""Spells the repository's own definitions and lemmas as the toolchain's style asks, in place.

usage: python3 tools/port_names.py      at the top, once, after the toolchain's port.py

Words are in snake case: `typeLine` becomes `type_line`, also as a part of a lemma's name (`gives-arrayOf` becomes `gives-array_of`). Fields, constructors and definitions
lose their dashes; lemmas keep those that join two names. A lemma that would have its function's name gets `_lem`. A fact has a capital. Names of src/ are in snake case already.
It rewrites crates/*/specs, crates/*/proofs, the clauses of crates/*/src and the lines of must-fail edits.
"""
import glob
import re

# A lemma that would have the name of the function that it speaks of; not in paths and comments, where a Rust function of the name may stand.
LEMMAS = {name: name + "_lem" for name in ("on_shape", "no_value", "same_bytes", "in_order", "is_name", "value_in", "whole_words", "copy_test", "element_place", "held_all", "name_in", "node_in", "run_in", "array_kind")}
# A binder that would hide a definition.
BINDERS = {"is_negative": "negative_is"}
# Definitions, fields and constructors with dashes, and a fact without its capital.
WORDS = {name: name.replace("-", "_") for name in (
    "subrange-of", "alias-of", "subrange-and-alias", "true-literal", "array-123", "constant-entry", "repeat-entry", "string-3", "circle-and-type", "array-of-subrange", "two-captions",
    "type-rows", "uses-from", "strings-sheet", "sheet-rows", "false-node", "sheet-of", "with-type", "with-variable", "with-completed", "check-rows", "now-at", "caption-bytes", "all-computed",
    "completed-there", "constant-there", "first-many", "fresh-runs", "front-many", "is-many", "is-named", "names-are", "nodes-left", "of-enumeration", "of-string", "of-subrange", "other-good",
    "other-many", "part-runs", "shape-there", "shapes-long", "types-there", "variables-there", "all-next")}
# The words of a line in the examples of sheets stand beside the definition of that line.
WORDS |= {"type-line": "type_line_words", "variable-line": "variable_line_words", "completed-line": "completed_line_words", "ifConstant": "IfConstant"}
NAME = re.compile(r"[^\W\d][\w'-]*")


def snake(part):
    if not re.match(r"[a-z][a-z0-9]*[A-Z]", part):
        return part
    return re.sub(r"(?<=[a-z0-9])(?=[A-Z])", "_", part).lower()


def spelled(name, elsewhere):
    if elsewhere and name in LEMMAS | BINDERS:
        return name
    for table in (LEMMAS, BINDERS, WORDS):
        if name in table:
            return table[name]
    return "-".join(snake(part) for part in name.split("-"))


def turned(text):
    def one(m):
        line, before, after = text[text.rfind("\n", 0, m.start()) + 1 : m.start()], text[m.start() - 1 : m.start()], text[m.end() : m.end() + 1]
        return spelled(m.group(), "--" in line or before == "." or (after == "." and re.match(r"[\w'-]", text[m.end() + 1 : m.end() + 2])))

    return NAME.sub(one, text)


def main():
    for p in sorted(glob.glob("crates/*/specs/**/*.antt", recursive=True) + glob.glob("crates/*/proofs/**/*.antt", recursive=True)):
        write(p, turned)
    for p in sorted(glob.glob("crates/*/src/**/*.rt", recursive=True)):
        write(p, code)
    for p in sorted(glob.glob("crates/*/must-fail/*.edit")):
        write(p, code)


def code(text):
    """Rust names have no capital inside but types', so that only words of clauses are turned; the names in the tables are antt's alone."""
    return re.sub(r"(?<![\w'-])[a-z][a-z0-9]*[A-Z][\w']*", lambda m: WORDS.get(m.group(), snake(m.group())), text)


def write(p, turn):
    with open(p, encoding="utf-8") as f:
        old = f.read()
    new = turn(old)
    if new != old:
        with open(p, "w", encoding="utf-8") as f:
            f.write(new)


main()
