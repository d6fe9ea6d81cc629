#!/usr/bin/env python3
"""tools/respell.py: brings the repository's own definitions, lemmas and fields to snake case, after the port.py of the kit, once, at the top.

port.py respells what has a name in today's library. What is left is the repository's own: in specs/ and proofs/ a name that begins with a small
letter and has a capital within it, or a dash, is written in snake case (types and modules keep theirs). The proof of a function f is f_spec.
Names are changed as whole words, in every .antt, .rt and .edit file of crates/. Answers.antt and Invariants.antt name goals, which Rattle makes: they stay. A name whose new form is already a word of a file that has the old
one is listed ('look:'), and so are two names that would become one ('fall together:').
"""
import collections
import glob
import os
import re
import sys

WORD = r"[^\s(){}\[\].,;:λ→×≡↦|⟨⟩«»`\"@]+"
HEAD = re.compile(rf"^(?:abbrev |unfoldable |pub |private |postulate )*({WORD}) :(?: |$)")
FIELD = re.compile(rf"^\s+(?:abbrev |unfoldable |pub )*({WORD}) :(?: |$)")
# Where snake case alone would give two things one name: a lemma that would have its definition's name ends in _lem, a definition gets another word.
OWN = {
    "at-most": "at_most_lem",
    "two-words": "two_words_lem",
    "bit-bytes": "bit_bytes_lem",
    "by-tail": "by_tail_lem",
    "daa-pointed": "daa_pointed_lem",
    "daa-row": "daa_row_lem",
    "das-pointed": "das_pointed_lem",
    "das-row": "das_row_lem",
    "first-op": "first_op_lem",
    "next-op": "next_op_lem",
    "next-digit": "next_digit_lem",
    "planned-first": "planned_first_lem",
    "step-told": "step_told_lem",
    "give-by-part": "give_by_part_lem",
    "give-numbered": "give_numbered_lem",
    "by-kind": "by_kind_lem",
    "could-carry": "could_carry_lem",
    "good-board": "good_board_lem",
    "long-logic": "long_logic_lem",
    "long-memory": "long_memory_lem",
    "most-sum": "most_sum_lem",
    "reads-part": "reads_part_lem",
    "right-area": "right_area_lem",
    "writes-part": "writes_part_lem",
    "inOrder": "in_order_of",
    "sameFlag": "is_same_flag",
    "tailOf": "tail_of_rest",
}


def snake(name):
    if name in OWN:
        return OWN[name]
    s = re.sub(r"(?<=[a-z0-9'])([A-Z])", lambda m: "_" + m.group(1).lower(), name)
    s = re.sub(r"([A-Z])", lambda m: m.group(1).lower(), s)
    return s.replace("-", "_")


def wants(name):
    return bool(re.fullmatch(r"[a-z][A-Za-z0-9'_-]*", name)) and snake(name) != name


def names_of(path):
    """The names that a file declares: at its margin, in a module, the fields of its records and the constructors of its data."""
    found, within = [], False
    for line in open(path, encoding="utf8"):
        if re.match(r"^((pub )?(record|data)|module)\s", line):
            within = True
            continue
        head = HEAD.match(line)
        if head:
            within = False
            found.append(head.group(1))
        elif within:
            field = FIELD.match(line)
            if field:
                found.append(field.group(1))
            elif line.strip() and not line.startswith((" ", "\t")):
                within = False
    return found


def main():
    antt = sorted(glob.glob("crates/*/specs/**/*.antt", recursive=True) + glob.glob("crates/*/proofs/**/*.antt", recursive=True))
    rest = sorted(glob.glob("crates/*/src/**/*.rt", recursive=True) + glob.glob("crates/*/edits/*.edit") + glob.glob("crates/*/must-fail/*.edit"))
    turned, kept = {}, collections.Counter()
    for path in antt:
        for name in [] if "/proofs/" in path and path.endswith(("/Answers.antt", "/Invariants.antt")) else names_of(path):
            if wants(name):
                turned[name] = snake(name)
            else:
                kept[name] += 1
    together = collections.defaultdict(set)
    for a, b in turned.items():
        together[b].add(a)
    for b, names in sorted(together.items()):
        if len(names) > 1 or kept[b]:
            print(f"fall together: {', '.join(sorted(names))} -> {b}{' (there already)' if kept[b] else ''}")
    if not turned:
        return print("0 names")
    word = re.compile(r"(?<![\w'·-])(" + "|".join(sorted((re.escape(n) for n in turned), key=len, reverse=True)) + r")(?![\w'·-])")
    for path in antt + rest:
        text = open(path, encoding="utf8").read()
        mine = set(word.findall(text))
        if not mine:
            continue
        for name in sorted(mine):
            if re.search(rf"(?<![\w'·-]){re.escape(turned[name])}(?![\w'·-])", text):
                print(f"look: {path}: {name} -> {turned[name]}")
        if "--dry" not in sys.argv:
            open(path, "w", encoding="utf8").write(word.sub(lambda m: turned[m.group(1)], text))
    print(f"{len(turned)} names")


main()
