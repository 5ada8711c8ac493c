#!/usr/bin/env python3
"""Spells the repository's own words as the library does: definitions, lemmas and fields in snake case.

usage: python3 tools/respell.py        at the top, once, right after the kit's own script

A word in camel case that begins small, as withLine, becomes with_line. A dash in the name of one of the repository's
lemmas becomes an underscore, but where it joins two names that stand in the lemma (KEPT). Names that would fall
together with another, and those that the kit's script left half turned, stand in OTHERS.
"""

import os
import re
import sys

WORD = re.compile(r"(?<![\w'◌-])[A-Za-z][\w'-]*")
HUMP = re.compile(r"(?<=[a-z0-9])([A-Z])")
SIGNATURE = re.compile(r"^\s*(?:(?:abbrev|unfoldable)\s+)?(?:pub\s+)?([A-Za-z][\w'-]*)\s.*?:\s*(.*)$")
KEPT = {"length-addresses", "length-bytes_of", "length-renewed", "length-undo", "take-patched", "drop-56", "set-blank"}
# lemmas of the library with which a line of a proof begins, which reads like a signature
KEPT |= {"take-replicate"}
OTHERS = {
    # fields of Sizes have these names
    "cacheLines": "cache_lines_of",
    "dataLines": "data_lines_of",
    # definitions have these names
    "count-of": "count_of_lem",
    "line-at": "line_at_lem",
    "field-good": "field_good_lem",
    "fields-good": "fields_good_lem",
    "lowest-free": "lowest_free_lem",
    "closed-notes": "closed_notes_lem",
    "open-fits": "open_fits_lem",
    # the outer call first
    "bit-and": "bit-bit_and",
    "bit-or": "bit-bit_or",
    "contentOr-orElse": "content_or-or_else",
}


def files(root):
    for folder, dirs, names in os.walk(os.path.join(root, "crates")):
        dirs[:] = [d for d in dirs if d != "out"]
        for name in sorted(names):
            if name.endswith((".rt", ".antt")):
                yield os.path.join(folder, name)


def code(line):
    return re.sub(r"(--|//).*", "", line)


def lemmas(root):
    """The names with a dash that the repository's own proofs give, and not those that answer a goal."""
    found = set()
    for path in files(root):
        if not path.endswith(".antt"):
            continue
        with open(path, encoding="utf-8") as f:
            for line in f:
                m = SIGNATURE.match(code(line.rstrip("\n")))
                if m and "-" in m[1] and not m[2].strip().startswith("goal."):
                    found.add(m[1])
    return found


def small(word):
    parts = word.split("-")
    return "-".join(HUMP.sub(lambda m: "_" + m[1].lower(), p) if p[:1].islower() else p for p in parts)


def spelled(word, dashed):
    if word in OTHERS:
        return OTHERS[word]
    new = small(word)
    if word in dashed and word[0].islower() and new not in KEPT:
        new = new.replace("-", "_")
    return new


def main():
    root = sys.argv[1] if len(sys.argv) > 1 else "."
    dashed = lemmas(root)
    changed = {}
    for path in files(root):
        with open(path, encoding="utf-8") as f:
            text = f.read()

        def turn(m):
            new = spelled(m[0], dashed)
            if new != m[0]:
                changed[m[0]] = new
            return new

        turned = WORD.sub(turn, text)
        if turned != text:
            with open(path, "w", encoding="utf-8") as f:
                f.write(turned)
    together = {}
    for old, new in changed.items():
        together.setdefault(new, set()).add(old)
    for new, olds in sorted(together.items()):
        if len(olds) > 1:
            print(f"respell: {', '.join(sorted(olds))} fall together as {new}")
    print(f"respell: {len(changed)} words")


if __name__ == "__main__":
    main()
