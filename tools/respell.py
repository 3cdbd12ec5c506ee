#!/usr/bin/env python3
"""Brings the names of this repository's definitions and lemmas to snake case.

Run once, at the top, after the toolchain's own port script: a word in camel case or with dashes, that a file of specs/
or proofs/ declares, gets underscores, in every .antt and .rt file, in every must-fail edit, and where a page or a comment
sets it between backticks. A dash stays where it joins two names. Types keep their capitals, and the code of src/,
exported names and strings keep theirs: only clauses and `ghost use` lines of a .rt file are looked at.
"""
import glob
import os
import re
import sys

WORD = re.compile(r"[A-Za-z_][A-Za-z0-9_'-]*")

# names whose snake case would fall together with another name of the same text
BY_HAND = {
    "before-all": "before_all_lem",
    "blank-row": "blank_row_lem",
    "greater-of": "greater_of_lem",
    "host-cells-at": "host_cells_at_lem",
    "is-nan": "is_nan_lem",
    "length_last": "length_last_lem",
    "line-for": "line_for_lem",
    "lines-of": "lines_of_lem",
    "living-room": "living_room_lem",
    "most-dowels": "most_dowels_lem",
    "most-used": "most_used_lem",
    "net-tension": "net_tension_lem",
    "pass-or-fail": "pass_or_fail_lem",
    "read-cells": "read_cells_lem",
    "rounding-edge": "rounding_edge_lem",
    "strength-in": "strength_in_lem",
    "text-of": "text_of_lem",
    "value-at": "value_at_lem",
    "yes-no-at": "yes_no_at_lem",
}

# parts that are names of their own, so that the dash before or after them joins two names
JOINED = {"append", "gives", "refuses", "snoc", "length", "filled", "zeros"}


def declared(path):
    """The names that a file declares, at any depth."""
    names = set()
    for line in open(path, encoding="utf-8"):
        m = re.match(r"\s*(?:unfoldable )?(?:abbrev )?(?:unfoldable )?(?:pub )?([A-Za-z][A-Za-z0-9_'-]*) ?:(?!:)", line)
        if m:
            names.add(m.group(1))
    return names


def snake(part):
    return re.sub(r"(?<=[a-z0-9])([A-Z]+)", r"_\1", part).lower()


def respelled(name):
    if name in BY_HAND:
        return BY_HAND[name]
    if name[0].isupper():
        return name
    parts = name.split("-")
    joined = len(parts) > 1 and any(p != snake(p) for p in parts) and all(p != snake(p) and len(p) > 1 or p in JOINED for p in parts)
    return ("-" if joined else "_").join(re.sub("(?<=[a-z])([A-Z])(?=[a-z])", r"_\1", p) and snake(p) for p in parts)


def table(top):
    names = set()
    for path in glob.glob(top + "/crates/*/specs/**/*.antt", recursive=True) + glob.glob(top + "/crates/*/proofs/*.antt"):
        names |= declared(path)
    return {n: respelled(n) for n in names if respelled(n) != n}


def in_text(text, names):
    return WORD.sub(lambda m: names.get(m.group(0), m.group(0)), text)


def in_ticks(text, names):
    return re.sub(r"`[^`\n]*`", lambda m: in_text(m.group(0), names), text)


def antt(text, names):
    lines = []
    for line in text.split("\n"):
        code, dashes, comment = line.partition("--") if re.match(r"\s*--", line) else (line, "", "")
        lines.append(in_text(code, names) + dashes + in_ticks(comment, names))
    return "\n".join(lines)


def rattle(text, names):
    """The clauses and `ghost use` lines, and the backticks of comments."""
    out, depth, inside = [], 0, False
    for line in text.split("\n"):
        if re.match(r"\s*//", line):
            out.append(in_ticks(line, names))
            continue
        if re.match(r"\s*ghost use ", line):
            out.append(in_text(line, names))
            continue
        if not inside and re.match(r"\s*(requires|ensures)\b", line):
            inside, depth = True, 0
        if inside:
            depth += line.count("{") - line.count("}")
            out.append(in_text(line, names))
            inside = depth > 0 or "{" not in line and depth == 0
        else:
            out.append(line)
    return "\n".join(out)


def edit(text, names):
    """What is replaced and what stands for it; not the sentence above them."""
    return "\n".join(in_text(l, names) if re.match("(old|new):", l) else l for l in text.split("\n"))


def main():
    top = sys.argv[1] if len(sys.argv) > 1 else "."
    names = table(top)
    if "--table" in sys.argv:
        for n in sorted(names):
            print(n, names[n])
        return
    for path in glob.glob(top + "/crates/*/**/*", recursive=True) + glob.glob(top + "/docs/*.md") + glob.glob(top + "/*.md"):
        turn = {".antt": antt, ".rt": rattle, ".edit": edit, ".md": in_ticks}.get(os.path.splitext(path)[1])
        if not turn or not os.path.isfile(path) or os.path.basename(path).startswith("PORT"):
            continue
        before = open(path, encoding="utf-8").read()
        after = turn(before, names)
        if after != before:
            open(path, "w", encoding="utf-8").write(after)


main()
