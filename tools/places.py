#!/usr/bin/env python3
"""Counts what docs/DESIGN-PASS.md speaks of in crates/*/src at a commit: tools/places.py COMMIT [--list]

Lines of code alone are looked at, no comments. With --list each place is printed with its file.
"""
import re
import subprocess
import sys

commit = sys.argv[1] if len(sys.argv) > 1 else "HEAD"
listing = "--list" in sys.argv


def git(*words):
    return subprocess.run(["git", *words], capture_output=True, text=True, check=True).stdout


def files(pattern):
    names = git("ls-tree", "-r", "--name-only", commit).split("\n")
    return [n for n in names if re.search(pattern, n)]


SOURCES = {n: git("show", f"{commit}:{n}") for n in files(r"^crates/[^/]+/src/.*\.rt$")}
CODE = {n: "\n".join("" if l.strip().startswith("//") else l for l in t.split("\n")) for n, t in SOURCES.items()}
# Clauses stand below a signature: a fact is counted once for each function that asks for it or gives it.
FUNCTION = re.compile(r"^ *(?:pub |pub\(crate\) )?(?:extern \"C\" )?fn (\w+)(.*?)^ *\{$", re.M | re.S)


def lines(pattern):
    return [(n, l.strip()) for n, t in CODE.items() for l in t.split("\n") if re.search(pattern, l)]


def blocks(word):
    """Own structs, enums or traits: the file, the name and the body."""
    found = []
    for n, t in CODE.items():
        for m in re.finditer(rf"^((?:#\[[^\n]*\]\n)*)(?:pub(?:\(crate\))? )?{word} (\w+)[^;{{]*\{{\n(.*?)^\}}", t, re.M | re.S):
            found.append((n, m.group(2), m.group(3), m.group(1)))
    return found


def two_variants():
    return [(n, name) for n, name, body, _ in blocks("enum") if len(re.findall(r"^    [A-Z]", body, re.M)) == 2]


def bare_enums():
    return [(n, name) for n, name, _, derive in blocks("enum") if "PartialEq" not in derive]


def functions():
    """Each function: its file, its name, and the text from its parameters to its body."""
    return [(n, m.group(1), m.group(2)) for n, t in CODE.items() for m in FUNCTION.finditer(t)]


def in_three(found):
    """Of pairs of a thing and the function that has it: the things that three functions or more have."""
    where = {}
    for thing, name in found:
        where.setdefault(thing, []).append(name)
    return [(thing, f"{len(at)} functions") for thing, at in sorted(where.items()) if len(at) >= 3]


def facts():
    """Named facts in the contracts of three functions or more."""
    found = []
    for _, name, head in functions():
        clauses = "\n".join(l for l in head.split("\n") if re.search(r"^ +(requires|ensures|×)", l))
        named = set(re.findall(r"\b(?:In[A-Z]\w+|\w+Ranges|RangesOf|Section|Layout|HasRoom)\b", clauses))
        found += [(fact, name) for fact in named]
    return in_three(found)


def asked():
    """Functions with a `requires`."""
    return [(n, name) for n, name, head in functions() if "requires" in head]


def together():
    """Pairs of parameters, by name and type, in three signatures or more."""
    found = []
    for _, name, head in functions():
        inside = re.search(r"\((.*?)\)\s*(?:->|\n|$)", head, re.S)
        given = sorted(set(re.findall(r"(\w+: [&\w\[\] ]+)", inside.group(1)))) if inside else []
        found += [(f"{a} and {b}", name) for i, a in enumerate(given) for b in given[i + 1:]]
    return in_three(found)


def proofs(pattern):
    return [(n, "") for n in files(r"^crates/[^/]+/proofs/.*/" + pattern + r"\.antt$")]


def proof_lines(pattern):
    return sum(len(git("show", f"{commit}:{n}").split("\n")) - 1 for n, _ in proofs(pattern))


COUNTS = [
    ("1", "own enums of two cases", two_variants),
    ("1", "a flag as a field", lambda: lines(r"^ +pub (outcome|unreadable|failed|jointed|passes): ")),
    ("1", "tests of a number that is 0 for none", lambda: lines(r"^ *if [a-z_]+ != 0 \{")),
    ("1", "arms that take a refusal or a none apart", lambda: lines(r"\b(Refused\(refusal\)|Err\(refusal\)|Refused|Ends|Unreadable|TooWide\(cell\)|Missing|Unknown) =>")),
    ("1", "a check, regime, grade or row as a number", lambda: lines(r"\b(check|regime|table16|grade): u(32|64)")),
    ("1", "enums without equality", bare_enums),
    ("2", "functions of twins, by the names at the start", lambda: lines(r"fn (write_floats|write_numbers|lowest_misfilled_in|lowest_outside_in|is_begun|refused|tension_resistance|compression_resistance|with_word_field|with_number_field|input_unread|input_cut|output_lost|input_room|room|half_word_at|from_to|any_code|smaller|is_filled|value_of|is_unreadable|cell_read|is_too_wide|byte_value|value_at|material_in|answer_verdict|answer_strengths|answer_beam_verdict)\b")),
    ("2", "generic functions, traits and impls of them", lambda: lines(r"\bfn \w+<|^ *(pub )?trait |^impl(<.*>)? [\w:]+(<.*>)? for ")),
    ("3", "while loops", lambda: lines(r"^ *while ")),
    ("3", "an index counted by hand", lambda: lines(r"^ *i (= i \+|\+=) 1;")),
    ("3", "for loops and chains", lambda: lines(r"^ *for |\.(iter|iter_mut|chunks_exact|chunks_exact_mut|map|enumerate|zip)\(")),
    ("4", "conversions by `as`", lambda: lines(r" as (u8|u32|u64|usize|f64)\b")),
    ("4", "min, max, a range, div_ceil, is_nan by hand", lambda: lines(r"if x < y \{ x|if [0-9_]+ < sum|if y\.[a-z]+ <= x\.|<= [a-zA-Z_0-9.]+\) & \(|x != x|0\.0 / 0\.0|\+ 7\) / 8|\(d - 1\)\) / d")),
    ("4", "bytes of a number by hand", lambda: lines(r"\bbyte_value\(|rest [%/] 256|= rest / 256")),
    ("4", "fields copied under their own names", lambda: lines(r"^ *(\w+): \1,$|let slot = |= (slot|second|third|thirteenth)\.cell|Slot \{")),
    ("5", "facts in the contracts of three functions or more", facts),
    ("5", "functions that ask for something", asked),
    ("5", "pairs of parameters in three signatures or more", together),
    ("6", "a length or a place as a field", lambda: lines(r"^ +pub (len|at|count|bytes|next): (usize|u64),")),
    ("6", "a length or a place as a parameter", lambda: lines(r"fn .*(\bat: usize|\bn: usize|from: usize, to: usize|place: usize)")),
    ("6", "arrays of a fixed size", lambda: lines(r"\[[a-zA-Z0-9_]+; ?[A-Z0-9a-z]+\]")),
    ("7", "a match on a kind, a stress or a number", lambda: lines(r"^ *match (kind|stress|n|known|attempt|code|self) \{")),
    ("7", "closures and bounds of them", lambda: lines(r"\bFn(Once|Mut)?\(|[(=] ?\|[a-z_(), ]*\|")),
    ("8", "functions with a written proof", lambda: sorted({(n.rsplit("/", 1)[0], "") for n, _ in proofs("Answers") + proofs("Invariants")})),
]

print(f"{commit}: {len(SOURCES)} files")
for point, what, count in COUNTS:
    places = count()
    print(f"{point}  {len(places):4}  {what}")
    if listing:
        for place in places:
            print("          ", *place)
print(f"8  {proof_lines('Answers') + proof_lines('Invariants'):4}  lines of Answers and Invariants")
