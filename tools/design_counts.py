#!/usr/bin/env python3
"""Counts, for docs/DESIGN-PASS.md, the places of each of its points in src/.

    tools/design_counts.py [--list] [FOLDER]

FOLDER is a checkout (this one, if none is given). With --list each place is printed too."""
import glob
import os
import re
import sys

args = [a for a in sys.argv[1:] if a != "--list"]
top = args[0] if args else os.path.join(os.path.dirname(os.path.abspath(__file__)), "..")
listed = "--list" in sys.argv[1:]
files = {os.path.relpath(f, top): open(f).read() for f in sorted(glob.glob(os.path.join(top, "crates/*/src/*.rt")))}


def lines(pattern):
    """Lines of code that match."""
    for name, text in files.items():
        for number, line in enumerate(text.split("\n"), 1):
            code = line.split("//")[0]
            if re.search(pattern, code):
                yield f"{name}:{number}: {line.strip()}"


def items(keyword):
    """Structs or enums, each with its text."""
    for name, text in files.items():
        for m in re.finditer(r"^(?:pub )?%s (\w+)[^{;]*\{(.*?)^\}" % keyword, text, re.M | re.S):
            yield name, m.group(1), m.group(2)


def functions():
    """Functions, each with the names and types of its parameters and its body."""
    head = re.compile(r"^( *)(?:pub )?(?:extern \"C\" )?fn (\w+)")
    for name, text in files.items():
        rows = text.split("\n")
        for at, row in enumerate(rows):
            m = head.match(row)
            if not m:
                continue
            end = next((k for k in range(at, len(rows)) if rows[k] == m.group(1) + "}"), None)
            begin = next((k for k in range(at, len(rows)) if rows[k].rstrip().endswith("{") and not re.match(r"\s*(requires|ensures)\b", rows[k])), None)
            if end is None or begin is None or end < begin:
                continue
            signature = " ".join(re.split(r"\n\s*(?:requires|ensures)\b", "\n".join(rows[at:begin + 1]))[0].split("\n"))
            parameters = re.search(r"\((.*)\)", re.sub(r"fn \w+<[^(]*>+\(", "fn (", signature))
            yield name, m.group(2), parameters.group(1) if parameters else "", "\n".join(rows[begin + 1:end])


def result_shaped():
    for name, enum, body in items("enum"):
        variants = re.findall(r"^    (\w+)(\([^)]*\))?", body, re.M)
        if any("Refusal" in v[1] or v[0] == "Offends" for v in variants):
            yield f"{name}: enum {enum}"


def flags():
    for name, struct, body in items("struct"):
        if re.search(r": bool,", body):
            yield f"{name}: struct {struct}"


def sentinels():
    """Comments that give a number for none."""
    for name, text in files.items():
        for number, line in enumerate(text.split("\n"), 1):
            if "//" in line and re.search(r"if there is none|where all may|0 behind its end|which is 0|both 0 while|'s length if|\bor 0\b|, or 0,|0 where there is none|length if", line):
                yield f"{name}:{number}: {line.strip()}"


GROUPS = [
    ("offsets", "targets"),
    ("discoveries", "finishes", "parents", "starts"),
    ("from", "to"), ("froms", "tos"),
    ("heads", "places"),
    ("pending", "blocks"),
    ("kept", "parts", "rows"),
    ("out", "at"),
    ("clauses", "literals"),
    ("times", "links"),
    ("sizes", "learnt", "window"),
]


def together():
    for group in GROUPS:
        found = []
        for name, fn, parameters, body in functions():
            names = re.findall(r"(\w+):", parameters)
            if all(g in names for g in group):
                found.append(f"{name}: {fn}")
        yield ", ".join(group), found


def show(title, found):
    found = list(found)
    print(f"{title}: {len(found)}")
    if listed:
        for place in found:
            print(f"    {place}")


show("1. enums with a refusal beside a value", result_shaped())
show("1. numbers that stand for none", sentinels())
show("1. structs with a flag beside a value", flags())
show("1. pass codes as numbers", lines(r"\b(SETTLE|STAMP|FAILED|SWEEP)\b"))
show("2. functions that copy, compare, fill or take the less, beside the library's", (f"{n}: {f}" for n, f, *_ in functions() if re.match(r"(copy|same|clear|zero|fewer$|less$|either$|used$|is_digit|is_separator|or_else|number_at$|digit$|standing_flag|move_)", f)))
show("3. while and loop", lines(r"^\s*(while |loop \{)|= loop \{"))
show("4. answers given by a ladder (return true, return false)", lines(r"^\s*return (true|false);"))
for group, found in together():
    show(f"5. functions that take {group}", found)
show("6. structs of a buffer and its length", (f"{n}: struct {s}" for n, s, b in items("struct") if re.search(r": \[\w+; \d+\]", b) and re.search(r"\b(length|count): ", b)))
show("7. a switch on which step to run", lines(r"if code ==|joined: bool|match code|\bjoined\b.*\{$"))
proofs = glob.glob(os.path.join(top, "crates/*/proofs/**/Proof.antt"), recursive=True)
answers = glob.glob(os.path.join(top, "crates/*/proofs/**/Answers.antt"), recursive=True)
antt = [f for f in glob.glob(os.path.join(top, "crates/*/proofs/**/*.antt"), recursive=True)]
print(f"8. whole proofs by hand: {len(proofs)}; files of answers: {len(answers)}; lines of proofs: {sum(len(open(f).read().splitlines()) for f in antt)}")
