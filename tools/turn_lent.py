#!/usr/bin/env python3
"""In contracts, `lent`, `returned` and `handed` take the lists themselves: `p.old` or `p.new` of a `&mut` p, `p.now` of a `&` p, and a list where `unlent` took one.

usage: tools/turn_lent.py FILE..      source files, once, behind port.py and tools/respell.py

It prints how many applications it turned in each file. The imports of `unlent` are then taken out by hand.
"""

import re
import sys

WORD = r"[A-Za-z_][\w.']*"
ARGUMENT = rf"(?:\(unlent {WORD}\)|{WORD})"
APPLIED = re.compile(rf"\b(lent|returned|handed)((?:\s+{ARGUMENT}){{5}})(?![\w.'])")
FUNCTION = re.compile(r"^( *)(?:pub(?:\([^)]*\))? )?(?:const )?(?:unsafe )?(?:extern \"C\" )?fn (\w+)", re.M)


def closing(text, at):
    """Where the bracket at `at` is closed."""
    depth = 0
    while True:
        depth += {"(": 1, ")": -1}.get(text[at], 0)
        if depth == 0:
            return at
        at += 1


def parameters(text):
    """The parameters, each with its type."""
    found, depth, current = {}, 0, ""
    for ch in text + ",":
        depth += {"(": 1, "[": 1, "<": 1, "{": 1, ")": -1, "]": -1, ">": -1, "}": -1}.get(ch, 0)
        if ch == "," and depth == 0:
            m = re.match(r"\s*(?:mut )?(\w+)\s*:\s*(.*)", current.strip(), re.S)
            if m:
                found[m.group(1)] = m.group(2).strip()
            current = ""
        else:
            current += ch
    return found


def argument(word, name, types):
    """What stands for an argument of `word`."""
    unlent = re.match(r"\(unlent (.*)\)$", name)
    name = unlent.group(1) if unlent else name
    kind = types.get(name)
    if kind is None or not kind.startswith("&"):
        return name
    if "mut " in kind.split("[")[0]:
        return name + (".new" if word == "returned" else ".old")
    return name + ".now"


def turn(text):
    out, past, count = "", 0, 0
    for m in FUNCTION.finditer(text):
        begin = text.index("(", m.end())
        end = closing(text, begin)
        types = parameters(text[begin + 1 : end])
        body = re.compile(rf"\n{m.group(1)}\{{[\n ]").search(text, end)
        behind = FUNCTION.search(text, m.end())
        if not body or (behind and body.start() > behind.start()):
            continue

        def applied(a):
            return a.group(1) + re.sub(rf"(\s+)({ARGUMENT})", lambda b: b.group(1) + argument(a.group(1), b.group(2), types), a.group(2))

        clauses, n = APPLIED.subn(applied, text[end : body.start()])
        count += n
        out += text[past:end] + clauses
        past = body.start()
    return out + text[past:], count


if __name__ == "__main__":
    for path in sys.argv[1:]:
        with open(path, encoding="utf-8") as f:
            turned, count = turn(f.read())
        with open(path, "w", encoding="utf-8") as f:
            f.write(turned)
        print(path, count)
