#!/usr/bin/env python3
"""Brings this repository's own definitions, lemmas, fields and constructors to today's spelling: snake case.

usage: tools/respell.py          once, at the top of the repository, right behind the kit's port.py

A name that begins with a small letter is turned: `relationNumber` to `relation_number`, `begins-differ` to `begins_differ`. A dash
beside a part that begins with a capital stays, since such a part is a type or a fact. A name is turned in the files that declare it or
import it from a crate of this repository; one that a file imports from Rattle's library keeps its spelling there. Names of the code,
exported names, strings, inputs and outputs stay. `specs/Contracts.antt`, a name that Rattle now makes itself, becomes `FunctionContracts`.
Must-fail edits and pages get the same names; an edit whose text differs by more is brought over by hand.
It prints each name that falls together with another, and turns neither.
"""

import collections
import os
import re
import subprocess
import sys

DECLARED = re.compile(
    r"^[ \t]*(?:\| )?(?:(?:unfoldable|abbrev|data|record|mutual|pub|ruleset) )*([^\s(){}\[\],;:.λ→≡×|\"`=]+)(?: [^:\n=]*)? :(?=\s|$)", re.M
)
RULESET = re.compile(r"^[ \t]*(?:pub )?ruleset (?:pub )?([^\s=]+) =", re.M)
LET = re.compile(r"^[ \t]*(?:let|in) ")
TOKEN = re.compile(r"[^\s(){}\[\];,.:|\"`=]+")
OTHER = {"Contracts": "FunctionContracts"}
# lemmas whose names definitions take
LEMMAS = {"own_value": "own_value_lem", "set_own": "set_own_lem", "in_group": "in_group_lem"}


def snake(name):
    parts = name.split("-")
    done = []
    for p in parts:
        if p[:1].islower():
            p = re.sub(r"(?<=[a-z0-9₀-₉])(?=[A-Z])", "_", p).lower() if re.search(r"[A-Z]", p) else p
        done.append(p)
    out = done[0]
    for before, p in zip(done, done[1:]):
        out += ("-" if before[:1].isupper() or p[:1].isupper() or not before or not p else "_") + p
    return out


def turns(name):
    return bool(name[:1].islower() and snake(name) != name)


def lines_of(text):
    return text.split("\n")


def without_comments(text):
    return re.sub(r"(?m)(^|\s)--(\s.*)?$", r"\1", text)


def words(f, text):
    """What a file names: without the paths of its imports, and of code only what its clauses import."""
    if f.endswith(".rt"):
        return set(TOKEN.findall(" ".join(re.findall(r"(?m)^ghost use [^{;]*(\{[^}]*\})", text))))
    plain = re.sub(r"(?m)^(\s*use )[^\s{;]+", r"\1", without_comments(text))
    return set(TOKEN.findall(re.sub(r"(?<=\.)[^\s(){}\[\];,.:|\"`=]+", "", plain)))


class Repository:
    def __init__(self):
        self.crates = sorted(c for c in os.listdir("crates") if os.path.isdir(os.path.join("crates", c, "src")))
        self.files = []
        for folder, dirs, names in os.walk("crates"):
            dirs[:] = sorted(d for d in dirs if d != "out")
            for n in sorted(names):
                if n.endswith((".antt", ".rt")):
                    self.files.append(os.path.join(folder, n))
        self.text = {f: open(f, encoding="utf-8").read() for f in self.files}

    def declared(self):
        """Names that lemma and definition files declare, with their files."""
        found = collections.defaultdict(set)
        for f in self.files:
            if f.endswith(".antt") and not f.endswith("/Proof.antt") and not re.search(r"/proofs/.+/(Answers|Invariants)\.antt$", f):
                plain = without_comments(self.text[f])
                for m in DECLARED.finditer(plain):
                    if not LET.match(m.group(0)):
                        found[m.group(1)].add(f)
                for m in RULESET.finditer(plain):
                    found[m.group(1)].add(f)
        return found

    def imports(self, f):
        """(names imported from crates of this repository, names imported from Rattle's library)"""
        own, other = set(), set()
        for m in re.finditer(r"(?m)^\s*(?:ghost )?(?:pub )?use ([^\s{;]+?)\.?\{([^}]*)\}", self.text[f]):
            path = m.group(1).split(".")
            mine = path[0] == "Rattle" and len(path) > 1 and path[1] in self.crates
            for n in m.group(2).split(","):
                for w in n.split(" as "):
                    if w.strip():
                        (own if mine else other).add(w.strip())
        return own, other


def main():
    repo = Repository()
    declared = repo.declared()
    turned = {n: snake(n) for n in declared if turns(n)}
    for f in repo.files:
        if "/proofs/" in f:
            in_proofs = set(re.findall(r"[^\s{},]+", " ".join(re.findall(r"(?m)^use Rattle\.\w+\.proofs\.[^{;]*\{([^}]*)\}", repo.text[f]))))
            for old, new in LEMMAS.items():
                if old in in_proofs or f in declared.get(old, ()):
                    repo.text[f] = re.sub(r"(?<![\w'-])%s(?![\w'-])" % old, new, repo.text[f])
    declared = repo.declared()
    # names that fall together where one file sees both: what definition files declare has the name, and a lemma gets `_lem`
    tokens = {f: words(f, repo.text[f]) for f in repo.files}
    by_new = collections.defaultdict(set)
    for n in declared:
        by_new[turned.get(n, n)].add(n)
    for old, new in sorted(turned.items()):
        rivals = by_new[new] - {old}
        seen = [f for f in repo.files if old in tokens[f] and (new in tokens[f] or rivals & tokens[f])]
        if not seen:
            continue
        defined = any("/specs/" in f for f in declared[old]) or "-" not in old
        if defined and not any("/specs/" in f for r in rivals for f in declared[r]) and new not in set().union(*(tokens[f] for f in seen)):
            continue
        turned[old] = new + ("_def" if defined else "_lem")
        print("together:", old, "->", turned[old], "in", ", ".join(f[7:] for f in seen[:3]))
    for f in repo.files:
        here = collections.defaultdict(set)
        for o in tokens[f] & set(turned):
            here[turned[o]].add(o)
        for new, olds in here.items():
            if len(olds) > 1 or new in tokens[f]:
                print("CLASH:", f, new, sorted(olds), new in tokens[f])
    count = 0
    for f in repo.files:
        text = repo.text[f]
        own, other = repo.imports(f)
        here = set(DECLARED.findall(without_comments(text))) | own
        new = []
        proof = f.endswith("/Proof.antt")
        rust = f.endswith(".rt")
        for line in lines_of(text):
            lib = re.match(r"\s*(?:ghost )?(?:pub )?use ([^\s{;]+)", line)
            if lib:
                path = lib.group(1).split(".")
                if not (path[0] == "Rattle" and len(path) > 1 and path[1] in repo.crates):
                    new.append(line)
                    continue
            comment = None
            mark = "//" if rust else "--"
            at = re.search(r"(^|\s)" + mark, line)
            code, comment = (line[: at.end() - 2], line[at.end() - 2 :]) if at else (line, "")

            def turn(m):
                w = m.group(0)
                t = w.lstrip("←@")
                lead = w[: len(w) - len(t)]
                if t in other or t not in turned:
                    return w
                before = m.string[: m.start()]
                # a field or the end of a path: only what a lemma file declares; `tie.x` and the like are Rattle's
                if before.endswith(".") and re.search(r"(tie|reads|lts|goal|Goals|Given|Tie|Statement|Reads)\.$", before):
                    return w
                if proof and "-" in t and t not in own and not before.endswith("."):
                    return w
                if proof and "-" in t and before.endswith(".") and not re.search(r"(Rattle|specs|proofs)\.", before):
                    return w
                return lead + turned[t]

            def turn_words(m):
                w = m.group(0)
                if w in turned and (re.search(r"[a-z0-9][A-Z]", w) or w in here):
                    return turned[w]
                return snake(w) if turns(w) and snake(w) in here else w

            code2 = TOKEN.sub(turn, code)
            comment2 = TOKEN.sub(turn_words, comment)
            new.append(code2 + comment2)
        out = "\n".join(new)
        for a, b in OTHER.items():
            out = re.sub(r"(Rattle\.(?:%s)\.specs\.)%s(?![\w])" % ("|".join(repo.crates), a), r"\1" + b, out)
            if f.endswith("specs/Lib.antt"):
                out = re.sub(r"(?m)^(pub mod )%s$" % a, r"\1" + b, out)
            out = re.sub(r"(specs/)%s\.antt" % a, r"\1%s.antt" % b, out)
        if out != open(f, encoding="utf-8").read():
            count += 1
            with open(f, "w", encoding="utf-8") as o:
                o.write(out)
    for c in repo.crates:
        for a, b in OTHER.items():
            old = os.path.join("crates", c, "specs", a + ".antt")
            if os.path.exists(old):
                os.rename(old, os.path.join("crates", c, "specs", b + ".antt"))
    # edits and pages
    pages = ["README.md"] + [os.path.join("docs", p) for p in sorted(os.listdir("docs")) if p.endswith(".md") and p not in ("PORT.md", "CHANGES.md")]
    edits = []
    for c in repo.crates:
        folder = os.path.join("crates", c, "must-fail")
        if os.path.isdir(folder):
            edits += [os.path.join(folder, e) for e in sorted(os.listdir(folder)) if e.endswith(".edit")]
    for f in pages + edits:
        text = open(f, encoding="utf-8").read()

        def turn_page(m):
            w = m.group(0)
            if w in turned or not turns(w):
                return turned.get(w, w)
            return snake(w) if snake(w) in declared else w

        def ticks(m):
            return TOKEN.sub(turn_page, m.group(0))

        def camel(m):
            w = m.group(0)
            return turned[w] if w in turned and re.search(r"[a-z0-9][A-Z]", w) else w

        if f.endswith(".edit"):
            out = "\n".join(TOKEN.sub(turn_page, l) if re.match(r"(old|new):", l) else TOKEN.sub(camel, l) for l in text.split("\n"))
            for a, b in OTHER.items():
                out = out.replace(f"specs/{a}.antt", f"specs/{b}.antt")
        else:
            out = TOKEN.sub(camel, re.sub(r"`[^`\n]+`", ticks, text))
        if out != text:
            count += 1
            with open(f, "w", encoding="utf-8") as o:
                o.write(out)
    print(f"{len(turned)} names turned, {count} files")


if __name__ == "__main__":
    os.chdir(subprocess.run(["git", "rev-parse", "--show-toplevel"], capture_output=True, text=True, check=True).stdout.strip())
    sys.exit(main())
