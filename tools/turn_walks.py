#!/usr/bin/env python3
"""Gives the proofs that answer a function's goals (proofs/F/Proof.antt) the names that today's Rattle makes for goals and steps.

usage: tools/turn_walks.py [--from COMMIT] CRATE..      in the repository

It asks `rt check --generated DIR --old-names` for the names, old and new, and rewrites each Proof.antt of the crate, as it stands in COMMIT
where one is given. The answers stay, in their order; an answer to a goal that is no longer asked goes, and a new goal gets `search rules`.
A field is read off the place itself, where it was read off an earlier place by a chain of `.before`, since each place now passes on the fields
of those before it; a chain stays where a lemma of the file takes the record of an earlier place, in its new length.
What it can't match is printed.
"""

import difflib
import json
import os
import re
import subprocess
import sys
import tempfile

W = r"[^\s(){}\[\];,.:|\"`=]+"


def norm(name):
    n = name.replace("_", "-").lower()
    n = re.sub(r"^overflow-", "", n)
    return n.replace("loop-holds", "loop-init").replace("loop-less", "loop-smaller").replace("loop-again", "loop-preserved")


def names_of(crate):
    where = os.path.join("crates", crate)
    with tempfile.TemporaryDirectory() as d:
        out = os.path.join(d, "names")
        r = subprocess.run(["rt", "check", "--generated", out, "--old-names"], cwd=where, stdout=subprocess.PIPE, stderr=subprocess.STDOUT, text=True)
        path = os.path.join(out, "names.json")
        if not os.path.exists(path):
            print(f"{crate}: no names: {r.stdout[-900:]}")
            return None
        return json.load(open(path))


def split_items(text):
    """The file as its top-level pieces: a signature, and with it its clauses and what is indented below."""
    pieces, cur = [], []
    for line in text.split("\n"):
        if line and not line[0].isspace() and line[0] not in ")]}" and cur and any(c.strip() for c in cur):
            pieces.append(cur)
            cur = []
        cur.append(line)
    pieces.append(cur)
    # a clause goes with its signature
    joined = []
    for p in pieces:
        if joined:
            name = head_of(joined[-1])
            first = next((l for l in p if l.strip()), "")
            if name and (re.match(re.escape(name) + r"(\s|$)", first) and not re.match(r"\S+ :(\s|$)", first) or first.startswith("unfolding ")):
                joined[-1] = joined[-1] + p
                continue
        joined.append(p)
    return joined


def head_of(piece):
    first = next((l for l in piece if l.strip()), "")
    m = re.match(r"(?:(?:pub|abbrev|unfoldable) )*(%s) :(\s|$)" % W, first)
    return m.group(1) if m else None


def atoms(text, at):
    """The atoms that follow at: (begin, end), a parenthesised group or a word with its fields."""
    out = []
    i = at
    while i < len(text):
        if text[i] in " \n":
            i += 1
            continue
        if text[i] in "([{":
            depth, j = 0, i
            while j < len(text):
                if text[j] in "([{":
                    depth += 1
                elif text[j] in ")]}":
                    depth -= 1
                    if depth == 0:
                        break
                j += 1
            out.append((i, j + 1))
            i = j + 1
            continue
        m = re.compile(r"%s(?:\.%s)*" % (W, W)).match(text, i)
        if not m or m.group(0) in ("in", "then", "else", "→", "∙", "≡", "×", "+", "-", "*", "<", "≤", "λ", "↦", "at", "let", "∷", "++"):
            break
        out.append((i, m.end()))
        i = m.end()
    return out


def explicit(sig):
    """The explicit parameters of a signature: (name or None, type)."""
    out, depth, i, start = [], 0, 0, 0
    segs, cur = [], ""
    for ch in sig:
        if ch in "([{":
            depth += 1
        if ch in ")]}":
            depth -= 1
        if ch == "→" and depth == 0:
            segs.append(cur)
            cur = ""
        else:
            cur += ch
    for s in segs:
        s = s.strip()
        groups = re.findall(r"\(((?:[^()]|\([^()]*\))*)\)|\{((?:[^{}])*)\}", s)
        whole = "".join(re.findall(r"\((?:[^()]|\([^()]*\))*\)|\{[^{}]*\}", s))
        if groups and whole.replace(" ", "") == s.replace(" ", "") and all(":" in (a or b) for a, b in groups):
            for a, b in groups:
                if a:
                    names, ty = a.split(":", 1)
                    for n in names.split():
                        out.append((n, ty.strip()))
        else:
            out.append((None, s))
    return out


def tie_place(ty):
    m = re.match(r"(?:tie|lts|[\w-]+-lts)\.(%s)" % W, ty.strip())
    return m.group(1) if m and not m.group(1).startswith("Need-") else None


class Places:
    def __init__(self, entry):
        self.by_old = {}
        self.parent, self.new, self.field = [], entry["places_by_name"], []
        for i, p in enumerate(entry["places"]):
            self.by_old.setdefault(norm(p[0]), i)
        for p in entry["places"]:
            self.parent.append(self.by_old.get(norm(p[1])) if p[1] else None)
            self.field.append((norm(p[2][0]), p[2][1]))
        self.arms = entry["arms"]

    def arm_field(self, i, words):
        """What an arm calls the field that these words led to: (arm, field, how many words), or None."""
        best = None
        for p in self.up(i) if i is not None else []:
            a = self.arms[p]
            if not a:
                continue
            for new, old, path in a[2]:
                if norm(old) == norm(words[0]) and path and words[1 : 1 + len(path)] == path:
                    if best is None or len(path) > best[2] - 1:
                        best = (a[0], new, 1 + len(path))
            if best:
                return best
        return best

    def index(self, new):
        return self.new.index(new) if new in self.new else None

    def up(self, i):
        while i is not None:
            yield i
            i = self.parent[i]

    def before(self, i):
        """Where `.before` leads from place i: the record of a whole arm has what lies before the arm."""
        a = self.arms[i]
        if a and self.new[i][:1].lower() + self.new[i][1:] == a[0]:
            for _ in range(a[1]):
                i = self.parent[i]
            return i
        return self.parent[i]

    def steps(self, i, j):
        """How often `.before` leads from place i to place j."""
        k = 0
        while i is not None:
            if i == j:
                return k
            i = self.before(i)
            k += 1
        return None

    def field_at(self, i, old):
        """The new name of a step's old name, seen from place i."""
        o = norm(old)
        if i is not None:
            for p in self.up(i):
                if self.field[p][0] == o and o:
                    return self.field[p][1]
        s = {new for o2, new in self.field if o2 == o and o}
        return s.pop() if len(s) == 1 else None


def by_place(fields, tail):
    """(the field that `tail`, as .1.1.0, led to among nested pairs, what is left of tail)"""
    words = tail.split(".")[1:]
    k = 0
    while k < len(fields) - 1 and words and words[0] == "1":
        k += 1
        words = words[1:]
    if k < len(fields) - 1:
        if not words or words[0] != "0":
            return None, tail
        words = words[1:]
    return fields[k], "".join("." + w for w in words)


def turn(text, entry, function, said, tie_name="tie", cycle=False):
    places = Places(entry)
    m = re.search(r"\(tie\.spec\s([^()]*)\)", text) if not cycle else None
    listed = m.group(1).split() if m else []
    needs = entry["needs"]
    asked = [new for old, new in entry["asked_at"]]
    if cycle:
        type_of = {}
        for p in split_items(text):
            h = head_of(p)
            t = re.search(r"(?<![\w.-])%s\.Need-(%s)" % (tie_name, W), "\n".join(p))
            if h and t:
                type_of[h] = t.group(1)
        listed = list(type_of)
    else:
        type_of = {a: b for a, b in re.findall(r"(?m)^(%s) : tie\.Need-(%s)" % (W, W), text)}
    answers = [a for a in listed if a in type_of]
    if {type_of[a] for a in answers} <= {n for o, n in needs} and any(norm(o) != norm(n) for o, n in needs) and not re.search(r"(?m)^(pub )?\+?\S+-spec( :| =)", text):
        return text
    others = [a for a in listed if a not in type_of]
    if len(answers) == len(needs):
        pairs = list(zip(answers, range(len(needs))))
    else:
        a = [norm(type_of[x]) for x in answers]
        b = [norm(o) for o, n in needs]
        pairs = []
        for i, j, k in difflib.SequenceMatcher(None, a, b, autojunk=False).get_matching_blocks():
            pairs += [(answers[i + t], j + t) for t in range(k)]
    got = dict(pairs)
    gone = [a for a in answers if a not in got]
    missing = [i for i in range(len(needs)) if i not in set(got.values())]
    if gone or missing:
        said.append(f"gone {[(a, type_of[a]) for a in gone]}, new {[needs[i] for i in missing]}")
    loops = {norm(old): new for (old, new), _ in (entry["loops"] or [])}
    loop_vars = {v for _, vs in (entry["loops"] or []) for v in vs}

    def place_of_type(ty):
        """The index of the place that `tie.X` names, by its old name."""
        p = tie_place(ty)
        return places.by_old.get(norm(p)) if p else None

    pieces = split_items(text)
    helpers = {}
    for p in pieces:
        name = head_of(p)
        mod = re.match(r"module _ ((?:\((?:[^()]|\([^()]*\))*\) ?)+)where", "\n".join(p).lstrip())
        if mod:
            params = explicit(mod.group(1) + "→")
            where = {i: place_of_type(t) for i, (n, t) in enumerate(params) if tie_place(t)}
            if where:
                for inner in re.findall(r"(?m)^  (?:(?:pub|abbrev) )*(%s) :(?=\s)" % W, "\n".join(p)):
                    helpers[inner] = (where, params)
        if not name or name in type_of:
            continue
        body = "\n".join(p)
        sig = re.split(r"(?m)^(?:unfolding|%s(?= |$)(?! :))" % re.escape(name), re.sub(r"^[\s\S]*?%s :" % re.escape(name), "", body, count=1), maxsplit=1)[0]
        params = explicit(sig)
        where = {i: place_of_type(t) for i, (n, t) in enumerate(params) if tie_place(t)}
        if where:
            helpers[name] = (where, params)

    out = []
    for p in pieces:
        body = "\n".join(p)
        name = head_of(p)
        lead = body.lstrip()
        if name in gone:
            continue
        mod = re.match(r"module _ ((?:\((?:[^()]|\([^()]*\))*\) ?)+)where", lead)
        if lead.startswith("use ") or lead.startswith("--") or not (name or mod):
            out.append(body)
            continue
        env, aliases = {}, {}
        if name in got:
            i = places.index(asked[got[name]])
            c = re.search(r"(?m)^%s (%s)( %s)?" % (re.escape(name), W, W), body)
            if c:
                env[c.group(2).strip() if cycle and c.group(2) and c.group(2).strip() not in ("=", "κs") else c.group(1)] = i
        inner_names = set()
        if mod:
            inner_names = set(re.findall(r"(?m)^  (?:(?:pub|abbrev) )*(%s) :(?=\s)" % W, body))
            params = explicit(mod.group(1) + "→")
            for n, t in params:
                if n and tie_place(t):
                    env[n] = place_of_type(t)
        elif name in helpers:
            where, params = helpers[name]
            for i, at in where.items():
                if params[i][0]:
                    env[params[i][0]] = at
            c = re.search(r"(?m)^%s ((?:\{[^}]*\} )*)([^=\n]*)=" % re.escape(name), body)
            if c:
                words = re.sub(r"\{[^}]*\}", "", c.group(2)).split()
                for i, at in where.items():
                    if i < len(words):
                        env[words[i]] = at
        # a name for an earlier place in a module over a place
        if mod:
            for mm in list(re.finditer(r"(?m)^  abbrev (%s) : tie\.(%s)[^\n]*\n  \1 = (%s)((?:\.before)*)$" % (W, W, W), body)):
                q = places.by_old.get(norm(mm.group(2)))
                if mm.group(3) in env and q is not None and env[mm.group(3)] is not None:
                    n = places.steps(env[mm.group(3)], q)
                    if n is not None:
                        head = mm.group(0).rsplit(" = ", 1)[0]
                        body = body.replace(mm.group(0), head + " = " + mm.group(3) + ".BEFORE" * n)
                        env[mm.group(1)] = q
        for _ in range(4):
            for mm in list(re.finditer(r"let (%s) : tie\.(%s)((?: [\w-]+)*) = (%s)((?:\.before)*) in" % (W, W, W), body)):
                q = places.by_old.get(norm(mm.group(2)))
                if mm.group(4) in env and mm.group(1) not in env and q is not None and env[mm.group(4)] is not None:
                    n = places.steps(env[mm.group(4)], q)
                    if n is None:
                        said.append(f"{name}: {mm.group(0)}")
                        continue
                    body = body.replace(mm.group(0), f"let {mm.group(1)} : tie.{mm.group(2)}{mm.group(3)} = {mm.group(4)}{'.BEFORE' * n} in", 1)
                    env[mm.group(1)] = q
        # names of earlier places, by let
        for _ in range(6):
            for mm in re.finditer(r"let (%s) = (%s)((?:\.before)*) in" % (W, W), body):
                if mm.group(2) in env and mm.group(1) not in env:
                    env[mm.group(1)] = env[mm.group(2)]
        for v in [v for v in env if re.search(r"let %s = (%s)((?:\.before)*) in" % (re.escape(v), W), body)]:
            mm = re.search(r"let %s = (%s)((?:\.before)*) in[ \n]*" % (re.escape(v), W), body)
            if mm.group(1) in env:
                # the earlier place is read off the later one: no name is needed for it
                body = body[: mm.start()] + re.sub(r"(?<![\w.'-])%s(?=\.|[^\w'-]|$)" % re.escape(v), mm.group(1), body[mm.end() :]) if body[: mm.start()].count("\n") < 99 else body
                del env[v]
        if env:
            names = "|".join(re.escape(v) for v in sorted(env, key=len, reverse=True))
            # chains as an argument of a lemma of this file that takes a place
            marks = []

            def chains(body):
                for h, (where, params) in helpers.items():
                    if h in inner_names:
                        continue
                    pos = 0
                    while True:
                        mm = re.compile(r"(?<![\w.'-])%s(?=[\s])" % re.escape(h)).search(body, pos)
                        if not mm:
                            break
                        pos = mm.end()
                        if re.match(r" :(\s|$)", body[pos:]):
                            continue
                        ats = atoms(body, pos)
                        for i, q in sorted(where.items(), reverse=True):
                            if i >= len(ats):
                                continue
                            b, e = ats[i]
                            w = body[b:e]
                            k = re.fullmatch(r"\(?(%s)((?:\.before)*)\)?" % names, w)
                            if not k or env[k.group(1)] is None or q is None:
                                continue
                            n = places.steps(env[k.group(1)], q)
                            if n is None:
                                said.append(f"{name}: {h} {w}: {places.new[env[k.group(1)]]} is not behind {places.new[q]}")
                                continue
                            body = body[:b] + k.group(1) + ".BEFORE" * n + body[e:]
                return body

            body = chains(body)

            def flat(mm):
                v, words = mm.group(1), [w for w in mm.group(2).split(".") if w]
                if not words:
                    return v
                arm = places.arm_field(env[v], words)
                if arm:
                    return v + "." + ".".join([arm[0], arm[1]] + words[arm[2] :])
                words[0] = places.field_at(env[v], words[0]) or OLD_WORDS.get(words[0]) or words[0]
                return v + "." + ".".join(words)

            def positions(mm):
                """A place in nested pairs, as the field that it is now."""
                v, step, kind, tail = mm.groups()
                fields = None
                if step:
                    at = next((i for i in places.up(env[v]) if places.field[i][1] == step[1:]), None) if env[v] is not None else None
                    if at is None:
                        at = next((i for i, f in enumerate(places.field) if f[1] == step[1:]), None)
                    if at is not None:
                        if kind in ("new", "auto", "kept", "last"):
                            fields = entry["params"].get(entry["places"][at][3] or "")
                            if fields:
                                fields = fields + ["-"]
                if not fields:
                    return mm.group(0)
                f, rest = by_place(fields, tail)
                return f"{v}{step or ''}.{KIND.get(kind, kind)}.{f}{rest}" if f else mm.group(0)

            body = re.sub(r"(?<![\w.'-])(%s)(?:\.before)*((?:\.(?!before|BEFORE)%s)*)(?![\w'-])" % (names, W), flat, body)
            for mm in re.finditer(r"let (%s) = (%s)((?:\.%s)*) in" % (W, names, W), body):
                aliases[mm.group(1)] = mm.group(2) + mm.group(3)
            body = re.sub(r"(?<![\w.'-])(%s)(\.(?!new|auto|kept|requires|ensures|last)%s)?\.(new|auto|kept|last|requires|ensures)((?:\.[01])+)" % (names, W), positions, body)
            for a, of in aliases.items():
                # a name for what a step left, or for what is required
                mo = re.fullmatch(r"(%s)(\.(?!requires)%s)?(\.requires|\.ensures)?" % (names, W), of)
                if not mo:
                    continue
                v, step, kind = mo.groups()

                def through(mm):
                    probe = f"{v}{step or ''}{kind or ''}{mm.group(1)}"
                    got2 = re.sub(r"^(%s)(\.(?!new|auto|kept|requires|ensures|last)%s)?\.(new|auto|kept|last|requires|ensures)((?:\.[01])+)" % (names, W), positions, probe)
                    return a + got2[len(f"{v}{step or ''}{kind or ''}") :] if got2 != probe else mm.group(0)

                body = re.sub(r"(?<![\w.'-])%s((?:\.(?:new|auto|last|requires|ensures))?(?:\.[01])+)" % re.escape(a), through, body)
            body = body.replace(".BEFORE", ".before")
            # a name that an earlier place had is the place itself now
        body = re.sub(r"(?<=\.args\.)(%s)" % W, lambda mm: mm.group(1).replace("-", "_"), body)
        body = body.replace(".type-inv", ".type_inv").replace(".well-formed", ".well_formed")
        body = re.sub(r"(?<=\.)(%s)" % W, lambda mm: mm.group(1).replace("-", "_") if "-" in mm.group(1) and mm.group(1).replace("-", "_") in FIELDS else mm.group(1), body)
        body = re.sub(r"(?<=[{;] )(%s)(?= =)" % W, lambda mm: mm.group(1).replace("-", "_") if "-" in mm.group(1) and mm.group(1).replace("-", "_") in FIELDS else mm.group(1), body)
        body = re.sub(r"(?m)^(\s+)(%s)(?= =(\s|$))" % W, lambda mm: mm.group(1) + (mm.group(2).replace("-", "_") if "-" in mm.group(2) and mm.group(2).replace("-", "_") in FIELDS else mm.group(2)), body)

        def tie(mm):
            w = mm.group(1)
            if w.startswith("Need-"):
                return mm.group(0)
            for pre in ("invariant-", "decreases-"):
                if w.startswith(pre) and norm(w[len(pre) :]) in loops:
                    return tie_name + "." + pre + loops[norm(w[len(pre) :])]
            if norm(w) in places.by_old:
                return tie_name + "." + places.new[places.by_old[norm(w)]]
            return mm.group(0)

        body = re.sub(r"(?<![\w.-])%s\.(%s)" % (tie_name, W), tie, body)
        if name in got:
            body = re.sub(r"(?<![\w.-])(%s\.Need-)%s(?=\s|$)" % (tie_name, W), lambda mm: mm.group(1) + needs[got[name]][1], body, count=1)
        # a signed variable of a loop has its bits under another name
        body = re.sub(r"(to_z w\d+ )((?:%s\.)+)(%s)(?![\w'.-])" % (W, W), lambda mm: mm.group(1) + mm.group(2) + (mm.group(3) + "-bits" if mm.group(3) in loop_vars and ".new." not in mm.group(2) and ".args." not in mm.group(2) else mm.group(3)), body)
        body = body.replace("to_z-of_z (sfits_of", "to_z-of_z {w = w32} (sfits_of")
        body = re.sub(r"\.((?:if-%s)|(?:%s-test))\.(taken|left)(?![\w-])" % (W, W), lambda mm: "." + mm.group(1) + (".true" if mm.group(2) == "taken" else ".false"), body)
        # the test of `!f(..)` says what the call gave
        called = {re.sub(r"-.*", "", f[1]) for f, p in zip(places.field, entry["places"]) if p[3]} | {(p[3] or "").split("::")[-1] for p in entry["places"]}

        def plain(mm):
            test = re.search(r"\.if-not-([A-Za-z0-9_]+)", mm.group(1))
            return mm.group(1) if test and test.group(1) in called else mm.group(0)

        body = re.sub(r"\(not-(?:true|false) _ (%s(?:\.%s)*)\)" % (W, W), plain, body)
        body = re.sub(r"(?<![\w(-])not-(?:true|false) _ (%s(?:\.%s)*)" % (W, W), plain, body)
        out.append(body)
    text = "\n".join(out)
    inv_args = ""
    mm = re.search(r"(?m)^%s : tie\.Need-\S+(( \S+)+)$" % W, text)
    if mm:
        inv_args = mm.group(1)
    extra = "".join(f"{needs[i][1]}' : tie.Need-{needs[i][1]}{inv_args}\n{needs[i][1]}' c = search rules\n\n" for i in missing)
    if extra and not cycle:
        at = re.search(r"(?m)^pub \S+spec : ", text)
        if at:
            text = text[: at.start()] + extra + text[at.start() :]
    back = {i: a for a, i in got.items()}
    order = [back.get(i, needs[i][1] + "'") for i in range(len(needs))]
    if listed and not cycle:
        text = re.sub(r"\(tie\.spec\s[^()]*\)", lambda _: "(tie.spec\n    " + "\n    ".join(others + order) + ")", text)
    if "{w = w32}" in text and not re.search(r"(?m)^use .*[{ ]w32[,}]", text):
        text = re.sub(r"(?m)^use ", "use mir.Syntax.{w32}\nuse ", text, count=1)
    if cycle:
        return text
    text = re.sub(r"(?m)^pub (\S+)-spec( :| =)", lambda q: "pub " + function + "_spec" + q.group(2), text)
    text = re.sub(r"(?m)^(\S+)-spec =", lambda q: function + "_spec =", text)
    if "search rules" in text and "borrow.Author.Rules.{rules}" not in text:
        text = re.sub(r"(?m)^(use Rattle\.\S+\.Statement)", r"use borrow.Author.Rules.{rules}\n\1", text, count=1)
    return text


def own_fields():
    """The fields of this repository's records that have a `_`."""
    found = set()
    for folder, dirs, files in os.walk("crates"):
        dirs[:] = [d for d in dirs if d != "out"]
        for n in files:
            if n.endswith(".antt"):
                inside = False
                for line in open(os.path.join(folder, n), encoding="utf-8"):
                    if re.match(r"\s*(?:abbrev )?(?:pub )?record [A-Z]", line):
                        inside = True
                    elif re.match(r"\S", line):
                        inside = False
                    elif inside:
                        m = re.match(r"\s+(?:pub )?(\S+) :", line)
                        if m and "_" in m.group(1):
                            found.add(m.group(1))
    return found


FIELDS = set()
KIND = {"last": "new", "kept": "auto"}
OLD_WORDS = {"pre": "requires", "fits": "ranges"}


def main(args):
    FIELDS.update(own_fields())
    base, begun = None, set()
    if args and args[0] == "--from":
        base, args = args[1], args[2:]
    for crate in args:
        names = names_of(crate)
        if names is None:
            continue
        for key, entry in sorted(names.items()):
            k = re.match(r"Rattle-%s-proofs\.(.*)\.Lts(-.*)?$" % crate, key)
            if not k:
                continue
            rel = k.group(1)
            cycle = k.group(2)
            path = os.path.join("crates", crate, "proofs", *rel.split("."), "Proof.antt")
            if not os.path.exists(path):
                continue
            text = open(path, encoding="utf-8").read()
            if base and path not in begun:
                begun.add(path)
                r = subprocess.run(["git", "show", f"{base}:{path}"], capture_output=True, text=True)
                if r.returncode == 0:
                    text = r.stdout
            if not cycle and not re.search(r"Tie as tie", text):
                print(f"{crate}/{rel}: a walk by hand")
                continue
            said = []
            if cycle:
                f = cycle[1:]
                dashed = f.replace("_", "-")
                text = turn(text, entry, f, said, tie_name=dashed + "-lts", cycle=True)
                folder = rel.split(".")[-1]
                text = re.sub(r"(?m)^pub \+(\S+)-spec( :| =)", lambda q: "pub " + folder + "_spec" + q.group(2), text)
                text = re.sub(r"(?m)^\+(\S+)-spec =", lambda q: folder + "_spec =", text)
            else:
                text = turn(text, entry, rel.split(".")[-1], said)
            for s in said:
                print(f"{crate}/{rel}: {s}")
            with open(path, "w", encoding="utf-8") as f:
                f.write(text)


if __name__ == "__main__":
    here = os.environ.get("TURN_ROOT") or subprocess.run(["git", "rev-parse", "--show-toplevel"], capture_output=True, text=True, check=True).stdout.strip()
    os.chdir(here)
    main(sys.argv[1:])
