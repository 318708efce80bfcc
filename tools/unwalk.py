#!/usr/bin/env python3
"""Turns proofs that walk the code by hand (proofs/F/Proof.antt over `tie`) into Invariants.antt and Answers.antt.

usage: python3 tools/unwalk.py NAMES CRATE [F..]     at the top of the repository

NAMES is the names.json that `rt check --generated DIR --old-names` writes for the crate. F is a function's folder below proofs/, as `taking/pairs`;
with none, every Proof.antt that names `tie` is turned. An answer that the check finds alone (`search rules`, `omega arith`) is left out. A helper
that takes a place of the walk stands once for each place of a goal that cites it. What was not turned is printed in lines that begin `look:`.
"""

import glob
import json
import os
import re
import subprocess
import sys

WORD = r"[^\s(){}.;,@\"«»\[\]\\]+"
OURS = re.compile(r"^(mathlib\.Core|Prim\.Native|native\.Mathlib|lib\.|borrow\.Author)")


def norm(it):
    return it.replace("_", "-")


def read(path):
    with open(path, encoding="utf-8") as f:
        return f.read()


def common_names():
    """What the library's module Common passes on; `rt doc` tells where the kit is."""
    kit = os.path.dirname(subprocess.run(["rt", "doc"], capture_output=True, text=True, check=True).stdout.strip())
    out = set()
    for m in re.finditer(r"^pub use ([^\s{]+)\.\{([^}]*)\}", read(os.path.join(kit, "rattle/std/proofs/Common.antt")), re.M):
        for n in m.group(2).split(","):
            n = n.strip()
            out.add(n.split(" as ")[-1])
    return out


def parameters(text):
    """The parameters of a signature's parentheses, split at the top level."""
    out, depth, last = [], 0, ""
    for ch in text:
        if ch in "([<{":
            depth += 1
        if ch in ")]>}":
            depth -= 1
        if ch == "," and depth == 0:
            out.append(last)
            last = ""
        else:
            last += ch
    return [p.strip() for p in out + [last] if p.strip()]


def signatures(root):
    """By `crate::module::function`: the parameters, and the names of requires and ensures clauses."""
    out = {}
    for path in sorted(glob.glob(os.path.join(root, "crates/*/src/**/*.rt"), recursive=True)):
        crate = path.split("/crates/")[1].split("/")[0]
        module = os.path.splitext(path.split("/src/")[1])[0].replace("/", "::")
        prefix = crate if module in ("lib", "main") else crate + "::" + module
        text = read(path)
        for m in re.finditer(r"^( *)(?:pub )?(?:extern \"C\" )?(?:unsafe )?fn (\w+)(?:<[^>]*>)?\(", text, re.M):
            i, depth = m.end(), 1
            while depth:
                depth += {"(": 1, ")": -1}.get(text[i], 0)
                i += 1
            inside = parameters(text[m.end() : i - 1])
            head = re.split(r"\n" + m.group(1) + r"\{\n", text[i:], maxsplit=1)[0]
            kinds = {}
            for kind in ("requires", "ensures"):
                kinds[kind] = [c for c in re.findall(r"^\s*" + kind + r"\*?(?: (\w+))? \{", head, re.M)]
            out[prefix + "::" + m.group(2)] = ([p.split(":")[0].replace("mut ", "").strip() for p in inside], kinds["requires"], kinds["ensures"])
    return out


def declarations(text):
    """The file's head (comments and `use` lines) and its declarations, as (comment, name, signature, unfolding, equations)."""
    lines = text.split("\n")
    i = 0
    head, uses = [], []
    while i < len(lines) and (lines[i].startswith("--") or lines[i].startswith("use ") or not lines[i].strip()):
        (uses if lines[i].startswith("use ") else head).append(lines[i])
        i += 1
    rest = "\n".join(lines[i:])
    comment_back = []
    # the comment of the first declaration was taken for the head's
    if head:
        blocks = "\n".join(head).rstrip("\n").split("\n")
        while len(blocks) > 1 and blocks[-1].startswith("--") and uses and lines.index(blocks[-1]) > lines.index(uses[-1]):
            comment_back.insert(0, blocks.pop())
        head = blocks
    rest = "\n".join(comment_back + [rest])
    out = []
    for block in re.split(r"\n\s*\n", rest.strip("\n")):
        ls = block.split("\n")
        j = 0
        while j < len(ls) and ls[j].startswith("--"):
            j += 1
        comment, body = ls[:j], ls[j:]
        if not body:
            out.append((comment, None, "", [], ""))
            continue
        m = re.match(r"(?:(?:abbrev|pub|unfoldable) )*(" + WORD + r") :", body[0])
        if not m:
            r = re.match(r"(?:record|data) (" + WORD + ")", body[0])
            out.append((comment, r.group(1) if r else None, "\n".join(body), [], ""))
            continue
        name = m.group(1)
        k = 1
        while k < len(body) and not body[k].startswith("unfolding ") and not re.match(re.escape(name) + r"(?![\w'-])", body[k]):
            k += 1
        sig = "\n".join(body[:k])
        unf = []
        while k < len(body) and body[k].startswith("unfolding "):
            unf.append(body[k])
            k += 1
        out.append((comment, name, sig, unf, "\n".join(body[k:])))
    return head, uses, out


def split_tuple(text):
    """The parts of a tuple that is the whole of text, or None."""
    t = text.strip()
    if not (t.startswith("(") and t.endswith(")")):
        return None
    depth, parts, last = 0, [], ""
    for i, ch in enumerate(t):
        if ch in "([{":
            depth += 1
        if ch in ")]}":
            depth -= 1
            if depth == 0 and i < len(t) - 1:
                return None
        if i == 0 or i == len(t) - 1:
            continue
        if ch == "," and depth == 1:
            parts.append(last)
            last = ""
        else:
            last += ch
    if last.strip():
        parts.append(last)
    return [p.strip() for p in parts] if len(parts) > 1 else None


PLACE = re.compile(r"tie\.(?!Need-)" + WORD + r"(?: (?:invariant|decreases)-" + WORD + ")*")
TRIVIAL = re.compile(r"^[\s(),]*(?:(?:search rules|omega arith|tt|refl)[\s(),]*)+$")


def own_fields():
    """The names with a dash that the repository's own records have for their fields."""
    out = set()
    for path in glob.glob("crates/*/specs/**/*.antt", recursive=True):
        out |= set(re.findall(r"^  (?:pub )?(" + WORD + r"-" + WORD + r") :", read(path), re.M))
    return out


FIELDS = own_fields()


class Turn:
    def __init__(self, of, crate, function, sigs, common):
        self.of, self.crate, self.function, self.sigs, self.common = of, crate, function, sigs, common
        self.steps, self.callee, self.renames = {}, {}, {}
        for name, _, step, call, fields in of["places"]:
            if step and step[0]:
                if not (step[1] == step[0] + "-1" and "_" not in step[0]):
                    self.steps[norm(step[0])] = step[1]
                if call:
                    self.callee[step[1]] = call
                if fields:
                    self.renames.setdefault(step[1], {}).update({a: b for a, b in fields})
        self.arms, self.arms_to = [], []
        for a in of["arms"]:
            for field, step, rest in a[2] if a else []:
                if rest:
                    self.arms.append([norm(step), *rest])
                    self.arms_to.append([a[0], field])
        self.place = {norm(p[0]): n for p, n in zip(of["places"], of["places_by_name"])}
        self.loops = {norm(l[0][0]): (l[0][1], l[1]) for l in of["loops"]}
        self.looks = []
        self.own = sigs.get(function, ([], [], []))

    def clause(self, names, digits, whole):
        """The old numbers behind `requires` or `ensures`, where clauses paired up to the right, as the clause's name and the numbers that are left."""
        if len(names) < 2 or not all(names):
            return digits
        i, left = 0, list(digits)
        while i < len(names) - 1 and left[:1] == ["1"]:
            i += 1
            left.pop(0)
        if i < len(names) - 1:
            if left[:1] == ["0"]:
                left.pop(0)
            else:
                if digits:
                    self.looks.append(f"{whole}: several clauses at once")
                return digits
        return [names[i], *left]

    def path(self, m, bound):
        whole = m.group(0)
        segs = whole.split(".")
        if segs[0] in ("tie", "Rattle", "goal"):
            return whole
        out, here = [segs[0]], bound.get(segs[0])
        kind = here if here in ("args", "requires") else None
        i = 1
        while i < len(segs):
            s = segs[i]
            n = norm(s.removesuffix("_lem"))
            if s == "before" and out[-1] != "args" and kind != "args":
                i += 1
                continue
            inside = out[-1] in ("args", "new", "auto", "ranges", "initial", "fn", "now") or kind == "args"
            arm = None if inside else next((a for a in self.arms if segs[i : i + len(a)] == a or [n, *segs[i + 1 : i + len(a)]] == a), None)
            if arm:
                out += self.arms_to[self.arms.index(arm)]
                i += len(arm)
                continue
            if n in self.steps and not inside and not (here and out[-1] == here):
                here = self.steps[n]
                out.append(here)
            elif here and out[-1] == here and n in self.renames.get(here, {}):
                out.append(self.renames[here][n])
            elif s.isdigit() and out[-1] in ("new", "auto") and here in self.callee:
                refs = self.sigs.get(self.callee[here], ([],))[0]
                k = 0
                while segs[i] == "1" and i + 1 < len(segs) and segs[i + 1].isdigit():
                    i, k = i + 1, k + 1
                k += segs[i] == "1"
                out.append(refs[k] if k < len(refs) else s)
            elif s.isdigit() and out[-1] == "auto" and here:
                self.looks.append(f"{whole}: the loop's own facts have names")
                out.append(s)
            elif s.isdigit() and (out[-1] in ("ensures", "requires") or kind == "requires" and len(out) == 1):
                j = i
                while j < len(segs) and segs[j].isdigit():
                    j += 1
                if out[-1] == "ensures":
                    names = self.sigs[self.callee[here]][2] if self.callee.get(here) in self.sigs else []
                else:
                    names = self.own[1]
                out += self.clause(names, segs[i:j], whole)
                i = j
                continue
            elif s == "ensures" and i == len(segs) - 1 and len(self.named(here)) > 1:
                whole_path = ".".join([*out, s])
                parts = [f"{whole_path}.{n}" for n in self.named(here)]
                text = parts[-1]
                for part in reversed(parts[:-1]):
                    text = f"({part}, {text})"
                return text
            elif s == "pre":
                out.append("requires")
            elif "-" in s and s not in FIELDS:
                out.append(s.replace("-", "_"))
            else:
                out.append(s)
            i += 1
        return ".".join(out)

    def named(self, step):
        """The names of the ensures clauses of a step's callee, where each has one."""
        names = self.sigs[self.callee[step]][2] if step and self.callee.get(step) in self.sigs else []
        return names if all(names) else []

    def text(self, text):
        text = self.paths(text)
        while True:
            m = re.search(r"[ \n]*let (" + WORD + r") = (\w+) in(?=\s)", text)
            if not m:
                return text
            rest = text[m.end() :]
            rest = re.sub(r"(?<![\w.'-])" + re.escape(m.group(1)) + r"(?![\w'₀-₉-])", m.group(2), rest)
            text = text[: m.start()] + rest

    def paths(self, text):
        bound, clauses = {}, {}
        # what a `let` names, where it is a step
        for m in re.finditer(r"let (" + WORD + r") = (" + WORD + r"(?:\.[^\s.(){},;\[\]]+)+) in", text):
            last = m.group(2).split(".")[-1]
            if norm(last) in self.steps:
                bound[m.group(1)] = self.steps[norm(last)]
            elif last == "ensures" and len(self.named(self.steps.get(norm(m.group(2).split(".")[-2])))) > 1:
                clauses[m.group(1)] = self.named(self.steps[norm(m.group(2).split(".")[-2])])
            elif last in ("args", "requires", "pre"):
                bound[m.group(1)] = "requires" if last == "pre" else last
        for name, names in clauses.items():
            text = re.sub(r"(let " + re.escape(name) + r" = [^\s]+)\.ensures in", r"\1.ensures_whole in", text)
            for k, n in enumerate(names):
                old = name + ".1" * k + (".0" if k < len(names) - 1 else "")
                text = re.sub(r"(?<![\w.'-])" + re.escape(old) + r"(?![\w])", f"{name}.{n}", text)
        text = re.sub(r"(?:(?<![\w.'-])[A-Za-z_][^\s(){}.;,@\"«»\[\]\\]*|(?<=\)))(?:\.[^\s(){}.;,@\"«»\[\]\\]+)+", lambda m: self.path(m, bound), text)
        return text.replace(".ensures_whole in", ".ensures in")

    def invariant(self, name, sig, unf, eq):
        """`invariant-loop` or `decreases-loop`, as a function of the live variables."""
        kind, old = re.match(r"(invariant|decreases)-(.*)", name).groups()
        new, variables = self.loops[norm(old)]
        index = [norm(l[0][0]) for l in self.of["loops"]].index(norm(old))
        changed = self.of["changed"][index]
        m = re.match(re.escape(name) + r"((?:\s+[^\s=]+)*)\s*=(.*)$", eq, re.S)
        if not m:
            self.looks.append(f"{name}: its equation has another form")
            return None
        given, body = m.group(1).split(), m.group(2)
        names = {}
        want = [(v, c, True) for v, c in zip(variables, changed)] + [(v, c, False) for v, c in zip(variables, changed) if c]
        if len(given) > len(want):
            given = [g for g in given if not re.match(r"t\d+$", g)]
        if len(given) != len(want):
            self.looks.append(f"{name}: {len(given)} arguments for {len(want)} variables")
            return None
        for g, (v, c, first) in zip(given, want):
            names[g] = f"l.initial.{v}" if c and first else f"l.{v}"
        def one(m):
            return names.get(m.group(0), m.group(0)) if not (m.start() > 0 and body[m.start() - 1] == ".") else m.group(0)
        body = re.sub(WORD, one, body)
        out = f"{kind}-{new}"
        return "\n".join([f"abbrev pub {out} : goal.{out}", *unf, f"{out} l ={body}"])

    def turn(self, text):
        head, uses, decls = declarations(text)
        needs = {norm(a): b for a, b in self.of["needs"]}
        asked = {b: at[1] for (_, b), at in zip(self.of["needs"], self.of["asked_at"])}
        settled = {norm(s) for s in self.of["settled"]}
        invariants, items = [], []
        for comment, name, sig, unf, eq in decls:
            if name is None:
                if sig.strip() or comment:
                    self.looks.append(f"not read: {(sig or ' '.join(comment)).strip()[:80]}")
                continue
            if re.search(r"\bstatement\b", sig) and "tie.close" in eq:
                continue
            m = re.match(r"(?:abbrev )?" + re.escape(name) + r" : tie\.Need-(" + WORD + ")", sig)
            if re.match(r"abbrev (invariant|decreases)-", sig) and "tie." in sig:
                it = self.invariant(name, sig, unf, eq)
                if it:
                    invariants.append((comment, it))
                continue
            if m:
                old = m.group(1)
                key = norm(old)
                goal = None
                for k in (key, re.sub(r"^(overflow|nonzero)-", "", key)):
                    if k in needs:
                        goal = needs[k]
                        break
                if goal is None:
                    if not TRIVIAL.match(eq.split("=", 1)[1]):
                        self.looks.append(f"no goal stands for {old}" + (" (settled)" if key in settled else ""))
                    continue
                items.append(["goal", comment, name, goal, unf, eq])
                continue
            if PLACE.search(sig):
                items.append(["helper", comment, name, sig, unf, eq])
            else:
                items.append(["plain", comment, name, sig, unf, eq])
        same = [i[2] for i in items if i[0] == "helper" and re.match(re.escape(i[2]) + r" (\w+) = \1(?:\.before)*$", i[5].strip())]
        items = [i for i in items if i[2] not in same]

        def open_same(t):
            for h in same:
                t = re.sub(r"\(" + re.escape(h) + r" (\w[\w'₀-₉]*(?:\.before)*)\)", r"\1", t)
                t = re.sub(r"(?<![\w.'-])" + re.escape(h) + r" (\w[\w'₀-₉]*(?:\.before)*)(?![\w'.-])", r"\1", t)
            return t

        for _ in range(4 if same else 0):
            items = [[*i[:3], open_same(i[3]), i[4], open_same(i[5])] for i in items]
        # an answer that the check finds alone, cited in another one
        alone = {i[2]: i[5].split("=", 1)[1].strip() for i in items if i[0] == "goal" and TRIVIAL.match(i[5].split("=", 1)[1]) and not i[4]}

        def written(t):
            return re.sub(r"\((" + WORD + r") [\w'₀-₉.]+\)", lambda m: f"({alone[m.group(1)]})" if m.group(1) in alone else m.group(0), t)

        items = [[*i[:5], written(i[5])] for i in items]
        # the places at which each helper is cited
        helpers = {i[2] for i in items if i[0] == "helper"}
        cites = lambda t: {w for w in re.findall(r"(?<![.\w'-])" + WORD, t) if w in helpers}
        at = {h: [] for h in helpers}
        keep = []
        for it in items:
            if it[0] == "goal":
                body = it[5].split("=", 1)[1]
                if TRIVIAL.match(body) and not it[4]:
                    continue
            keep.append(it)
        items = keep
        by_name = {i[2]: i for i in items if i[0] == "helper"}

        def spread(h, place, seen=()):
            if place not in at[h]:
                at[h].append(place)
            it = by_name[h]
            for g in cites(it[5] + " " + it[3]) - {h}:
                spread(g, place, (*seen, h))

        for it in items:
            if it[0] == "goal":
                for h in cites(it[5]):
                    spread(h, asked[it[3]])
        snake = lambda n: n.replace("-", "_")
        copy = lambda h, place: snake(h) if len(at[h]) == 1 else snake(h) + str(at[h].index(place) + 1)

        def cited(t, place):
            def one(m):
                w = m.group(0)
                return copy(w, place) if w in helpers else w
            return re.sub(r"(?<![.\w'-])" + WORD, one, t)

        locals_ = {i[2]: snake(i[2]) for i in items if i[0] == "plain"}

        def plain(t):
            return re.sub(r"(?<![.\w'-])" + WORD, lambda m: locals_.get(m.group(0), m.group(0)), t)

        out = []
        for kind, comment, name, sig, unf, eq in items:
            if kind == "plain":
                out.append("\n".join(comment + [plain(sig), *unf] + ([plain(eq)] if eq else [])))
            elif kind == "goal":
                goal = sig
                head_, body = eq.split("=", 1)
                args = head_.split()[1:]
                if len(args) > 1 and re.search(r"(?<![\w.])" + re.escape(args[1]) + r"(?![\w'])", body):
                    self.looks.append(f"{goal}: {args[1]} is used")
                body = plain(cited(self.text(body), asked[goal]))
                body = self.clauses(goal, asked[goal], body)
                out.append("\n".join(comment + [f"pub {goal} : goal.{goal}", *unf, f"{goal} {args[0] if args else 'c'} ={body}"]))
            else:
                for place in at[name]:
                    s = PLACE.sub(f"goal.{place}", sig)
                    s = cited(self.text(s), place)
                    e = cited(self.text(eq), place)
                    out.append("\n".join((comment if place == at[name][0] else []) + [plain(s), *unf, plain(e)]))
        return head, uses, invariants, out

    def clauses(self, goal, place, body):
        """A tuple for several named clauses, as the record of them."""
        names = None
        if goal.endswith("-requires") or re.search(r"-requires(-.*)?$", goal):
            step = re.sub(r"-requires.*$", "", goal)
            call = self.callee.get(step) or next((c for s, c in self.callee.items() if s == step or c.split("::")[-1] == step.split("-")[0]), None)
            if call and call in self.sigs:
                names = self.sigs[call][1]
        elif goal.startswith("returns"):
            names = self.own[2]
        if not names or len(names) < 2 or not all(names):
            return body
        m = re.search(r"^(.*?)(\((?:.|\n)*\))\s*$", body, re.S)
        start = self.final(body)
        parts = split_tuple(body[start:])
        while parts and len(parts) < len(names):
            more = split_tuple(parts[-1])
            if not more:
                break
            parts = parts[:-1] + more
        if parts and len(parts) == len(names):
            return body[:start].rstrip(" ") + " record { " + "; ".join(f"{n} = {p}" for n, p in zip(names, parts)) + " }"
        fields = ["r" + ".1" * k + (".0" if k < len(names) - 1 else "") for k in range(len(names))]
        return body[:start].rstrip(" ") + " let r = " + body[start:].strip() + " in record { " + "; ".join(f"{n} = {p}" for n, p in zip(names, fields)) + " }"

    @staticmethod
    def final(body):
        """Where the term behind the last outer `let .. in` begins."""
        depth, last = 0, 0
        for m in re.finditer(r"[(\[{]|[)\]}]|(?<![\w'-])in(?![\w'-])", body):
            t = m.group(0)
            if t in "([{":
                depth += 1
            elif t in ")]}":
                depth -= 1
            elif depth == 0:
                last = m.end()
        return last


def imports(uses, text, common):
    """The `use` lines for the names that a text cites, from Common where it has them."""
    words = set(re.findall(WORD, text))
    def cited(n):
        n = n.split(" as ")[-1]
        return n in words or "◌" in n and all(p in text for p in n.split("◌") if p)
    from_common, rest = [], []
    for u in uses:
        if ".Statement." in u or ".Tie as" in u:
            continue
        m = re.match(r"use ([^\s{]+)\.\{([^}]*)\}$", u)
        if not m:
            rest.append(u)
            continue
        names = [n.strip() for n in m.group(2).split(",")]
        names = [n for n in names if cited(n) or n == "[]" and "[]" in text]
        if OURS.match(m.group(1)):
            from_common += [n for n in names if n in common]
            names = [n for n in names if n not in common]
        if names:
            rest.append(f"use {m.group(1)}.{{{', '.join(names)}}}")
    if from_common:
        rest.insert(0, f"use Rattle.std.proofs.Common.{{{', '.join(dict.fromkeys(from_common))}}}")
    return rest


def main(argv):
    names, crate, only = argv[0], argv[1], argv[2:]
    data = json.loads(read(names))
    sigs, common = signatures("."), common_names()
    base = f"./crates/{crate}/proofs"
    for path in sorted(glob.glob(base + "/**/Proof.antt", recursive=True)):
        folder = os.path.dirname(path)
        f = folder[len(base) + 1 :]
        if only and f not in only:
            continue
        text = read(path)
        if ".Tie as tie" not in text:
            print(f"look: {f}: no walk over tie")
            continue
        of = data.get(f"Rattle-{crate}-proofs.{f.replace('/', '.')}.Lts")
        if of is None:
            print(f"look: {f}: no names")
            continue
        t = Turn(of, crate, crate + "::" + f.replace("/", "::"), sigs, common)
        head, uses, invariants, answers = t.turn(text)
        dotted = f.replace("/", ".")
        os.remove(path)
        if invariants:
            body = "\n\n".join("\n".join(c + [i]) for c, i in invariants)
            lines = ([] if answers else head) + imports(uses, body, common) + [f"use Rattle.{crate}.proofs.{dotted}.Given as goal", "", body, ""]
            with open(folder + "/Invariants.antt", "w", encoding="utf-8") as out:
                out.write("\n".join(lines))
        if answers:
            body = "\n\n".join(answers)
            lines = head + imports(uses, body, common) + [f"use Rattle.{crate}.proofs.{dotted}.Goals as goal", "", body, ""]
            with open(folder + "/Answers.antt", "w", encoding="utf-8") as out:
                out.write("\n".join(lines))
        if not invariants and not answers:
            os.rmdir(folder)
        for l in t.looks:
            print(f"look: {f}: {l}")


if __name__ == "__main__":
    main(sys.argv[1:])
