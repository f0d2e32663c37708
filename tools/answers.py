#!/usr/bin/env python3
"""Turns each Proof.antt that closes a function's generated proof into today's Invariants.antt and Answers.antt.

usage: answers.py NAMES CRATE..      at the top of the repository; NAMES/CRATE/names.json is what
                                     `rattle check --generated NAMES/CRATE --old-names` writes of the crate

What the search found stays out. A place that it can't turn is named on a line that begins 'hand:', and stands in the file as it was.
"""
import glob
import json
import os
import re
import sys

ID = r"[^\s(){}.;,@\"«»:\[\]]+"


def plain(s):
    return s.replace("-", "_")


SOURCE = set()  # the names of src/ that have an underscore
for it in glob.glob("crates/*/src/*.rt"):
    with open(it, encoding="utf-8") as f:
        SOURCE |= set(re.findall(r"\b[a-z][a-z0-9]*(?:_[a-z0-9]+)+\b", f.read()))


class Turn:
    def __init__(self, path, crate, mod, v):
        self.path, self.crate, self.mod, self.v = path, crate, mod, v
        self.places = {p[0]: i for i, p in enumerate(v["places"])}
        self.look = []

    def hand(self, text):
        self.look.append(f"hand: {self.path}: {text}")

    # what `c` is at a need: the place's index
    def place_of(self, name):
        for i, p in enumerate(self.v["places"]):
            if p[0] == name:
                return i
        return None

    def parent(self, i):
        name = self.v["places"][i][1]
        return None if name is None else self.places[name]

    def up(self, i):
        while i is not None:
            yield i
            i = self.parent(i)

    def resolve(self, comps, env):
        """comps: the names of a path. Returns ('place', i) or ('text', s)."""
        head, rest = comps[0], list(comps[1:])
        i = env[head]
        while rest and rest[0] == "before":
            rest.pop(0)
            # what an older Rattle had a step for may have none now
            j = self.parent(i)
            i = i if j is None else j
        if not rest:
            return "place", i
        name, tail = rest[0], [it.replace("-", "_") for it in rest[1:]]
        if plain(name) in ("args", "requires", "ranges"):
            if name == "args":
                for old, new in self.v.get("args") or []:
                    if old == f".args .{tail[0]}":
                        tail[0] = new.split(".")[-1]
            if name == "requires" and self.v.get("pre"):
                tail = self.clause(tail, self.v["pre"]["fields"])
            return "text", ".".join(["c", name, *tail])
        if plain(name) == "well_formed":
            return "text", ".".join(["c", "well_formed", *tail])
        for k in [*self.up(i), *self.up(env[head])]:
            old, new = self.v["places"][k][2]
            if plain(old) == plain(name):
                return "text", self.step(k, old, new, tail)
        self.hand(f"no step {name}: {'.'.join(comps)}")
        return "text", ".".join(comps)

    def clause(self, tail, fields):
        """tail begins with the numbers of a tuple: the clause's name stands for them."""
        n = 0
        t = list(tail)
        while t and t[0] == "1" and n < len(fields) - 1:
            n += 1
            t.pop(0)
        if n < len(fields) - 1:
            if not t or t[0] != "0":
                return tail
            t.pop(0)
        return [fields[n], *t]

    def step(self, k, old, new, tail):
        arm = self.v["arms"][k]
        tail = list(tail)
        if arm:
            for field, step, at in sorted(arm[2], key=lambda r: -len(r[2])):
                if plain(step) == plain(old) and at and tail[: len(at)] == at:
                    return ".".join(["c", arm[0], field, *tail[len(at):]])
        # what a type says of its value
        if re.match(r"(shared_)?slice_known|struct_known|row_known", old) or (tail and tail[0] == "given"):
            for row in self.v["typed"][k] or []:
                if plain(row[1]) == plain(old) and tail[:1] == ["given"]:
                    return ".".join(["c", "type_inv", row[0], *tail[1:]])
        if tail and tail[0] == "ensures":
            said = self.v["clauses"][k]
            if said:
                tail = ["ensures", *self.clause(tail[1:], said["fields"])]
        if tail and tail[0] == "new":
            params = self.v["params"].get(self.v["places"][k][3] or "")
            t = tail[1:]
            n = 0
            while t and t[0] == "1":
                n += 1
                t.pop(0)
            if params and t and t[0] == "0" and n < len(params):
                tail = ["new", params[n], *t[1:]]
            elif params and not t and n == len(params) - 1:
                tail = ["new", params[n]]
            else:
                self.hand(f"new: {'.'.join(tail)} of {old}")
        return ".".join(["c", new, *tail])

    def body(self, text, place):
        env = {"c": place}
        text = re.sub(r"\.«([a-z_]+)»", r".\1", text)
        # a let that only names a place goes, and what it named is written out
        while True:
            m = None
            for it in re.finditer(r"\blet (" + ID + r") = (" + ID + r"(?:\.[A-Za-z0-9_'-]+)*) in\b[ \n]*", text):
                comps = it[2].split(".")
                if comps[0] in env and it[1] not in env:
                    quiet = len(self.look)
                    kind, value = self.resolve(comps, env)
                    del self.look[quiet:]
                    if kind == "place":
                        m = (it, value)
                        break
            if not m:
                break
            it, value = m
            env[it[1]] = value
            text = text[: it.start()] + text[it.end():]
            # a first line left empty by it is joined
        def path(m):
            comps = m[0].split(".")
            if comps[0] not in env:
                return m[0]
            kind, value = self.resolve(comps, env)
            if kind == "place":
                self.hand(f"a whole place: {m[0]}")
                return m[0]
            return value

        text = re.sub(r"(?<=[a-z0-9)])\.([a-z0-9]+(?:-[a-z0-9]+)+)", lambda m: "." + (plain(m[1]) if plain(m[1]) in SOURCE else m[1]), text)
        return re.sub(r"(?<![^\s(){};,@\[\]←∙])(" + "|".join(re.escape(e) for e in env) + r")((?:\.[A-Za-z0-9_'-]+)*)(?![A-Za-z0-9_'₀-₉-])", path, text)


def split_top(s):
    out, depth, cur = [], 0, ""
    for ch in s:
        if ch in "({[":
            depth += 1
        if ch in ")}]":
            depth -= 1
        if ch == "," and depth == 0:
            out.append(cur)
            cur = ""
            continue
        cur += ch
    if cur.strip():
        out.append(cur)
    return out


def last_group(text):
    """The place of the parentheses that end the text, or None."""
    t = text.rstrip()
    if not t.endswith(")"):
        return None
    depth = 0
    for i in range(len(t) - 1, -1, -1):
        if t[i] == ")":
            depth += 1
        if t[i] == "(":
            depth -= 1
            if depth == 0:
                return i, len(t)
    return None


def flatten(text, n):
    parts = split_top(text)
    parts = [p.strip() for p in parts if p.strip()]
    while len(parts) < n and parts and parts[-1].startswith("(") and parts[-1].endswith(")"):
        inner = split_top(parts[-1][1:-1])
        if len(inner) < 2:
            break
        parts = parts[:-1] + [p.strip() for p in inner if p.strip()]
    return parts


def as_record(body, fields, turn):
    g = last_group(body)
    if g:
        parts = flatten(body[g[0] + 1: g[1] - 1], len(fields))
        if len(parts) == len(fields):
            rec = "record { " + "; ".join(f"{f} = {p}" for f, p in zip(fields, parts)) + " }"
            before = body[: g[0]]
            if before.strip() and not re.search(r"(\bin|[.]|=)\s*$", before):
                rec = "(" + rec + ")"
            return before + rec
    if re.fullmatch(r"\s*search rules\s*", body):
        return body
    turn.hand("several clauses, no tuple: " + " ".join(body.split())[:100])
    return body


def spec_args(text):
    m = re.search(r"tie\.spec\b", text)
    t = text[m.end():]
    args, depth, cur = [], 0, ""
    for ch in t:
        if ch in "({":
            depth += 1
        if ch in ")}":
            if depth == 0:
                break
            depth -= 1
        if depth == 0 and ch.isspace():
            if cur:
                args.append(cur)
                cur = ""
            continue
        cur += ch
    if cur:
        args.append(cur)
    return args


def chunks(text):
    """The top-level pieces of a file: use lines, and declarations with the comments above them."""
    lines = text.split("\n")
    uses, out, cur, head = [], [], [], []
    i = 0
    for line in lines:
        if re.match(r"(pub )?use ", line):
            uses.append(line)
            continue
        if line.startswith("--") or not line.strip():
            if line.startswith("--"):
                if cur:
                    out.append((head, cur))
                    cur, head = [], []
                head.append(line)
            elif cur:
                cur.append(line)
            continue
        new = re.match(r"(abbrev |unfoldable |pub |data |record |module |mutual)*(" + ID + r")", line)
        sig = not line.startswith((" ", "unfolding")) and (
            re.match(r"(?:(?:abbrev|unfoldable|pub|data|record|module|mutual) )*" + ID + r"(?:\s+[({][^=]*?[)}])*\s+:(?:\s|$)", line) or re.match(r"module |mutual|data |record |pub data|pub record", line)
        )
        if sig and cur:
            out.append((head, cur))
            cur, head = [], []
        cur.append(line)
    if cur:
        out.append((head, cur))
    return uses, out


def name_of(cur):
    m = re.match(r"(?:(?:abbrev|unfoldable|pub|data|record|module|mutual) )*(" + ID + r")", cur[0])
    return m[1] if m else ""


def convert(path, crate, mod, v):
    text = open(path, encoding="utf-8").read()
    t = Turn(path, crate, mod, v)
    uses, parts = chunks(text)
    top = [l for l in []]
    spec = next(((h, c) for h, c in parts if "tie.spec" in "\n".join(c)), None)
    args = spec_args("\n".join(spec[1]))
    loops = v["loops"]
    needs = [(o, n) for o, n in v["needs"]]
    goal = {}  # local name -> (new name, place)
    inline = []
    # an answer in the list that is more than `search rules`
    if len(args) == len(needs) + 2 * len(loops):
        pairs = list(zip(args[2 * len(loops):], needs, v["asked_at"]))
        for k in range(len(loops)):
            goal[args[2 * k]] = ("invariant", k)
            goal[args[2 * k + 1]] = ("decreases", k)
    else:
        # by name: what is asked no more stays out
        pairs = []
        old = {plain(o): ((o, n), at) for (o, n), at in zip(needs, v["asked_at"])}
        for h, c in parts:
            m = re.search(r":\s*tie\.Need-(" + ID + r")", c[0])
            if m:
                hit = old.get(plain(m[1]))
                if hit:
                    pairs.append((name_of(c), hit[0], hit[1]))
                else:
                    t.hand(f"asked no more: {m[1]}")
        for a in args:
            if a.startswith("(") and "search rules" not in a:
                t.hand(f"by name, an answer in the list: {a[:100]}")
    for a, need, at in pairs:
        if a.startswith("("):
            if re.fullmatch(r"\(λ c( κs)?\. search rules\)", re.sub(r"\s+", " ", a)):
                continue
            inline.append((a, need, at))
        else:
            goal.setdefault(a, []).append((need, at)) if not isinstance(goal.get(a), tuple) else None
    answers, invariants, locals_ = [], [], []
    for h, c in parts:
        if "tie.spec" in "\n".join(c):
            continue
        name = name_of(c)
        sig = c[0]
        hit = goal.get(name)
        if isinstance(hit, tuple):
            kind, k = hit
            (oldl, newl), names = loops[k]
            changed = v["changed"][k]
            body = "\n".join(c[1:]).rstrip()
            m = re.match(r"(?:unfolding [^\n]*\n)*" + re.escape(name) + r"\s+(.*?)\s+=\s", body, re.S)
            params = m[1].split() if m else []
            moved = [n for n, ch in zip(names, changed) if ch]
            want = [f"l.initial.{n}" if ch else f"l.{n}" for n, ch in zip(names, changed)] + [f"l.{n}" for n in moved]
            rest = body[m.end():] if m else body
            if len(params) != len(want):
                t.hand(f"loop of {name}: parameters {params} for {want}")
            else:
                for p, w in zip(params, want):
                    if p == "_":
                        continue
                    rest = re.sub(r"(?<![^\s(){};,@←∙\[\]])" + re.escape(p) + r"(?=[\s(){};,@.\[\]]|$)", w, rest)
            new = ("invariant-" if kind == "invariant" else "decreases-") + newl
            unf = re.match(r"((?:unfolding [^\n]*\n)*)", body)[1]
            invariants.append("\n".join(h + [f"abbrev pub {new} : goal.{new}", unf + f"{new} l = {rest}"]))
        elif hit:
            for need, at in hit:
                place = t.place_of(at[0])
                body = "\n".join(c[1:]).rstrip()
                m = re.match(r"((?:unfolding [^\n]*\n)*)" + re.escape(name) + r"((?:\s+(?!=\s)" + ID + r")*?)\s+=\s", body)
                if not m:
                    t.hand(f"{name}: no clause in one form")
                    answers.append("\n".join(h + c))
                    continue
                given = m[2].split()
                if given[:1] != ["c"]:
                    t.hand(f"{name}: takes {given}")
                rest = t.body(body[m.end():], place)
                # comments and other clauses behind it stay
                fields = (v.get("asked") or {}).get(need[0])
                if fields:
                    where = re.search(r"\n\s+where\n", rest)
                    tail = rest[where.start():] if where else ""
                    rest = as_record(rest[: where.start()] if where else rest, fields, t) + tail
                new = need[1]
                if rest.strip() == "search rules":
                    continue
                answers.append("\n".join(h + [f"pub {new} : goal.{new}", m[1] + f"{new} c = {rest}"]))
        else:
            whole = "\n".join(h + c).rstrip()
            if re.search(r"\b(tie|lts|reads)\.", whole):
                t.hand(f"{name}: speaks of what Rattle made")
            locals_.append((name, whole))
            answers.append(whole)
    for a, need, at in inline:
        m = re.match(r"\(λ c(?: (\S+?))?\.\s*(.*)\)$", a, re.S)
        if not m:
            t.hand(f"inline {a[:80]}")
            continue
        rest = t.body(m[2], t.place_of(at[0]))
        if m[1] and m[1] != "κs":
            rest = f"λ {m[1]}. {rest}"
        fields = (v.get("asked") or {}).get(need[0])
        if fields:
            rest = as_record(rest, fields, t)
        opened = "".join(l + "\n" for l in spec[1] if l.startswith("unfolding "))
        answers.append(f"pub {need[1]} : goal.{need[1]}\n{opened}{need[1]} c = {rest}")
    keep = [u for u in uses if not re.search(r"\.(Statement|Tie|Reads|Lts|Code)(\.|\s| as|$)", u) and not re.search(r"\.proofs\.\S*\.(Tie|Reads|Lts)\b", u)]
    here = f"Rattle.{crate}.proofs.{mod}"
    folder = os.path.dirname(path)
    if invariants:
        joined = "\n\n".join(invariants)
        # local definitions that the invariants name go with them
        wanted, more = [], True
        pool = joined
        while more:
            more = False
            for n, w in locals_:
                if n not in wanted and n != "_" and re.search(r"(?<![^\s(){};,@])" + re.escape(n) + r"(?=[\s(){};,@.]|$)", pool):
                    wanted.append(n)
                    pool += "\n" + w
                    more = True
        moved = [w for n, w in locals_ if n in wanted]
        answers = [a for a in answers if a not in moved]
        def public(w):
            ls = w.split("\n")
            for i, l in enumerate(ls):
                if not l.startswith("--"):
                    ls[i] = re.sub(r"^(abbrev |unfoldable )?(pub )?", lambda m: (m[1] or "") + "pub ", l, count=1) if not l.startswith("module") else l
                    break
            return "\n".join(ls)
        head = keep + [f"use {here}.Given as goal"]
        with open(os.path.join(folder, "Invariants.antt"), "w", encoding="utf-8") as f:
            f.write("\n".join(head) + "\n\n" + "\n\n".join([public(w) for w in moved] + invariants) + "\n")
        if wanted:
            keep = keep + [f"use {here}.Invariants.{{{', '.join(wanted)}}}"]
    os.remove(path)
    if any(a.startswith("pub ") or "\npub " in a for a in answers):
        comment = []
        with open(os.path.join(folder, "Answers.antt"), "w", encoding="utf-8") as f:
            f.write("\n".join(keep + [f"use {here}.Goals as goal"]) + "\n\n" + "\n\n".join(a.strip("\n") for a in answers) + "\n")
    elif [1 for n, w in locals_]:
        if not (invariants and not answers):
            t.hand("lemmas with no goal left: " + ", ".join(n for n, w in locals_))
            with open(os.path.join(folder, "Answers.antt"), "w", encoding="utf-8") as f:
                f.write("\n".join(keep + [f"use {here}.Goals as goal"]) + "\n\n" + "\n\n".join(a.strip("\n") for a in answers) + "\n")
    for l in t.look:
        print(l)


def main():
    names, crates = sys.argv[1], sys.argv[2:]
    for crate in crates:
        with open(f"{names}/{crate}/names.json") as f:
            j = json.load(f)
        for path in sorted(glob.glob(f"crates/{crate}/proofs/**/Proof.antt", recursive=True)):
            mod = ".".join(path.split("/")[3:-1])
            v = j.get(f"Rattle-{crate}-proofs.{mod}.Lts")
            text = open(path, encoding="utf-8").read()
            if v is None or "tie.spec" not in text:
                print(f"hand: {path}: a walk by hand")
                continue
            convert(path, crate, mod, v)


main()
