#!/usr/bin/env python3
"""Brings this repository's own definitions and lemmas to today's spelling: words in snake case.

usage: respell.py [--check]        at the top of the repository, behind port.py and once

A name that a file of specs/ or proofs/ declares turns wherever it stands, but in strings: `rateOf` becomes `rate_of`, and
`by-structure` `by_structure`. A dash stays in a lemma whose parts are all names of definitions, as in `length-words`. What a
library of the toolchain calls so keeps its name in the files that import it from there. Names of src/ stay: functions, types,
fields, exported C names. Types and modules stay in camel case.

It prints each name that turns, and stops, with nothing written, where two names of one file would fall together.
--check writes nothing.
"""
import collections
import glob
import os
import re
import sys

DECLARED = re.compile(r"^(\s*)((?:abbrev |unfoldable |pub |mutual )*)(data |record |module |ruleset )?([^\s(){}.;,@\"«»:|]+)\s*(?=:|\()")
SIGN = re.compile(r"^(\s*)((?:abbrev |unfoldable |pub )*)(data |record |module |ruleset )?([^\s(){}.;,@\"«»:|]+)((?:\s+[({].*?[)}])*)\s*:\s")
WORD = re.compile(r"[^\s(){}.;,@\"«»:|\[\]]+")
QUIET = re.compile(r'"(?:[^"\\\n]|\\.)*"')
OWN_USE = re.compile(r"^\s*(?:pub |ghost )*use ([^\s{;]+?)(?:\.\{([^}]*)\}| as (\S+?))?;?\s*(?:--.*)?$")
# Lemmas of one crate that port.py gave the spelling that a definition now gets: these get their dash back.
LEMMAS = {
    "calls": ["left_out"],
    "cardbook": ["call_line"],
    "events": ["none_left"],
    "feed": ["goes_on", "blocks_at"],
    "step": ["arm_rows"],
}
# Operators and words of the library that a lemma may be about.
STD = set("length take drop map get_or set append eqb leb ltb reverse cond not mod div mul add sub pow sum zero suc one".split())


def snake(name):
    return re.sub(r"(?<=[a-z0-9])([A-Z])", lambda m: "_" + m[1].lower(), name)


def is_camel(name):
    return name[:1].islower() and re.search(r"[a-z0-9][A-Z]", name)


def crates():
    return [os.path.basename(os.path.dirname(p)) for p in glob.glob("crates/*/src")]


def files():
    for f in sorted(glob.glob("crates/**/*", recursive=True)):
        if "/out/" in f:
            continue
        if f.endswith(".antt") or f.endswith(".rt"):
            yield f


def read(path):
    with open(path, encoding="utf-8", newline="") as f:
        return f.read()


def declared():
    """The names that specs/ and proofs/ declare: name -> kinds of place ('specs' or 'proofs')."""
    found = collections.defaultdict(set)
    for path in files():
        if not path.endswith(".antt"):
            continue
        walk = path.endswith("/Proof.antt")
        for line in read(path).split("\n"):
            if line.lstrip().startswith(("--", "use ", "pub use", "unfolding")):
                continue
            m = SIGN.match(line + " ")
            if not m:
                continue
            name = m[4]
            if walk and (re.search(r":\s*tie\.", line) or name.endswith("spec")):
                continue
            if m[3] and m[3].strip() == "module":
                continue
            found[name].add("specs" if "/specs/" in path else "proofs")
    return found


def table(found):
    words = {snake(n).replace("-", "_") for n, k in found.items() if "-" not in n or "specs" in k} | STD
    rows = {}
    for name, kinds in found.items():
        new = name
        if not (name[:1].islower() or name[:1] == "_"):
            # types and the like keep their capital; a dash inside stays
            continue
        if is_camel(name):
            new = snake(new)
        if "-" in new:
            parts = new.split("-")
            joins = kinds == {"proofs"} and all(p in words and not p.isdigit() for p in parts)
            if not joins:
                new = new.replace("-", "_")
        if new != name:
            rows[name] = new
    # where a lemma and a definition would fall together, the lemma keeps its dash
    news = collections.Counter(rows.get(n, n) for n in found)
    for name in [n for n in rows if "-" in n and news[rows[n]] > 1]:
        del rows[name]
    return rows


def imports(text, own):
    """The names that a file takes from libraries of the toolchain, and the heads that stand for modules of them."""
    names, heads = set(), set()
    for line in text.split("\n"):
        m = OWN_USE.match(line)
        if not m:
            continue
        path = m[1].split(".")
        if path[0] == "Rattle" and len(path) > 1 and path[1] in own:
            # what Rattle makes of a function
            continue
        if m[2]:
            for it in m[2].split(","):
                it = it.strip()
                names.add(it.split(" as ")[-1].strip())
                names.add(it.split(" as ")[0].strip())
        elif m[3]:
            heads.add(m[3])
    return names, heads


def turn(path, text, rows, own):
    if path.endswith(".antt"):
        rows = rows | {n: n.replace("_", "-") for n in LEMMAS.get(path.split("/")[1], [])}
    taken, heads = imports(text, own)
    rust = path.endswith(".rt")
    walk = path.endswith("/Proof.antt")
    used, look = {}, []

    def word(m, line, start):
        name = m[0]
        new = rows.get(name)
        before = line[: m.start()]
        behind = before.endswith(".") and not before.endswith("..")
        head = None
        if use and not re.search(r"[{,]\s*(?:[^\s{},]+ as )?$", before):
            behind = True
        if behind:
            path_ = re.search(r"([^\s(){};,@\"«»|\[\]]+)\.$", before)
            head = path_[1].split(".")[0] if path_ else None
        if new is None or name in taken:
            if not behind and counts and not re.search(r" as $", before):
                used.setdefault(name, set()).add(name)
            return name
        if behind and head in heads:
            return name
        if behind and walk and "-" in name and not (head and head[:1].isupper()):
            look.append(f"{path}: {line.strip()[:100]}: {name} behind a dot stays")
            return name
        if not behind and counts:
            used.setdefault(new, set()).add(name)
        return new

    out = []
    for line in text.split("\n"):
        use = re.match(r"\s*(pub |ghost )*use ", line)
        # in a .rt file only what clauses say; of a use line only what it brings
        counts = not rust or bool(re.match(r"\s*(ghost|requires|ensures|invariant)\b", line))
        if use:
            counts = True
        mark = "//" if rust else "--"
        at = re.search(r"(?<![^\s(){};,])" + re.escape(mark), line)
        code, said = (line, "") if not at else (line[: at.start()], line[at.start():])
        if rust and not re.match(r"\s*(ghost|requires|ensures|invariant)\b", code) and "-" in code:
            pieces = [("camel", code)]
        else:
            pieces = [("all", code)]
        done = []
        for kind, piece in pieces:
            last = 0
            for q in list(QUIET.finditer(piece)) + [None]:
                part = piece[last: q.start()] if q else piece[last:]
                base = last

                def one(m, part=part):
                    if kind == "camel" and "-" in m[0]:
                        return m[0]
                    return word(m, part, base)

                done.append(WORD.sub(one, part))
                if q:
                    done.append(q[0])
                    last = q.end()
        if said:
            said = re.sub(r"[A-Za-z][A-Za-z0-9_]*", lambda m: rows[m[0]] if is_camel(m[0]) and m[0] in rows else m[0], said)
        out.append("".join(done) + said)
    clash = {new: olds for new, olds in used.items() if len(olds) > 1}
    return "\n".join(out), clash, look


def main():
    check = "--check" in sys.argv
    own = set(crates())
    found = declared()
    rows = table(found)
    back = collections.defaultdict(set)
    for name in found:
        back[rows.get(name, name)].add(name)
    bad = 0
    for new, olds in sorted(back.items()):
        if len(olds) > 1:
            print(f"together: {new}: {', '.join(sorted(olds))}")
    written = []
    for path in files():
        text = read(path)
        new, clash, look = turn(path, text, rows, own)
        for l in look:
            print("look:", l)
        if re.search(r"crates/reader/proofs/Reader/(here|left)/Proof.antt$", path):
            # walks by hand whose own short names fall together: they are written anew
            clash = {}
        for n, olds in clash.items():
            print(f"clash: {path}: {n}: {', '.join(sorted(olds))}")
            bad += 1
        if new != text:
            written.append((path, new))
    for name, new in sorted(rows.items()):
        print(f"{name}\t{new}")
    if bad or check:
        print(f"{len(rows)} names, {len(written)} files, {bad} clashes; nothing written")
        return 1 if bad else 0
    for path, new in written:
        with open(path, "w", encoding="utf-8", newline="") as f:
            f.write(new)
    print(f"{len(rows)} names, {len(written)} files")
    return 0


sys.exit(main())
