#!/usr/bin/env python3
"""Brings the wrong versions, crates/*/must-fail/*.edit and crates/*/edits/*.edit, to today's spelling. Run once.

usage: port_edits.py NAMES [--check]     at the top of the repository; NAMES: what tools/respell.py --check printed

An edit's texts are of an older Rattle, the files that they change of today's. Texts of .antt files turn by rule: names as in
NAMES, a projection tight, plain words of the library. What no rule turns stands in tools/port_edits.txt: an edit with its texts
of today, whole, and its line 'input:' where that changed. In the end each old text stands exactly once in its file as the
earlier pairs left it, or this says where not.
--check writes nothing.
"""
import re
import sys
from pathlib import Path

WORD = re.compile(r"[^\s(){}.;,@\"«»:|\[\]]+")
LIBRARY = {"getD": "get_or", "the-variants": "TheVariants", "«block_count»": "block_count", "«card_type»": "card_type"}
BREAKS = set("= ; , ∷ ≡ ++ || && + - * / % ^ < ≤ → × : ∙ in let then of λ ← ∨ ∧ |".split())


def names(file):
    rows = {}
    for line in Path(file).read_text().splitlines():
        words = line.split("\t")
        if len(words) == 2:
            rows[words[0]] = words[1]
    # what port.py turned before: a name in camel case that no file has any more, where one has it in snake case
    there = set()
    for antt in Path("crates").glob("*/[ps]*/**/*.antt"):
        there.update(WORD.findall(antt.read_text()))
    for edit in Path("crates").glob("*/*/*.edit"):
        for word in WORD.findall(edit.read_text()):
            snake = re.sub(r"(?<=[a-z0-9])([A-Z])", lambda m: "_" + m[1].lower(), word)
            if word[0].islower() and snake != word and word not in there and snake in there:
                rows.setdefault(word, snake)
    return rows


def tight(text):
    """Projections of the older form, `f x .p`, as today's: `(f x).p`."""
    parts = re.findall(r"\s+\.[\w«»]+(?:-[\w]+)*(?=[\s(){};,]|$)|\s+|[(){}\[\]]|;|,|[^\s(){}\[\];,]+", text)

    def group(at, close):
        """Items from `at` on up to the bracket `close`: the text, whether it is one atom with a projection, and the place behind."""
        items, last, projected = [], 0, False

        def shut():
            nonlocal last
            last = len(items)

        while at < len(parts):
            part = parts[at]
            if part == close:
                break
            if re.match(r"\s+\.", part):
                subject = [i for i in items[last:]]
                lead = []
                while subject and subject[0].isspace():
                    lead.append(subject.pop(0))
                body = "".join(subject)
                if len([i for i in subject if not i.isspace()]) > 1:
                    body = f"({body})"
                items[last:] = [*lead, body + part.strip()]
                projected = True
            elif part in "({[" and len(part) == 1:
                inner, one, after = group(at + 1, {"(": ")", "{": "}", "[": "]"}[part])
                tail = parts[after] if after < len(parts) else ""
                items.append(inner if one and part == "(" and tail else part + inner + tail)
                at = after
            else:
                items.append(part)
                if part in BREAKS or part.endswith(".") and not part.startswith("."):
                    shut()
            at += 1
        solid = [i for i in items if not i.isspace()]
        return "".join(items), projected and len(solid) == 1, at

    out, at = "", 0
    while at < len(parts):
        said, _, at = group(at, None)
        out += said
    return out


def turn(text, rows):
    text = text.replace("′", "'")
    for old, new in LIBRARY.items():
        text = re.sub(rf"(?<![\w-]){re.escape(old)}(?![\w-])", new, text)
    pieces = re.split(r'("(?:[^"\\]|\\.)*")', text)
    pieces = [p if p.startswith('"') else WORD.sub(lambda m: rows.get(m[0], m[0]), p) for p in pieces]
    return tight("".join(pieces))


def told(text, rows):
    """What an edit found by reading tells: names in camel case turn."""
    return re.sub(r"[A-Za-z]\w*", lambda m: rows[m[0]] if m[0] in rows and re.search("[a-z0-9][A-Z]", m[0]) else m[0], text)


def by_hand(file):
    """The edits that are written out: name -> lines."""
    found, name = {}, None
    for line in Path(file).read_text().splitlines() if Path(file).exists() else []:
        if line.startswith("=== "):
            name = line[4:]
            found[name] = []
        elif name and not line.startswith("#") and line.strip():
            found[name].append(line)
    return found


def faults(edit, lines):
    path, old, texts, found = None, None, {}, []
    for line in lines:
        key, _, text = line.partition(":")
        text = text.removeprefix(" ")
        if key == "file":
            path = edit.parents[1] / text
            if path not in texts:
                texts[path] = path.read_text() if path.exists() else None
        elif key == "old":
            old = text
        elif key == "new":
            if texts[path] is None:
                found.append(f"no file {path}")
                continue
            count = texts[path].count(old)
            if count != 1:
                found.append(f"{path}: {count} times: {old}")
            else:
                texts[path] = texts[path].replace(old, text)
    return found


def main():
    rows, hand = names(sys.argv[1]), by_hand(Path(__file__).with_suffix(".txt"))
    check, bad = "--check" in sys.argv, 0
    for edit in sorted([*Path("crates").glob("*/must-fail/*.edit"), *Path("crates").glob("*/edits/*.edit")]):
        name = f"{edit.parts[1]}/{edit.stem}"
        was = edit.read_text().splitlines()
        lines, path = [], ""
        if name in hand:
            lines = hand.pop(name)
            if not any(line.startswith("input") for line in lines):
                lines = lines + [line for line in was if line.startswith("input")]
        else:
            for line in was:
                key, colon, text = line.partition(": ")
                path = text if key == "file" else path
                if key in ("old", "new") and path.endswith(".antt"):
                    line = f"{key}: {turn(text, rows)}"
                lines.append(line)
        lines = [f"input, by reading: {told(l[19:], rows)}" if l.startswith("input, by reading: ") else l for l in lines]
        wrong = faults(edit, lines)
        if wrong:
            bad += 1
            print(f"{edit}:")
            for w in wrong:
                print(f"    {w}")
        if lines != was and not check:
            edit.write_text("\n".join(lines) + "\n")
    for name in hand:
        bad += 1
        print(f"no edit {name}")
    print(f"{bad} edits do not apply")
    return 1 if bad else 0


sys.exit(main())
