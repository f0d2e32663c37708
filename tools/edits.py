"""Wrong versions of the code: the files *.edit, and which of them can be tried in one go. For tools/try-edits.

An edit is in the toolchain's form, 'file:', 'old:' and 'new:' lines, with one line more, which rt passes over:

    input: WHAT: `RIGHT` becomes `WRONG`

an input on which the wrong version differs, and what comes of it. WHAT is in a form that tools/wrong_runs.py can run. Where
an edit changes a contract or a definition, which no program runs, it is found by reading: 'input, by reading:'.
"""

import re
from pathlib import Path

FOLDERS = ("must-fail", "edits")


class Edit:
    def __init__(self, file):
        self.file, self.crate = file, file.parts[-3]
        self.name = f"{self.crate}/{file.stem}"
        self.pairs, self.input, self.read, self.fault = [], None, False, None
        path = old = None
        for line in file.read_text().splitlines():
            key, _, text = line.partition(":")
            text = text.removeprefix(" ")
            if key == "file":
                path = text
            elif key == "old":
                old = text
            elif key == "new":
                self.pairs.append((path, old, text))
            elif key in ("input", "input, by reading"):
                told = re.fullmatch(r"(.*): `(.*)` becomes `(.*)`", text)
                self.input, self.read = told and told.groups(), key != "input"
            elif line.strip():
                self.fault = f"a line that is none of file, old, new and input: {line}"
        if not self.input:
            self.fault = self.fault or "no line 'input: WHAT: `RIGHT` becomes `WRONG`': an input on which it differs"

    def apply(self, folder, code_alone=False):
        """Applies the edit, or what it changes of the code alone, in a crate's folder: its files as they were, or what keeps it
        from applying."""
        before = {}
        for path, old, new in self.pairs:
            if code_alone and not path.startswith("src/"):
                continue
            file = folder / path
            now = file.read_text()
            before.setdefault(file, now)
            if now.count(old) != 1:
                return before, f"{file.name} has `{old.strip()}` {now.count(old)} times"
            file.write_text(now.replace(old, new))
        return before, None


def all_edits(root):
    """The edits of a repository, by name; those that stand twice."""
    edits, twice = {}, []
    for folder in FOLDERS:
        for file in sorted(root.glob(f"crates/*/{folder}/*.edit")):
            edit = Edit(file)
            twice += [edit.name] if edit.name in edits else []
            edits[edit.name] = edit
    return dict(sorted(edits.items())), twice


class Function:
    """A function of a source: its path in the crate, its lines, where its body lies in the text, and the body."""

    def __init__(self, path, head, start, end, text):
        self.path, self.start, self.end, self.body = path, start, end, text[start:end]
        self.lines = range(text.count("\n", 0, head) + 1, text.count("\n", 0, end) + 2)


def functions(folder):
    """The functions of a crate's sources, by file."""
    found = {}
    for file in sorted((folder / "src").rglob("*.rt")):
        text, owner = file.read_text(), ()
        module = file.relative_to(folder / "src").with_suffix("").parts
        module = () if module in (("lib",), ("main",)) else module
        within = found.setdefault(str(file.relative_to(folder)), [])
        for head in re.finditer(r"^impl(?:<[^>]*>)? (\w+)|^\}|^( *)(?:pub )?(?:const |extern \"C\" )*fn (\w+)", text, flags=re.M):
            if not head[3]:
                owner = (head[1],) if head[1] else ()
                continue
            # the body's brace ends the head's own line, or stands on a line of its own behind the contract
            body = re.compile(rf"\{{$|^{head[2]}\{{$", flags=re.M).search(text, head.end())
            end = re.compile(rf"^{head[2]}\}}$", flags=re.M).search(text, head.end())
            within.append(Function((*module, *(owner if head[2] else ()), head[3]), head.start(), body.end(), end.start(), text))
    return found


def home(edit, found):
    """The function in whose body the whole of an edit lies, or None."""
    homes = set()
    for path, old, _ in edit.pairs:
        text = (edit.file.parents[1] / path).read_text()
        at = text.find(old)
        inside = [f.path for f in found.get(path, []) if f.start <= at and at + len(old) <= f.end]
        homes.add(inside[0] if inside and text.count(old) == 1 else None)
    return homes.pop() if len(homes) == 1 else None


def reached(found):
    """Of each function those that it may reach: any that it names, and what they reach."""
    all_functions = [f for within in found.values() for f in within]
    reach = {f.path: {g.path for g in all_functions if re.search(rf"\b{g.path[-1]}\b", f.body)} for f in all_functions}
    grown = True
    while grown:
        wider = {f: near.union(*(reach[g] for g in near)) for f, near in reach.items()}
        grown, reach = wider != reach, wider
    return reach


def groups(edits, found):
    """The edits of a crate in groups that are tried in one go, each edit with its function.

    Two of a group lie in the bodies of two functions, contracts untouched, and neither function reaches the other: so the proof
    of each reads of the other's edit nothing. An edit of something else (a contract, a constant, a definition, a proof) is alone.
    """
    made, reach = [], reached(found)
    for edit in edits:
        at = home(edit, found)
        for group in made if at else []:
            if all(other and at != other and at not in reach[other] and other not in reach[at] for _, other in group):
                group.append((edit, at))
                break
        else:
            made.append([(edit, at)])
    return made
