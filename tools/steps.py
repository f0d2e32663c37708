#!/usr/bin/env python3
"""tools/steps.py [--traced] PILE COMMAND [ARGS]... < EXPECTED: holds what a program tells of each book of a pile, event by
event, to a text. For oracle/compare-steps and oracle/replay-steps.

COMMAND reads a book on standard input and prints what cardsteps prints. EXPECTED has for each book the line `book K`, and
behind it what `oracle events` prints of that book: the same lines without the texts for people, which are taken off here (in
lines that begin with `row ` or `read `, all from two spaces on).

With --traced EXPECTED is what cardtrace prints of each book, which knows rows and no order of readings. Then the rows, the
lines of calls and the states have to be the same, and the rest is held to the book itself: a call begins as the book has it,
and its readings are the first words of its script, as many as its line says. A write's script comes behind its data words in
the book's body; these are rows of the FIFO, which stand behind the row of DCTRL that has direction off and before any reading,
all of them, or the first of them where the room ended (answer 22). Where the script ended (answer 21) one more reading has no
word, and behind it come the rows that close the call: CLKCR off at most once, then the reset rows, twice at most, and no other;
where these found no room (answer 22), the first of them.

Prints how many books and lines were equal. Exit status: 0 they are; 1 a book differs (the first is told), or COMMAND fails;
2 bad usage.
"""

import re
import struct
import subprocess
import sys

READ = re.compile(r"read (?:status|respcmd|response [0-3]|dma|dcount|data \d+) (?:0x([0-9a-f]{8})|none)")
ROW = re.compile(r"row \d+ \d+")
# Only 13 has a field, and only 0 tells how a card is protected.
LINE = re.compile(r"\d+ answer (\d+)(?:(?<= 13) field [1-8])? words (\d+) rows \d+(?: protect [0-3])?")
# What may close a call whose script ended.
RESET = [f"row {register} 0" for register in (9, 10, 7, 4, 1, 2, 3, 5, 6)] + [f"row 8 {0xC007FF}"]
CLKCR = re.compile(r"row 2 (\d+)")
# A write: its kind, the words of a block, the row behind which it sends them.
WRITE, BLOCK, ARMED = 4, 128, "row 7 153"
# What only cardtrace tells.
TRACE_ALONE = ("carried ", "status ", "block ")
BEFORE = 5


class Differs(Exception):
    """What is wrong with a book's text."""


def books(pile):
    while length := pile.read(4):
        yield pile.read(int.from_bytes(length, "little"))


def expected(text):
    """Number and lines of each book of a text."""
    number, lines = None, []
    for line in text:
        line = line.rstrip("\n")
        if line.startswith("book "):
            if number is not None:
                yield number, lines
            number, lines = int(line[5:]), []
        else:
            lines.append(line)
    if number is not None:
        yield number, lines


def plain(line):
    return line.partition("  ")[0] if line.startswith(("row ", "read ")) else line


def serve(command, book):
    ran = subprocess.run(command, input=book, stdout=subprocess.PIPE)
    if ran.returncode != 0:
        raise Differs(f"the program ended with status {ran.returncode}")
    text = ran.stdout.decode("ascii", "replace")
    if text and not text.endswith("\n"):
        raise Differs("its last line has no end")
    return [plain(line) for line in text.split("\n")[:-1]]


def same(theirs, ours):
    if theirs == ours:
        return
    pairs = enumerate(zip([*theirs, "(the end)"], [*ours, "(the end)"]))
    at = next(k for k, (a, b) in pairs if a != b)
    told = [f"  {line}" for line in ours[max(0, at - BEFORE) : at]]
    told += [f"- {(theirs + ['(the end)'])[at]}", f"+ {(ours + ['(the end)'])[at]}"]
    raise Differs("\n".join([f"line {at + 1}, expected (-) and found (+):", *told]))


def calls(book):
    """What each call of a book begins with, its data and its script; the book has been found to be one."""
    words = [word for (word,) in struct.iter_unpack("<I", book)]
    place = 7 + 4 * words[6]
    for k in range(words[6]):
        kind, a, b, length = words[7 + 4 * k : 11 + 4 * k]
        body = words[place : place + length]
        data = BLOCK * b if kind == WRITE else 0
        yield f"{k + 1} {kind} {a} {b}", body[:data], body[data:]
        place += length


def held_to_body(events, line, data, script):
    """A call's events and its line against its data and its script."""
    told = LINE.fullmatch(line)
    if not told:
        raise Differs(f"no line of a call: {line}")
    answer, used = map(int, told.groups())
    for event in events:
        if not (READ.fullmatch(event) or ROW.fullmatch(event)):
            raise Differs(f"no event: {event}")
    if not sends(events, data, answer == 22):
        raise Differs(f"the data words are not sent behind DCTRL, or not as the book has them: {line}")
    ends = next((k for k, event in enumerate(events) if event.endswith(" none")), None)
    if ends is not None:
        if answer not in (21, 22) or used != len(script) or not closes(events[ends + 1 :], answer == 21):
            raise Differs(f"no closing rows, or more than these, behind the reading without a word: {line}")
        events = events[:ends]
    elif answer == 21:
        raise Differs(f"no reading without a word: {line}")
    readings = [event for event in events if event.startswith("read ")]
    if [READ.fullmatch(reading)[1] for reading in readings] != [f"{word:08x}" for word in script[:used]]:
        raise Differs(f"the readings are not the first words of the script: {line}")


def sends(events, data, full):
    """Whether these events send the data, if any, behind DCTRL at once; in part only where they end for want of room."""
    rows = [event for event in events if event.startswith("row 12 ")]
    if not data or ARMED not in events:
        return not rows
    first = events.index(ARMED) + 1
    sent = [f"row 12 {word}" for word in data[: len(rows)]]
    wholly = len(rows) == len(data) or full and first + len(rows) == len(events)
    return wholly and events[first : first + len(rows)] == sent


def closes(events, wholly):
    """Whether these events close a call whose script ended, wholly or as far as there was room."""
    clkcr = CLKCR.fullmatch(events[0]) if events else None
    resets = events[1:] if clkcr else events
    if clkcr and int(clkcr[1]) & 256 or resets != (2 * RESET)[: len(resets)]:
        return False
    return not wholly or bool(events) and len(resets) % len(RESET) == 0


def as_traced(lines, book):
    """The lines of a host that was made in cardtrace's order, the readings held to the book and left out."""
    traced, rest = lines[:2], iter(lines[2:])
    for begins, data, script in calls(book):
        if (line := next(rest, "(the end)")) != begins:
            raise Differs(f"a call begins with {begins!r} and not with {line!r}")
        events = []
        while (line := next(rest, "(the end)")).startswith(("row ", "read ")):
            events.append(line)
        held_to_body(events, line, data, script)
        traced += [line, *(event for event in events if event.startswith("row ")), next(rest, "(the end)")]
    return traced + list(rest)


def main():
    words = sys.argv[1:]
    traced = words[:1] == ["--traced"]
    words = words[traced:]
    if len(words) < 2:
        print(f"usage: {__doc__.partition(':')[0]}", file=sys.stderr)
        return 2
    texts, number, lines = expected(sys.stdin), 0, 0
    with open(words[0], "rb") as pile:
        for number, book in enumerate(books(pile), 1):
            try:
                k, theirs = next(texts, (None, None))
                if k != number:
                    raise Differs("nothing is expected of it")
                ours = serve(words[1:], book)
                if traced:
                    theirs = [line for line in theirs if not line.startswith(TRACE_ALONE)]
                    if theirs[0] == "host answer 0" and ours[:1] == theirs[:1]:
                        ours = as_traced(ours, book)
                same(theirs, ours)
            except Differs as why:
                print(f"book {number}: {why}")
                return 1
            lines += len(ours)
    if next(texts, None):
        print("more books are expected than the pile has")
        return 1
    print(f"{number} books, {lines} lines")
    return 0


if __name__ == "__main__":
    sys.exit(main())
