#!/usr/bin/env python3
"""boundary/count.py inputs: writes the inputs of boundary/count.c.
boundary/count.py told ARCHIVE PROGRAM RESULTS MAP LIBRARY < LOG: prints the tables of boundary/count.

PROGRAM is boundary/count.c linked with ARCHIVE, and with LIBRARY where that is not empty; MAP is what the linker tells of it,
RESULTS what it wrote of the inputs, LOG qemu's log of its run, a line for each instruction with its address.

Exit status: 0; 1 a result is not what is due, or the log is not what it is taken for, and it is said which; 2 bad usage.
"""

import re
import signal
import struct
import subprocess
import sys
from collections import Counter

FUNCTIONS = ("boresacu_clock_setting", "boresacu_block_count", "boresacu_transfer_rate", "boresacu_block_address")
COUNTED = FUNCTIONS[0]
# What boundary/count.c has in its function `known`.
KNOWN = 202
LARGEST = 2**32 - 1
FASTEST = 80_000_000

CASES = [
    ("K1", 102_800_000, 400_000, 0),
    ("K1", 102_800_001, 400_000, 0),
    ("K2", 144_000_000, 25_000_000, 0),
    ("K3", 1, 400_000, 0),
    ("K4", 25_000_000, 25_000_000, 0),
    ("K4", 25_000_000, 25_000_000, 1),
]


class Wrong(Exception):
    """Why the numbers cannot be told."""


def others():
    """Inputs among which the most expensive one is looked for."""
    # The last source that a divisor serves, and the first that needs the next one; 257 times the second request is the
    # largest source.
    for request in (400_000, 16_711_935, FASTEST):
        for divisor in range(1, 258):
            yield divisor * request, request
            yield divisor * request + 1, request
    for request in (0, 1, 16_711_935, 16_711_936, FASTEST, FASTEST + 1):
        yield LARGEST, request
    yield 0, 400_000
    # Frequencies of which every bit is 1, as long as they can be, without and with a rest.
    for divisor in range(2, 258):
        longest = (min(LARGEST // divisor, FASTEST) + 1).bit_length() - 1
        ones = 2**longest - 1
        yield divisor * ones, ones
        yield divisor * ones + divisor - 1, ones + 1


def inputs():
    plain = [(source, request) for source, request in others() if source <= LARGEST]
    return [case[1:] for case in CASES] + [(*pair, bypass) for pair in plain for bypass in (0, 1)]


def due(source, request, bypass):
    """The result as include/boresacu.h has it, one divisor tried after the other."""
    refused = 17 << 56
    if source == 0 or not 0 < request <= FASTEST:
        return refused
    if bypass and source <= request:
        return 1 << 40 | source
    for divisor in range(2, 258):
        if source <= divisor * request:
            return divisor - 2 << 32 | source // divisor
    return refused


def told(source, request, bypass):
    return f"{source} for {request}{', bypass allowed' if bypass else ''}"


# ---- bytes


def readelf(option, file):
    return subprocess.run(["readelf", option, file], check=True, capture_output=True, text=True).stdout.splitlines()


def symbols(file):
    """Address, size, type and place of each named symbol."""
    for line in readelf("-sW", file):
        words = line.split()
        if len(words) == 8 and words[0][:-1].isdigit():
            yield words[7], int(words[1], 16), int(words[2], 0), words[3], words[6]


def sections(file):
    """Whether it is code, and size, of each section that a program has in its memory."""
    for line in readelf("-SW", file):
        found = re.match(r" *\[ *\d+\] +\S+ +[A-Z_]+ +[0-9a-f]+ [0-9a-f]+ ([0-9a-f]+) \S+ +([A-Za-z]*A[A-Za-z]*) ", line)
        if found:
            yield "X" in found[2], int(found[1], 16)


def bytes_of(archive):
    """The archive's bytes by function, and the names that it has not itself."""
    named = {name: size for name, _, size, kind, place in symbols(archive) if kind == "FUNC" and place != "UND"}
    rows = [(named.get(name, 0), name) for name in FUNCTIONS]
    if not all(size for size, _ in rows):
        raise Wrong("the archive lacks one of the four functions")
    code, tables = (sum(size for is_code, size in sections(archive) if is_code == wanted) for wanted in (True, False))
    rows += [(code - sum(size for size, _ in rows), "other code"), (tables, "tables")]
    return [row for row in rows if row[0]], sorted({name for name, _, _, _, place in symbols(archive) if place == "UND"})


def bytes_from(library, link_map):
    """The bytes of the library's code and tables in the program, by its members; what debuggers read is left out."""
    came = Counter()
    line_of = re.compile(rf" *\w+ +\w+ +(\w+) +\d+ +{re.escape(library)}\((.*)\):\(\.(text|s?rodata|s?data|s?bss)\b.*\)\n")
    with open(link_map) as lines:
        for size, member, section in (found.groups() for found in map(line_of.fullmatch, lines) if found):
            came[f"{'code' if section == 'text' else 'tables'} of {member}"] += int(size, 16)
    return [(size, name) for name, size in came.items() if size]


# ---- instructions


def counts(log, program):
    """How many instructions each call executed, from the entry of a function to the return to main."""
    at = {name: (start, start + size) for name, start, size, _, _ in symbols(program)}
    entries = {at["known"][0], at[COUNTED][0]}
    start, end = at["main"]
    count = None
    for line in log:
        if not line.startswith("Trace "):
            raise Wrong(f"the emulator said: {line.strip()}")
        pc = int(line.split("/", 2)[1], 16)
        if count is None:
            count = 1 if pc in entries else None
        elif start <= pc < end:
            yield count
            count = None
        else:
            count += 1


def counted(log, program, results):
    """The instructions of each input's call, after the log and the results were found to be right."""
    known, *numbers = [*counts(log, program)] or [0]
    if known != KNOWN:
        raise Wrong(f"the emulator's log has {known} instructions where {KNOWN} are known to be")
    with open(results, "rb") as file:
        found = file.read()
    if not len(inputs()) == len(found) / 8 == len(numbers):
        raise Wrong(f"{len(inputs())} calls have results of {len(found)} bytes and {len(numbers)} counts")
    for case, (result,) in zip(inputs(), struct.iter_unpack("<Q", found)):
        if result != due(*case):
            raise Wrong(f"{told(*case)}: the result is 0x{result:016x}, and 0x{due(*case):016x} is due")
    return numbers


def table(heading, rows):
    print(heading)
    for number, name in rows:
        print(f"{number:8}  {name}")


def with_sum(rows):
    return [*rows, (sum(size for size, _ in rows), "together")]


def tell(archive, program, results, link_map, library):
    numbers = counted(sys.stdin, program, results)
    rows, absent = bytes_of(archive)
    table("bytes in libboundary.a", with_sum(rows))
    print(f"          calls for: {', '.join(absent) or 'nothing'}\n")
    came = bytes_from(library, link_map) if library else []
    if library:
        table("bytes that come with it out of the compiler's library", with_sum(came))
        print()
    division = f", with the division of {'that library' if came else 'boundary/bare.c, which is slow'}" if absent else ""
    cases = [(number, f"{name}: {told(*case)}") for number, (name, *case) in zip(numbers, CASES)]
    most, case = max(zip(numbers, inputs()), key=lambda pair: pair[0])
    cases.append((most, f"the most of {len(numbers)} inputs, first at {told(*case)}"))
    table(f"instructions executed by a call of {COUNTED}{division}", cases)


def main():
    signal.signal(signal.SIGPIPE, signal.SIG_DFL)  # whoever reads only the first lines wants no more
    words = sys.argv[1:]
    if words == ["inputs"]:
        sys.stdout.buffer.write(b"".join(struct.pack("<3I", *case) for case in inputs()))
        return 0
    if len(words) != 6 or words[0] != "told":
        print("usage: boundary/count.py inputs, or boundary/count.py told ARCHIVE PROGRAM RESULTS MAP LIBRARY", file=sys.stderr)
        return 2
    try:
        tell(*words[1:])
    except Wrong as why:
        print(f"boundary/count: {why}", file=sys.stderr)
        return 1
    return 0


if __name__ == "__main__":
    sys.exit(main())
