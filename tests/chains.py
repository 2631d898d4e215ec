#!/usr/bin/env python3
"""The small program: its data sets and the line that each prints, from the text of document 01 and requests One to Three and Seven alone.

Run from the repository's root:
python3 tests/chains.py write FOLDER    writes crates/chains/data, its stdout, examples/day and tests/data under the folder
python3 tests/chains.py run             runs ./chains on these data sets and on others that are too large to keep"""
import os
import subprocess
import sys
import tempfile
from chains01 import (A, B, C, D, E, F, G, LAP, P, R, R_LINES, S, T, THEN_ANY, THEN_FOREIGN, THEN_OTHER, THEN_SAME, THEN_SISTER, boats_like, find,
                      record, line, rounds, twenties)


def question(a, b, pattern): return a.to_bytes(2, "big") + b.to_bytes(2, "big") + bytes(pattern)


def said(day, ask):
    """The line that the program prints, the files' bytes being given, or None for a missing file."""
    day, ask = bytes(day or b""), bytes(ask or b"")
    if len(ask) < 4: return "no question"
    word, n, chain = find(day, ask[4:], ask[0] * 256 + ask[1], ask[2] * 256 + ask[3], 16384, 2048)
    if word == "found": return "found %d:" % n + "".join(" %d" % i for i in chain)
    return word if word == "none" else "refused %d" % n


LAPS = record(2, (0, 3, 1, 7, 0), (0, 4, 1, 7, 1))

# name: the record and the question. These stand in files too: the worked day, and in tests/data two more for the examples.
DAY = (R, question(0, 3, P))
KEPT = {
    "none": (record(4, *(R_LINES[:5] + R_LINES[6:])), question(0, 3, P)),
    "damaged": (R[:-1], question(0, 3, P)),
}

def sailed(n): return [(a, k, 1, i, b) for a, k, b in ((0, 1, 1), (1, 2, 2), (2, 4, 3)) for i in range(n)]


def boats(n): return record(4, *sailed(n))


def unread(n): return record(4, (0, 1, 0, 0, 1), (1, 2, 0, 0, 2), *sailed(n))


LONG = [1, 4, 0] + line(0, 1, 1, 1, 1) * 4096
LONGEST = [1, 4, 0] + line(0, 1, 1, 1, 1, 86399) * 4096
TIMES = [0x25, 0x21, 3] * 31
# Entered, that boat started, another or the same finished, and roundings of the two.
TWO_KEEPS = [0x27, 1, 0, 0x25, 0x22, 2, 0, 0x27, 4, 1, 0x26, 0x24, 0x22, 3, 0, 0x22, 3, 1]
OTHERS = {
    "day": DAY,
    "empty chain": (E, question(0, 0, [0x20])),
    "no record and three bytes": (None, question(0, 3, P)[:3]),
    "area too small": (R, question(0, 3, [0x27, 1, 1, 0x27, 1, 2] + P)),
    "seventh line": (record(4, *(R_LINES + [(2, 4, 1, 150, 3)])), question(0, 3, P)),
    "T, S": (T, question(0, 0, S)),
    "places swapped": (R, question(3, 0, P)),
    "place 256": (R, question(256, 3, P)),
    "no record": (None, question(0, 3, P)),
    "empty record": (b"", question(0, 0, [0x20])),
    "no question": (R, None),
    "no files": (None, None),
    "three bytes": (R, question(0, 3, P)[:3]),
    "four bytes": (R, question(0, 3, [])),
    "63 boats, search size 2,048": (boats(63), question(0, 3, P)),
    "64 boats, search size 2,080": (boats(64), question(0, 3, P)),
    "32 places, 63 commands, search size 2,048": (record(32, (0, 3, 1, 7, 0), (0, 4, 1, 7, 31)), question(0, 31, TIMES + [0x21, 4])),
    "6 boats, two keeps, search size 1,764": (boats(6), question(0, 3, TWO_KEEPS)),
    "7 boats, two keeps, search size 2,304": (boats(7), question(0, 3, TWO_KEEPS)),
    "unread line, same": (A, question(0, 2, THEN_SAME)),
    "unread line, other": (A, question(0, 2, THEN_OTHER)),
    "unread kept, same": (B, question(0, 1, THEN_SAME)),
    "unread kept, other": (B, question(0, 1, THEN_OTHER)),
    "unread kept, any": (B, question(0, 1, THEN_ANY)),
    "0-5 kept, other": (boats_like((0, 5), (0, 6)), question(0, 1, THEN_OTHER)),
    "3-0 kept, same": (boats_like((3, 0), (4, 0)), question(0, 1, THEN_SAME)),
    "62 boats and two unread lines, search size 2,048": (unread(62), question(0, 3, P)),
    "63 boats and two unread lines, search size 2,080": (unread(63), question(0, 3, P)),
    "2-1 kept, same": (C, question(0, 2, THEN_SAME)),
    "2-1 kept, other": (C, question(0, 2, THEN_OTHER)),
    "2-1 kept, sister": (C, question(0, 2, THEN_SISTER)),
    "2-1 kept, foreign": (C, question(0, 2, THEN_FOREIGN)),
    "1-1 kept, foreign": (D, question(0, 2, THEN_FOREIGN)),
    "unread line, sister": (A, question(0, 2, THEN_SISTER)),
    "unread line, foreign": (A, question(0, 2, THEN_FOREIGN)),
    "unread kept, sister": (B, question(0, 1, THEN_SISTER)),
    "unread kept, foreign": (B, question(0, 1, THEN_FOREIGN)),
    "28 with no keep": (C, question(0, 2, [0x28, 1, 0])),
    "2B": (C, question(0, 2, [0x27, 1, 0, 0x2B, 2, 0])),
    "two to five laps": (F, question(0, 0, rounds(2, 5, LAP))),
    "two to five lines, to 5": (G, question(0, 5, rounds(2, 5, LAP))),
    "two to five lines, to 6": (G, question(0, 6, rounds(2, 5, LAP))),
    "lowest above highest": (F, question(0, 0, rounds(1, 0, LAP))),
    "highest 21": (F, question(0, 0, rounds(0, 21, LAP))),
    "unfolded count 63, search size 2,048": (record(32, (0, 3, 1, 7, 31)), question(0, 31, rounds(1, 2, [0x26] * 30 + LAP))),
    "unfolded count 64": (F, question(0, 0, rounds(0, 3, [0x26] * 20 + LAP))),
    "twenty of twenty ..": (F, question(0, 0, twenties(62, LAP))),
    "twenty of twenty .. and bytes after it": (F, question(0, 0, twenties(62, LAP) + [0] * 5000)),
    "no rounds of twenty of twenty ..": (F, question(0, 0, rounds(0, 0, twenties(61, LAP)))),
    "62 rounds in each other, 188 bytes": (F, question(0, 0, [0x2A, 1, 1] * 62 + LAP)),
    "rounds only": (F, question(0, 0, [0x2A, 1, 1] * 2000)),
    "31 laps and home": (LAPS, question(0, 1, TIMES + [0x21, 4])),
    "4,096 lines": (LONG + [0], question(0, 1, [0x21, 1])),
    "4,096 lines and no end": (LONG, question(0, 1, [0x21, 1])),
    "4,096 lines and a byte after the end": (LONG + [0, 0], question(0, 1, [0x21, 1])),
    "4,097 lines": (LONG + line(0, 1, 1, 1, 1) + [0], question(0, 1, [0x21, 1])),
    "4,096 lines and 02": (LONG + [2], question(0, 1, [0x21, 1])),
    "4,096 lines and 03": (LONG + [3], question(0, 1, [0x21, 1])),
    "4,096 lines and 04": (LONG + [4], question(0, 1, [0x21, 1])),
    "4,096 lines with times, 57,348 bytes": (LONGEST + [0], question(0, 1, [0x21, 1])),
    "4,096 lines with times and no end": (LONGEST, question(0, 1, [0x21, 1])),
    "4,096 lines with times and 03": (LONGEST + [3], question(0, 1, [0x21, 1])),
    "57,349 bytes": (LONGEST + [0, 0], question(0, 1, [0x21, 1])),
    "60,000 bytes": (LONGEST + [0] * 2653, question(0, 1, [0x21, 1])),
    "70,000 bytes": (LONGEST + [0] * 12653, question(0, 1, [0x21, 1])),
    "R with times": (record(4, *[(*fields, 100 * i) for i, fields in enumerate(R_LINES)]), question(0, 3, P)),
    "R with times and without": (record(4, *[(*fields, [None, 86399][i % 2]) for i, fields in enumerate(R_LINES)]), question(0, 3, P)),
    "a line at 86,400": (record(2, (0, 1, 1, 1, 1, 86400)), question(0, 1, [0x21, 1])),
    "a line at 86,400, kind 0": (record(2, (0, 0, 1, 1, 1, 86400)), question(0, 1, [0x21, 1])),
    "a line at 5 without its last byte": (record(2, (0, 1, 1, 1, 1, 5))[:-2], question(0, 1, [0x21, 1])),
    "04 where a line could stand": ([1, 0, 2, 4] + line(0, 1, 1, 1, 1)[1:] + [0], question(0, 1, [0x21, 1])),
    "62 commands, 126 bytes": (E, question(0, 0, [0x27, 1, 0] + [0x24, 0x22, 1, 0] * 30 + [0x22, 1, 0])),
    "309 bytes, complete after 12": (E, question(0, 0, [0x27, 1, 0] * 3 + [0x22, 1, 0] * 100)),
    "bytes after the end": (E, question(0, 0, [0x20] * 190)),
    "300 bytes after the end": (E, question(0, 0, [0x21, 1] + [0x20] * 300)),
    "repeats only": (E, question(0, 0, [0x26] * 400)),
    "thens only": (E, question(0, 0, [0x25, 0x21, 1] * 200)),
}


def put(folder, day, ask):
    """The files of a data set in a folder."""
    os.makedirs(folder, exist_ok=True)
    for name, data in (("day.rec", day), ("ask.pat", ask)):
        if data is not None:
            with open(folder + "/" + name, "wb") as out: out.write(bytes(data))


def write(folder):
    for kept in ("crates/chains/data", "examples/day"): put("%s/%s" % (folder, kept), *DAY)
    with open(folder + "/crates/chains/stdout", "w") as out: out.write(said(*DAY) + "\n")
    for name, files in KEPT.items(): put("%s/tests/data/%s" % (folder, name), *files)


def run():
    failed = 0
    for name, (day, ask) in {**KEPT, **OTHERS}.items():
        with tempfile.TemporaryDirectory() as folder:
            put(folder, day, ask)
            wrote = subprocess.run(["./chains", folder], capture_output=True, text=True).stdout
        if wrote != said(day, ask) + "\n":
            failed += 1
            print("%s: %r, and not %r" % (name, wrote, said(day, ask)))
    print("%d passed, %d failed" % (len(KEPT) + len(OTHERS) - failed, failed))
    sys.exit(failed > 0)


if __name__ == "__main__":
    if sys.argv[1] == "write": write(sys.argv[2])
    else: run()
