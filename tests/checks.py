#!/usr/bin/env python3
"""Rows about the checker and what they make crates/rows write, from the text of document 01 and requests One to Three and Seven alone: questions 1
to 18, 22, 24, 25 and 28, and membership clause by clause.

Run from the repository's root: python3 tests/checks.py FOLDER writes FOLDER/checks.bin and prints a part of crates/rows/stdout."""
from chains01 import (A, B, C, D, E, F, LAP, P, R, R_TIMED, S, T, THEN_ANY, THEN_FOREIGN, THEN_OTHER, THEN_SAME, THEN_SISTER, Refused, accepts, asked,
                      boats_like, record, rounds, twenties)
from table import Table, long, short

table = Table("checks")


def check(day, pattern, a, b, chain, words):
    """The reply, and whether the work area has been cleared."""
    try:
        lines, p = asked(day, pattern, a, b, words)
    except Refused as refused:
        return "refused %d" % refused.args[0], False
    if any(i >= len(lines) for i in chain): return "refused 18", True
    ends = [a] + [lines[i][3] for i in chain]
    leads = all(lines[i][0] == end for i, end in zip(chain, ends)) and ends[-1] == b
    return "yes" if leads and accepts(p, tuple((lines[i][1], lines[i][2]) for i in chain), {}) else "no", True


def row(name, day, pattern, a, b, chain, words=16384):
    reply, cleared = check(day, pattern, a, b, chain, words)
    kept = 16384 - words if cleared else 16384
    table.row("%s: %s, %d kept, %d zero\n" % (name, reply, kept, 16384 - kept), name, day, pattern, short(a), short(b),
              b"".join(map(short, chain)), long(words))


row("R, P, 0 2 5", R, P, 0, 3, [0, 2, 5])
row("T, S, 0 1 0 0", T, S, 0, 0, [0, 1, 0, 0])
row("T, S, 0 1 0 1", T, S, 0, 0, [0, 1, 0, 1])
row("R, P, 1 2 5", R, P, 0, 3, [1, 2, 5])
row("R, P, 0 3 4 4 6: another boat", R, P, 0, 3, [0, 3, 4, 4, 6])
row("R, P, unfinished", R, P, 0, 3, [1, 2])
row("R, P, 1 2 5 to the mark", R, P, 0, 2, [1, 2, 5])
row("R, P, 1 2 5 from the start", R, P, 1, 3, [1, 2, 5])
row("R, P, no join", R, P, 0, 3, [1, 5])
row("T, S, empty", T, S, 0, 0, [])
row("line 7", R, P, 0, 3, [1, 2, 7])
row("line 65,535 after a bad join", R, P, 0, 3, [5, 5, 65535])
row("from out", R, P, 4, 3, [1, 2, 5])
row("to out", R, P, 0, 4, [1, 2, 5])
row("places before line 7", R, P, 0, 4, [7])
row("one word short", R, P, 0, 3, [1, 2, 7], 8703)
row("words to the one", R, P, 0, 3, [1, 2, 5], 8704)
row("no words", R, P, 0, 3, [1, 2, 5], 0)
row("E, nothing, empty", E, [0x20], 0, 0, [])
row("two places, nothing, empty", [1, 0, 2, 0], [0x20], 0, 1, [])
row("two places, repeat of nothing, empty", [1, 0, 2, 0], [0x26, 0x20], 1, 1, [])
row("bad record and bad pattern", [1, 0, 1], [255], 9, 9, [9], 0)
row("bad pattern", E, [0x22, 1, 0], 9, 9, [9], 0)
row("1,024 places, three keeps, no boats", [1, 4, 0, 0], [0x27, 1, 0, 0x27, 1, 1, 0x27, 1, 2, 0x20], 1023, 0, [9], 0)

# ---- request One: an unread number, on the line or in the slot, passes neither same nor other; keep, line and the size take it
for word, pattern in (("any", THEN_ANY), ("same", THEN_SAME), ("other", THEN_OTHER)):
    for second, boat in ((1, "unread"), (2, "1-1"), (3, "1-2")): row("1-1 kept, %s: %s" % (word, boat), A, pattern, 0, 2, [0, second])
    for second, boat in ((1, "unread"), (2, "1-1")): row("unread kept, %s: %s" % (word, boat), B, pattern, 0, 1, [0, second])
for name, kept, other in (("0-5", (0, 5), (0, 6)), ("3-0", (3, 0), (4, 0))):
    day = boats_like(kept, other)
    for word, pattern in (("same", THEN_SAME), ("other", THEN_OTHER)):
        for second, boat in ((1, "unread"), (2, "%d-%d" % other), (3, name)): row("%s kept, %s: %s" % (name, word, boat), day, pattern, 0, 1, [0, second])
row("line: unread", B, [0x21, 1], 0, 1, [0])
row("keep: unread", B, [0x27, 1, 0, 0x20], 0, 1, [0])
NESTED = record(4, (0, 1, 1, 1, 1), (1, 2, 0, 0, 2), (2, 3, 1, 1, 3), (2, 3, 1, 2, 3))
for word, test in (("same", 0x22), ("other", 0x23)):
    for last, boat in ((2, "1-1"), (3, "1-2")):
        row("unread in the slot of 1-1, %s: %s" % (word, boat), NESTED, [0x27, 1, 0, 0x27, 2, 0, test, 3, 0], 0, 3, [0, 1, last])
        row("unread in another slot, %s: %s" % (word, boat), NESTED, [0x27, 1, 0, 0x27, 2, 1, test, 3, 0], 0, 3, [0, 1, last])
        row("1-1 back after unread, %s: %s" % (word, boat), NESTED, [0x27, 1, 0, 0x25, 0x27, 2, 0, 0x20, test, 3, 0], 0, 3, [0, 1, last])
# The size is 3 × boats + 3, which wants 12 words each: two boats, an unread number, and one more, which is the same boat.
KEEP, TWO = [0x27, 1, 0, 0x20], [(0, 1, 1, 1, 0), (0, 1, 1, 2, 0)]
for unread, needed in ((0, 8228), (1, 8240), (2, 8240)):
    for words in (needed - 1, needed): row("two boats, %d unread, %d words" % (unread, words), record(1, *TWO, *[(0, 1, 0, 0, 0)] * unread), KEEP, 0, 0, [0], words)

# ---- request Two: same takes the same boat; other any that is not; sister the same class only, foreign another class; none an unread number
SISTERS = (("sister", THEN_SISTER), ("foreign", THEN_FOREIGN))
for word, pattern in (("same", THEN_SAME), ("other", THEN_OTHER)) + SISTERS:
    for second, boat in enumerate(("1-7", "1-8", "2-1", "2-9", "3-1"), 1): row("2-1 kept, %s: %s" % (word, boat), C, pattern, 0, 2, [0, second])
for word, pattern in SISTERS:
    for second, boat in enumerate(("1-7", "1-8", "2-1"), 1): row("1-1 kept, %s: %s" % (word, boat), D, pattern, 0, 2, [0, second])
    for second, boat in ((1, "unread"), (2, "1-1"), (3, "1-2")): row("1-1 kept, %s: %s" % (word, boat), A, pattern, 0, 2, [0, second])
    for second, boat in ((1, "unread"), (2, "1-1")): row("unread kept, %s: %s" % (word, boat), B, pattern, 0, 1, [0, second])
    for kept, other in (((0, 5), (0, 6)), ((0, 5), (3, 5)), ((3, 0), (3, 1)), ((3, 0), (4, 0)), ((255, 16777215), (127, 16777215)), ((1, 8388609), (1, 1))):
        day, name = boats_like(kept, other), "%d-%d" % kept
        for second, boat in ((1, "unread"), (2, "%d-%d" % other), (3, name)): row("%s kept, %s: %s" % (name, word, boat), day, pattern, 0, 1, [0, second])
    for other in ((0, 5), (3, 0)): row("unread kept, %s: %d-%d" % (word, *other), boats_like((0, 0), other), pattern, 0, 1, [0, 2])
    row("%s, another kind" % word, record(1, (0, 1, 1, 1, 0), (0, 3, 1, 2, 0), (0, 3, 2, 1, 0)), pattern, 0, 0, [0, 1])
# Two boats kept, 1-1 and then 2-1: in another slot, in the same slot, and after the inner keep.
KEPT = record(4, (0, 1, 1, 1, 1), (1, 2, 2, 1, 2), (2, 3, 1, 2, 3), (2, 3, 2, 2, 3))
for word, test in (("sister", 0x28), ("foreign", 0x29)):
    for last, boat in ((2, "1-2"), (3, "2-2")):
        for of in (0, 1): row("1-1 and 2-1 kept, %s of %s: %s" % (word, ("1-1", "2-1")[of], boat), KEPT, [0x27, 1, 0, 0x27, 2, 1, test, 3, of], 0, 3, [0, 1, last])
        row("2-1 in the slot of 1-1, %s: %s" % (word, boat), KEPT, [0x27, 1, 0, 0x27, 2, 0, test, 3, 0], 0, 3, [0, 1, last])
        row("1-1 back after 2-1, %s: %s" % (word, boat), KEPT, [0x27, 1, 0, 0x25, 0x27, 2, 0, 0x20, test, 3, 0], 0, 3, [0, 1, last])
row("pattern 28 01 00, no keep", C, [0x28, 1, 0], 0, 2, [0])
row("pattern 29 01 00, no keep", C, [0x29, 1, 0], 0, 2, [0])
row("pattern 2b", C, [0x27, 1, 0, 0x2B, 2, 0], 0, 2, [0, 1])

# ---- request Three: from the lowest to the highest count of rounds, both ends allowed; a round may be empty, and its boats are its own
MAYBE = [0x24, 0x20] + LAP
for name, pattern in (("two to five laps", rounds(2, 5, LAP)), ("no laps", rounds(0, 0, LAP)), ("three laps", rounds(3, 3, LAP)),
                      ("one to three of nothing", rounds(1, 3, [0x20])), ("two or three, maybe empty", rounds(2, 3, MAYBE)),
                      ("two to five, then three", [0x25] + rounds(2, 5, LAP) + rounds(3, 3, LAP)), ("two of two or three", rounds(2, 2, rounds(2, 3, LAP))),
                      ("repeat of three", [0x26] + rounds(3, 3, LAP)), ("two of repeats", rounds(2, 2, [0x25] + LAP + [0x26] + LAP))):
    for n in range(10): row("%s: %d" % (name, n), F, pattern, 0, 0, [0] * n)
OWN = rounds(2, 2, [0x27, 1, 0, 0x22, 1, 0])
for chain in ([0, 0, 0, 0], [0, 0, 1, 1], [0, 1, 1, 0], [0, 0, 0, 1], [0, 0]): row("its own boat in each round: %s" % " ".join(map(str, chain)), T, OWN, 0, 0, chain)
# A boat entered; in each round that boat, and then any boat kept in the same slot: the next round has the entered one again.
AGAIN = [0x27, 1, 0] + rounds(2, 2, [0x25, 0x22, 2, 0, 0x27, 2, 0, 0x20])
BOATS = record(1, (0, 1, 1, 1, 0), (0, 2, 1, 2, 0), (0, 2, 1, 1, 0))
for chain in ([0, 2, 1, 2, 1], [0, 2, 1, 1, 1], [0, 2, 2, 2, 2]): row("the outer boat in each round: %s" % " ".join(map(str, chain)), BOATS, AGAIN, 0, 0, chain)
AFTER = [0x27, 1, 0, 0x25] + rounds(1, 2, [0x27, 2, 0, 0x20]) + [0x22, 2, 0]
for chain in ([0, 1, 2], [0, 1, 1]): row("the outer boat after the rounds: %s" % " ".join(map(str, chain)), BOATS, AFTER, 0, 0, chain)
row("no rounds of twenty of twenty .., empty", F, rounds(0, 0, twenties(40, LAP)), 0, 0, [])
row("no rounds of twenty of twenty .., a lap", F, rounds(0, 0, twenties(40, LAP)), 0, 0, [0])
row("2a 01 00 and no place", R, rounds(1, 0, LAP), 9, 9, [9], 0)
row("2a 00 15 and no place", R, rounds(0, 21, LAP), 9, 9, [9])
row("25 and no place", R, twenties(40, LAP), 9, 9, [9])
row("25, a byte more", R, twenties(40, LAP) + [0x20], 9, 9, [9])
# The size is 7 for two to five laps of one place, and by keeps as written: 2 × 2 where no round may come.
for words in (8219, 8220): row("two to five laps, %d words" % words, F, rounds(2, 5, LAP), 0, 0, [0, 0], words)
for words in (8207, 8208): row("no rounds of a keep, %d words" % words, F, rounds(0, 0, [0x27, 3, 0, 0x20]), 0, 0, [], words)

# ---- request Seven: a line may have a time; without windows it is inside at any
for chain in ([1, 2, 5], [0, 2, 5], [0, 3, 4, 4, 6]): row("R timed, P, %s" % " ".join(map(str, chain)), R_TIMED, P, 0, 3, chain)
row("R timed, line 7", R_TIMED, P, 0, 3, [7])
row("R timed, one word short", R_TIMED, P, 0, 3, [1, 2, 5], 8703)
MIXED = record(2, (0, 1, 1, 1, 1, 86399), (1, 2, 1, 1, 0), (0, 2, 1, 1, 1, 0))
for chain in ([0, 1, 2], [0, 1], [2, 1], [1]): row("timed and not: %s" % " ".join(map(str, chain)), MIXED, [0x26, 0x24, 0x21, 1, 0x21, 2], 0, 1, chain)
row("time 86,400", record(2, (0, 1, 1, 1, 1, 86400)), [0x21, 1], 0, 1, [0])
row("time 86,400, kind 0", record(2, (0, 0, 1, 1, 1, 86400)), [0x21, 1], 0, 1, [0])
row("time 86,400, from out", record(2, (2, 1, 1, 1, 1, 86400)), [0x21, 1], 0, 1, [0])
row("time 86,400 and no pattern", record(2, (0, 1, 1, 1, 1, 86400)), [], 9, 9, [9], 0)
row("13 bytes of a timed line", MIXED[:16], [0x21, 1], 0, 1, [0])
row("a time and no end", MIXED[:17], [0x21, 1], 0, 1, [0])
row("byte 04", [1, 0, 1, 4], [0x20], 0, 0, [])
table.write()
