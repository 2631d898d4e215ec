#!/usr/bin/env python3
"""Rows about the finder and what they make crates/rows write, from the text of document 01 and requests One to Three and Seven alone: 01's table, the
misreadings that they shut out, and requests at the edge of each question.

Run from the repository's root: python3 tests/finds.py FOLDER writes FOLDER/finds.bin and prints a part of crates/rows/stdout."""
from itertools import permutations
from chains01 import (A, B, C, D, E, F, G, LAP, P, R, R_LINES, R_TIMED, S, T, THEN_ANY, THEN_FOREIGN, THEN_OTHER, THEN_SAME, THEN_SISTER, boats_like, find,
                      line, record, rounds, twenties)
from table import Table, long, short

table = Table("finds")


def row(name, day, pattern, a=0, b=0, words=16384, room=2048):
    word, n, chain = find(day, pattern, a, b, words, room)
    cleared = word != "refused" or n == 19
    said = {"found": "found %d:" % n + "".join(" %d" % i for i in chain), "none": "none",
            "refused": "refused %d" % n + (" with %d" % len(chain) if chain else "")}[word]
    kept = 16384 - words if cleared else 16384
    free = 2048 - len(chain) if word == "found" else 2048
    table.row("%s: %s, %d kept, %d zero, %d free\n" % (name, said, kept, 16384 - kept, free), name, day, pattern, short(a), short(b),
              long(words), long(room))


def boats(count): return record(1024, *[(0, 1, 1, i, 0) for i in range(count)])


FIFTEEN = [0x27, 1, 0] + [0x26] * 13 + [0x20]

# ---- document 01's table
row("R, P", R, P, 0, 3)
row("R with line 7, P", record(4, *(R_LINES + [(2, 4, 1, 150, 3)])), P, 0, 3)
row("R without line 5, P", record(4, *(R_LINES[:5] + R_LINES[6:])), P, 0, 3)
row("T, S", T, S)
row("E, nothing", E, [0x20])
row("E, a line", E, [0x21, 3])
row("R, repeat of nothing", R, [0x26, 0x20], 0, 1)
row("R, P, output of 2", R, P, 0, 3, room=2)
row("no places", [1, 0, 0, 0], [0x20])
row("1,025 places", [1, 4, 1, 0], [0x20])
row("1,024 places", [1, 4, 0, 0], [0x20], 1023, 1023)
row("no entry", [1, 0, 1], [0x20])
row("pattern empty", E, [])
row("pattern 21", E, [0x21])
row("pattern 21 00", E, [0x21, 0])
row("pattern 22 01 00", E, [0x22, 1, 0])
row("pattern 20 20", E, [0x20, 0x20])
row("62 repeats", E, [0x26] * 62 + [0x20])
row("63 repeats", E, [0x26] * 63 + [0x20])
row("63 boats, size 1,048,576", boats(63), FIFTEEN)
row("64 boats, size 1,064,960", boats(64), FIFTEEN)

# ---- misreadings
row("a mark three times", record(2, (0, 1, 1, 1, 0), (0, 2, 1, 1, 1)), [0x25, 0x21, 1, 0x25, 0x21, 1, 0x25, 0x21, 1, 0x21, 2], 0, 1)
row("two laps of three places", record(3, (0, 1, 1, 1, 1), (1, 2, 1, 1, 2), (2, 3, 1, 1, 0)),
    [0x25, 0x21, 1, 0x25, 0x21, 2, 0x25, 0x21, 3, 0x25, 0x21, 1, 0x25, 0x21, 2, 0x21, 3])
row("shorter before lower", record(2, (0, 1, 1, 1, 0), (0, 1, 1, 1, 1), (0, 2, 1, 1, 1)), [0x25, 0x26, 0x21, 1, 0x21, 2], 0, 1)
row("lower line of the second half", record(2, (0, 2, 1, 1, 1), (0, 1, 1, 1, 1)), [0x24, 0x21, 1, 0x21, 2], 0, 1)
row("lower first line, higher second", record(4, (0, 1, 1, 1, 1), (0, 1, 1, 1, 2), (2, 1, 1, 1, 3), (1, 1, 1, 1, 3)),
    [0x25, 0x21, 1, 0x21, 1], 0, 3)
row("equal lines", record(2, (0, 1, 1, 1, 1), (0, 1, 1, 1, 1)), [0x21, 1], 0, 1)
row("another class", record(1, (0, 1, 1, 150, 0), (0, 2, 2, 150, 0)), [0x27, 1, 0, 0x22, 2, 0])
row("another class is another boat", record(1, (0, 1, 1, 150, 0), (0, 2, 2, 150, 0)), [0x27, 1, 0, 0x23, 2, 0])
row("an unread number twice", record(1, (0, 1, 0, 0, 0), (0, 2, 0, 0, 0)), THEN_SAME)
row("a keep ends", record(1, (0, 1, 1, 1, 0), (0, 1, 1, 2, 0), (0, 2, 1, 1, 0)),
    [0x27, 1, 0, 0x25, 0x27, 1, 0, 0x20, 0x25, 0x23, 1, 0, 0x22, 2, 0])
row("repeat of a keep", record(1, (0, 1, 1, 1, 0), (0, 2, 1, 2, 0), (0, 1, 1, 2, 0), (0, 3, 1, 1, 0)),
    [0x25, 0x27, 1, 0, 0x22, 2, 0, 0x25, 0x26, 0x27, 1, 0, 0x22, 2, 0, 0x21, 3])
row("nothing under two repeats", record(2, (0, 1, 1, 1, 1)), [0x26, 0x26, 0x24, 0x20, 0x21, 1], 0, 1)

# ---- request One: an unread number, on the line or in the slot, passes neither same nor other; keep, line and the size take it
for word, pattern in (("any", THEN_ANY), ("same", THEN_SAME), ("other", THEN_OTHER)):
    row("1-1 kept, %s" % word, A, pattern, 0, 2)
    row("unread kept, %s" % word, B, pattern, 0, 1)
    for name, kept, other in (("0-5", (0, 5), (0, 6)), ("3-0", (3, 0), (4, 0))): row("%s kept, %s" % (name, word), boats_like(kept, other), pattern, 0, 1)
row("line: unread", B, [0x21, 1], 0, 1)
row("keep: unread", B, [0x27, 1, 0, 0x20], 0, 1)
# Lines between the same two places: other needs the one that is neither unread nor the kept boat's, wherever it stands. Last in its keep,
# and before a line that is inside too; a boat named first in the record, and an unread number.
for order in permutations(((0, 0), (1, 1), (1, 2))):
    for kept in ((1, 1), (1, 2)):
        name = "%d-%d kept, other of %s" % (*kept, ", ".join("%d-%d" % boat for boat in order))
        lines = [(0, 1, *kept, 1), *[(1, 2, *boat, 2) for boat in order]]
        row(name, record(3, *lines), THEN_OTHER, 0, 2)
        row("unread, " + name + ", and a line", record(4, (3, 4, 0, 0, 3), *lines, (2, 3, 0, 0, 3)), [0x27, 1, 0, 0x25, 0x23, 2, 0, 0x21, 3], 0, 3)
row("1-1 kept, other of unread ones", record(3, (0, 1, 1, 1, 1), (1, 2, 0, 0, 2), (1, 2, 0, 0, 2), (1, 2, 1, 1, 2)), THEN_OTHER, 0, 2)
# A boat kept, any number of others, and it again: past unread lines on the way there is no chain.
AROUND = [0x27, 1, 0, 0x25, 0x26, 0x23, 2, 0, 0x22, 3, 0]
row("others on the way, one unread", record(4, (0, 1, 1, 1, 1), (1, 2, 0, 0, 2), (2, 2, 1, 2, 3), (3, 3, 1, 1, 3)), AROUND, 0, 3)
row("others on the way, all read", record(4, (0, 1, 1, 1, 1), (1, 2, 0, 1, 2), (2, 2, 1, 2, 3), (3, 3, 1, 1, 3)), AROUND, 0, 3)
# The size is 3 × boats + 3, which wants 12 words each: two boats, an unread number, and one more, which is the same boat.
TWO = [(0, 1, 1, 1, 0), (0, 1, 1, 2, 0)]
for unread, needed in ((0, 8228), (1, 8240), (2, 8240)):
    for words in (needed - 1, needed): row("two boats, %d unread, %d words" % (unread, words), record(1, *TWO, *[(0, 1, 0, 0, 0)] * unread), [0x27, 1, 0, 0x20], words=words)

# ---- request Two: sister takes the same class only, foreign another class; none an unread number
SISTERS = (("sister", THEN_SISTER), ("foreign", THEN_FOREIGN))
for word, pattern in (("same", THEN_SAME), ("other", THEN_OTHER)) + SISTERS: row("2-1 kept, %s" % word, C, pattern, 0, 2)
for word, pattern in SISTERS:
    row("1-1 kept among 1-7, 1-8, 2-1, %s" % word, D, pattern, 0, 2)
    row("1-1 kept, %s" % word, A, pattern, 0, 2)
    row("unread kept, %s" % word, B, pattern, 0, 1)
    row("unread kept, class 0, %s" % word, boats_like((0, 0), (0, 5)), pattern, 0, 1)
    for kept, other in (((0, 5), (0, 6)), ((0, 5), (3, 5)), ((3, 0), (3, 1)), ((3, 0), (4, 0))):
        row("%d-%d kept, %s of %d-%d" % (*kept, word, *other), boats_like(kept, other), pattern, 0, 1)
# Lines between the same two places, boats of two classes in every order, and the one that is wanted after two others or three: sister and
# foreign take the first that compares so.
LATE = [((2, 1), (3, 1), (1, 2)), ((2, 1), (2, 2), (1, 1), (1, 2)), ((1, 2), (1, 3), (2, 1)), ((1, 1), (0, 0), (1, 2), (1, 3), (2, 1))]
for order in [*permutations(((1, 1), (1, 2), (2, 1))), *LATE]:
    for word, pattern in SISTERS:
        row("1-1, %s of %s" % (word, ", ".join("%d-%d" % boat for boat in order)),
            record(3, (0, 1, 1, 1, 1), *[(1, 2, *boat, 2) for boat in order]), pattern, 0, 2)
# A boat kept, any number of its sisters, or of boats of other classes, and it again.
for word, test, boat in (("sisters", 0x28, (3, 2)), ("foreigners", 0x29, (1, 2))):
    around = [0x27, 1, 0, 0x25, 0x26, test, 2, 0, 0x22, 3, 0]
    row("%s on the way" % word, record(4, (0, 1, 1, 1, 1), (1, 2, 1, 2, 2), (1, 2, 2, 1, 2), (2, 2, 3, 1, 3), (2, 2, 1, 9, 3), (3, 3, 1, 1, 3)), around, 0, 3)
    row("no %s on the way" % word, record(3, (0, 1, 1, 1, 1), (1, 2, *boat, 2), (1, 2, 0, 0, 2), (2, 3, 1, 1, 2)), around, 0, 2)
    row("%s, before a line" % word, record(4, (3, 4, 0, 0, 3), (0, 1, 1, 1, 1), (1, 2, 2, 1, 2), (1, 2, 1, 1, 2), (1, 2, 1, 2, 2), (2, 3, 0, 0, 3)),
        [0x27, 1, 0, 0x25, test, 2, 0, 0x21, 3], 0, 3)

# ---- request Three: so many rounds and no more
row("two to five laps", F, rounds(2, 5, LAP))
row("no laps", F, rounds(0, 0, LAP))
row("one to three of nothing", F, rounds(1, 3, [0x20]))
row("two to five, then three", F, [0x25] + rounds(2, 5, LAP) + rounds(3, 3, LAP))
row("two of three", F, rounds(2, 2, rounds(3, 3, LAP)))
row("no rounds of twenty of twenty ..", F, rounds(0, 0, twenties(40, LAP)))
row("62 rounds in each other", F, [0x2A, 1, 1] * 62 + LAP)
# A course of six lines: the place decides how many rounds there are.
for name, pattern, ends in (("two to five lines", rounds(2, 5, LAP), (0, 1, 2, 3, 5, 6)),
                            ("three or four, maybe empty", rounds(3, 4, [0x24, 0x20] + LAP), (0, 1, 4, 5)),
                            ("two of two or three", rounds(2, 2, rounds(2, 3, LAP)), (3, 4, 5, 6)),
                            ("any number of threes", [0x26] + rounds(3, 3, LAP), (0, 2, 3, 4, 6))):
    for to in ends: row("%s, to %d" % (name, to), G, pattern, 0, to)
EITHER = [0x24, 0x21, 2, 0x21, 1]
row("the lower line in every round", record(1, (0, 1, 1, 1, 0), (0, 2, 1, 1, 0)), rounds(3, 4, EITHER))
row("a line, then the lower one of a round", record(1, (0, 1, 1, 1, 0), (0, 2, 1, 1, 0)), [0x25, 0x21, 2] + rounds(1, 2, EITHER))
row("its own boat in each round", T, rounds(2, 2, [0x27, 1, 0, 0x22, 1, 0]))
row("others in each round", T, rounds(2, 2, [0x27, 1, 0, 0x23, 1, 0]))
# A boat entered; in each round another than that boat, and then any boat kept in the same slot.
row("the outer boat in each round", record(4, (0, 1, 1, 1, 1), (1, 2, 1, 2, 2), (2, 2, 1, 2, 1), (2, 2, 1, 1, 1), (1, 3, 1, 1, 3)),
    [0x27, 1, 0, 0x25] + rounds(2, 2, [0x25, 0x23, 2, 0, 0x27, 2, 0, 0x20]) + [0x22, 3, 0], 0, 3)
# Laps of a boat: entered, started, so many roundings, finished, the course having a place for each leg.
SAILED = record(7, (0, 1, 1, 7, 1), (1, 2, 1, 7, 2), *[(n, 3, 1, 7, n + 1) for n in range(2, 5)], (5, 4, 1, 7, 6), (3, 4, 1, 7, 6))
for lowest, highest in ((2, 5), (0, 2), (4, 5), (0, 0)):
    row("%d to %d laps of a boat" % (lowest, highest), SAILED, [0x27, 1, 0, 0x25, 0x22, 2, 0, 0x25] + rounds(lowest, highest, [0x22, 3, 0]) + [0x22, 4, 0], 0, 6)
# The size is 32 × (63 + 1), and one more is refused; of two rounds it is 3 + 1, and of a keep where no round may come 1 + 1 times 2.
MOST = [0x26, 0x26] + rounds(0, 20, [0x24, 0x20] + LAP)
row("unfolded count 63, 32 places", record(32, (0, 3, 1, 1, 31)), MOST, 0, 31)
row("unfolded count 63, 33 places", record(33, (0, 3, 1, 1, 31)), MOST, 0, 31)
row("unfolded count 64", F, [0x26] + MOST)
row("unfolded count 64, a byte more", F, [0x26] + MOST + [0x20])
for words in (8207, 8208): row("two rounds, %d words" % words, F, rounds(2, 2, LAP), words=words)
for words in (8207, 8208): row("no rounds of a keep, %d words" % words, F, rounds(0, 0, [0x27, 3, 0, 0x20]), words=words)
row("2a 01 00 and no place", E, rounds(1, 0, LAP), 9, 9, 0, 0)
row("2a 00 15 and no place", E, rounds(0, 21, LAP), 9, 9)
row("25 and no place", E, twenties(40, LAP), 9, 9, 0)
row("24 after the record", E[:-1], rounds(1, 0, LAP))

# ---- the record's questions
row("4,097 lines", [1, 4, 0] + line(0, 1, 1, 1, 1) * 4097 + [0], [0x20])
row("record empty", [], [0x20])
row("byte 03", [1, 0, 1, 3], [0x20])
row("byte 04", [1, 0, 1, 4], [0x20])
row("operand missing", R[:12], P, 0, 3)
row("no end", R[:-1], P, 0, 3)
row("from out", record(4, (4, 1, 1, 1, 0)), P, 0, 3)
row("to out", record(4, (0, 1, 1, 1, 4)), P, 0, 3)
row("kind 0", record(4, (0, 0, 1, 1, 0)), P, 0, 3)
row("kind 15", record(4, (0, 15, 1, 1, 0)), [0x21, 15])
row("kind 16", record(4, (0, 16, 1, 1, 0)), P, 0, 3)
row("byte after the end", R + [0], P, 0, 3)
row("time 86,399", record(1, (0, 1, 1, 1, 0, 86399)), [0x21, 1])
row("time 86,400", record(1, (0, 1, 1, 1, 0, 86400)), [0x21, 1])
row("time 86,400, kind 0", record(1, (0, 0, 1, 1, 0, 86400)), [0x21, 1])
row("13 bytes of a timed line", record(1, (0, 1, 1, 1, 0, 5))[:16], [0x21, 1])
row("R timed, P", R_TIMED, P, 0, 3)

# ---- the pattern's questions
row("pattern 28", E, [0x28])
row("pattern 28 01 00", E, [0x28, 1, 0])
row("pattern 29 01 00", E, [0x29, 1, 0])
row("pattern 2a", E, [0x2A])
row("pattern 2a 01", E, [0x2A, 1])
row("pattern 2a 01 00", E, [0x2A, 1, 0])
row("pattern 2a 00 00", E, [0x2A, 0, 0])
row("pattern 2a 00 15", E, [0x2A, 0, 21])
row("pattern 2b", E, [0x2B])
row("pattern 2c", E, [0x2C])
row("pattern 2f", E, [0x2F])
row("slot 4", E, [0x27, 1, 4, 0x20])
row("three keeps", E, [0x27, 1, 0, 0x27, 1, 1, 0x27, 1, 2, 0x22, 1, 2])
row("four keeps", E, [0x27, 1, 0, 0x27, 1, 1, 0x27, 1, 2, 0x27, 1, 3, 0x20])
row("record before pattern", R[:-1], [])
row("pattern before places", R, [], 4, 4)

# ---- the request's questions
row("from the count", R, P, 4, 3)
row("to the count", R, P, 0, 4)
row("places before size", boats(64), FIFTEEN, 1024, 0)
row("size before words", boats(64), FIFTEEN, words=0)
row("one word short", R, P, 0, 3, 8703)
row("words to the one", R, P, 0, 3, 8704)
row("no words", R, P, 0, 3, 0)
row("none, words to the one", R, [0x21, 5], 0, 3, 8240)
row("output to the entry", R, P, 0, 3, room=3)
row("no output", R, P, 0, 3, room=0)
row("no output, words to the one", R, P, 0, 3, 8704, 0)
row("no output, no lines", E, [0x20], room=0)
row("no output, no chain", E, [0x21, 1], room=0)
row("no output, one word short", R, P, 0, 3, 8703, 0)
table.write()
