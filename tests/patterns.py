#!/usr/bin/env python3
"""Rows about patterns and what they make crates/rows write, from the text of document 01 (table, questions 8 to 14, "keeps") and of
requests Two and Three alone.

A pattern is read with a list of patterns still due, each with the slots kept and the keeps around it, and how often it may come: no
recursion, no tree. The unfolded count is the sum of how often each command may come.
Run from the repository's root: python3 tests/patterns.py FOLDER writes FOLDER/patterns.bin and prints a part of crates/rows/stdout."""
from table import Table, byte

TABLE = {0x20: (0, 0), 0x21: (1, 0), 0x22: (2, 0), 0x23: (2, 0), 0x24: (0, 2), 0x25: (0, 2), 0x26: (0, 1), 0x27: (2, 1),
         0x28: (2, 0), 0x29: (2, 0), 0x2A: (2, 1)}
TESTS = (0x22, 0x23, 0x28, 0x29)

def read(data, given=()):
    due, at, commands, unfolded, deepest = [(frozenset(given), 0, 1)], 0, 0, 0, 0
    while due:
        kept, around, times = due.pop()
        if at >= len(data) or data[at] not in TABLE: return "refused 8 0"
        code = data[at]
        commands += 1
        if commands > 63: return "refused 9 0"
        width, after = TABLE[code]
        operands = data[at + 1:at + 1 + width]
        if len(operands) < width: return "refused 10 0"
        if code != 0x2A and width > 0 and operands[0] not in range(1, 16): return "refused 11 0"
        if code != 0x2A and width > 1 and operands[1] not in range(4): return "refused 11 0"
        if code == 0x2A and (operands[0] > operands[1] or operands[1] > 20): return "refused 24 0"
        if code in TESTS and operands[1] not in kept: return "refused 12 0"
        if code == 0x27:
            kept, around = kept | {operands[1]}, around + 1
            if around > 3: return "refused 13 0"
            deepest = max(deepest, around)
        unfolded += times
        if code == 0x2A: times *= operands[1]
        due += [(kept, around, times)] * after
        at += 1 + width
    if at < len(data): return "refused 14 0"
    return "refused 25 0" if unfolded > 63 else "pattern %d %d %d" % (commands, unfolded, deepest)

table = Table("patterns")
def heading(text): table.row(text + "\n", byte(0), text + "\n")
def hexes(data): return "".join("%02x " % b for b in data)
def reply(text, data): table.row(text + read(data) + "\n", byte(1), text, data)
def asked(*texts):
    for t in texts: data = bytes.fromhex(t); reply(hexes(data), data)
def repeats(n, rest): data = bytes.fromhex(rest); reply("%d times 26 " % n + hexes(data), b"\x26" * n + data)
def thens(first, thens, nothings): asked(first + "25" * thens + "20" * nothings)
def nests(before, n, rest):
    first, data = bytes.fromhex(before), bytes.fromhex(rest)
    reply(hexes(first) + "%d times 2a 14 14 " % n + hexes(data), first + b"\x2a\x14\x14" * n + data)
def given(text, *slots):
    data, kept = bytes.fromhex(text), [int(i in slots) for i in range(4)]
    before = hexes(kept) + "gives " + hexes(data)
    table.row(before + read(data, slots) + "\n", byte(2), before, data, *map(byte, kept))
def number(text, data): table.row(text + read(data).replace("pattern", "refused 0").split()[1], byte(3), text, data)

P, S = "270100 25 220200 25 26 220300 220400", "270100 25 270100 230100 220100"
heading("document 01")
asked(P, S, "", "21", "2100", "220100", "2020", "20", "2103", "2620")
heading("single bytes")
for code in range(256): number(" " if code % 16 else "\n" if code else "", bytes([code]))
heading("\nnumber of commands")
for n in 61, 62, 63, 64: repeats(n, "20")
repeats(62, ""); repeats(63, ""); repeats(63, "ff"); repeats(63, "28"); repeats(63, "2a"); repeats(63, "21"); repeats(62, "21")
repeats(62, "2101"); repeats(62, "2100"); repeats(62, "2020"); repeats(62, "20ff")
thens("", 30, 31); thens("26", 30, 31); thens("", 31, 32); thens("26", 31, 32); thens("", 32, 33)
heading("order of questions")
asked("242100ff", "2422010021", "242101", "2421011f", "2200", "220005", "220105", "220000", "20ff", "2000", "24202020", "242020")
heading("operands cut")
whole = bytes.fromhex(P)
asked(*[whole[:n].hex() for n in range(len(whole) + 1)])
heading("kinds and slots")
for k in 0, 1, 15, 16, 255: asked("21%02x" % k, "27%02x0020" % k)
for s in 0, 1, 2, 3, 4, 255: asked("2301%02x" % s, "2701%02x 2201%02x" % (s, s))
heading("keeps around")
asked("25 270100 20 220100", "270100 25 270101 20 220101", "270100 25 270101 20 220100", "270100 25 270100 20 220100",
      "270102 26 24 20 230102", "270102 26 24 20 230103", "24 270100 220100 220100", "24 220100 270100 220100")
heading("keeps deep")
asked("270100 20", "270100 270101 20", "270100 270101 270102 20", "270100 270101 270102 270103 20", "270100 270100 270100 20",
      "270100 270100 270100 270100 20", "270100 270101 270102 270107 20", "270100 270101 270102 2701",
      "25 270100 20 270101 270102 20", "25 270101 270102 20 270100 20",
      "25 270100 270101 270102 20 270100 270101 270102 20",
      "270100 26 270101 24 20 270102 26 20", "270100 26 270101 24 20 270102 26 270103 20")
heading("another boat of the class, another class")
for test in "28", "29":
    asked(test, test + "01", test + "0100", test + "00", test + "0005", test + "0104", test + "1000", "27010020" + test)
    asked("270100 " + test, "270100 %s01" % test, "270100 %s0100" % test, "270100 %s0f00" % test, "270100 %s0000" % test, "270100 %s1000" % test,
          "270100 %s0104" % test, "270100 %s0101" % test, "270100 %s010020" % test, "270100 25 %s0100" % test)
    asked("25 270100 20 %s0100" % test, "270100 25 270101 20 %s0101" % test, "270100 25 270101 20 %s0100" % test, "270102 26 24 20 %s0102" % test)
    reply("keep, 61 times 26 %s 01 00 " % test, bytes.fromhex("270100" + "26" * 61 + test + "0100"))
    reply("keep, 62 times 26 %s 01 00 " % test, bytes.fromhex("270100" + "26" * 62 + test + "0100"))
for code in range(0x2B, 0x30): asked("270100 %02x0100" % code, "25 20 %02x" % code, "20 %02x" % code)
heading("so many rounds: 24")
asked("2a", "2a01", "2aff", "2a0100", "2a0000", "2a0015", "2a0100 20", "2a0100 ff", "2a0015 20", "2a0015 21", "2a1414 20", "2a1415 20",
      "2a1515 20", "2a1413 20", "2aff00 20", "2a00ff 20", "2affff 20", "2a0205 2103", "2a0000 2103", "2a0103 20", "2a1010 2103")
asked("2a0205 2100", "2a0205 21", "2a0205 ff", "2a0205 2103 20", "2a0000 2100", "2a0000 220100", "25 2a0100 20 2100", "25 2100 2a0100 20",
      "2a0101 2a0100 20", "25 2a0205 2103 2a0303 2103")
repeats(62, "2a"); repeats(63, "2a"); repeats(62, "2a0100"); repeats(63, "2a0100"); repeats(62, "2a0000"); repeats(62, "2a0000 20"); repeats(61, "2a0000 20")
heading("rounds and keeps")
asked("2a0002 220100", "270100 2a0002 220100", "270101 2a0002 220100", "25 2a0101 270100 20 220100", "270100 25 2a0101 270101 20 220101",
      "2a0205 270100 220100", "270100 270101 270102 2a0001 20", "270100 270101 270102 2a0000 270100 20", "2a0000 270100 270101 270102 20",
      "2a0000 270100 270101 270102 270103 20", "270100 2a0101 270101 2a0101 270102 20")
heading("unfolded counts: 25")
asked("2a0205 " + P, "2a0000 " + S, "25 2a0103 " + S + P, "2a0202 2a0303 2101", "24 2a0002 2101 2a0303 20", "2a0014 24 20 20",
      "26 2a0014 24 20 20", "26 26 2a0014 24 20 20", "26 26 26 2a0014 24 20 20", "26 26 26 2a0014 24 20 20 20", "26 26 2a0014 24 20 20 20",
      "2a0003 2a0013 20", "2a0004 2a000f 20", "2a1414 2a1414 20")
repeats(60, "2a0002 20"); repeats(60, "2a0003 20"); repeats(61, "2a0001 20"); repeats(61, "2a0002 20")
for n in 1, 2, 3, 7, 8, 15, 16, 30, 40, 62, 63: nests("", n, "20")
for n in 40, 62: nests("", n, "2020"); nests("", n, "")
for n in 1, 2, 40, 61, 62: nests("2a0000", n, "20")
nests("2a0000", 40, "2020"); nests("2a1414 2a0000", 40, "20"); nests("2a0000", 40, "2100")
reply("62 times 2a 01 01 20 ", b"\x2a\1\1" * 62 + b"\x20"); reply("62 times 2a 00 01 20 ", b"\x2a\0\1" * 62 + b"\x20")
heading("slots given")
given("2a0205 220103", 3); given("2a0205 220103", 0, 1, 2); given("25 2a0205 270103 20 230103", 3)
given("280103", 3); given("290103", 0, 1, 2); given("25 280103 290103", 3)
given("220103", 3); given("220103", 0, 1, 2); given("220102", 3); given("220104", 0, 1, 2, 3)
given("25 270103 20 230103", 3); given("25 220103 25 220203 25 26 220303 220403", 3); given("270100 270101 270102 220103", 3)
table.write()
