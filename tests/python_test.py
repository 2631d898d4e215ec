#!/usr/bin/env python3
"""python/chains.py over target/libchains.so: the worked rows, refusals and their sentences, and README's program.

    make lib
    python3 tests/python_test.py
"""
import re
import subprocess
import sys
import unittest
from pathlib import Path

HOME = Path(__file__).resolve().parent.parent
sys.path.insert(0, str(HOME / "python"))
import chains  # noqa: E402  (the folder is put on the path first)

LINES = [(0, 1, 1, 150, 1), (0, 1, 2, 150, 1), (1, 2, 2, 150, 2), (1, 2, 1, 150, 2), (2, 3, 1, 150, 2), (2, 4, 2, 150, 3),
         (2, 4, 1, 151, 3)]
P = bytes.fromhex("270100 25 220200 25 26 220300 220400")
S = bytes.fromhex("270100 25 270100 230100 220100")
NOTHING = b"\x20"
FOUND = {"PYTHONPATH": str(HOME / "python")}


def day_of(places, lines):
    day = chains.begin(places)
    for line in lines:
        chains.add(day, *line)
    return day


class Asking(unittest.TestCase):
    def refused(self, number, call, *given, **options):
        with self.assertRaises(chains.Refused) as caught:
            call(*given, **options)
        self.assertEqual((caught.exception.number, caught.exception.value), (number, 0))
        self.assertEqual(str(caught.exception), chains.SENTENCES[number - 1])


class Records(Asking):
    def test_bytes(self):
        self.assertEqual(chains.begin(1024), b"\x01\x04\x00\x00")
        day = day_of(2, [(1, 15, 255, 0x010203, 0)])
        self.assertEqual(day, bytes([1, 0, 2, 2, 0, 1, 15, 255, 1, 2, 3, 0, 0, 0]))
        self.assertEqual(bytes(day_of(4, LINES)), (HOME / "examples/day/day.rec").read_bytes())

    def test_lines(self):
        self.assertEqual(chains.lines(day_of(4, LINES)), LINES)
        self.assertEqual(chains.lines(chains.begin(1)), [])
        self.assertEqual(chains.lines(day_of(4, LINES))[5].sail, 150)

    def test_full(self):
        day = bytearray(b"\x01\x00\x01" + b"\x02\x00\x00\x01\x01\x00\x00\x01\x00\x00" * 4095 + b"\x00")
        chains.add(day, 0, 1, 1, 1, 0)
        self.assertEqual((len(day), len(chains.lines(day))), (40964, 4096))
        before = bytes(day)
        self.refused(22, chains.add, day, 0, 1, 1, 1, 0)
        self.assertEqual(day, before)

    def test_refused(self):
        day = chains.begin(2)
        for number, line in ((5, (2, 1, 1, 1, 0)), (5, (0, 1, 1, 1, 2)), (6, (0, 0, 1, 1, 0)), (21, (0, 1, 1, 1 << 24, 0))):
            self.refused(number, chains.add, day, *line)
        self.assertEqual(day, chains.begin(2))
        self.refused(2, chains.begin, 0)
        for number, damaged in ((1, bytes(57349)), (2, b""), (3, day[:3]), (4, day[:3] + b"\2"), (7, day + b"\0")):
            self.refused(number, chains.lines, damaged)
            self.refused(number, chains.words, damaged, NOTHING)

    def test_boats(self):
        a, b, c, unread = (1, 7), (1, 8), (2, 7), (0, 0)
        for boats, different, reads in (((), 0, 0), ((a,), 1, 0), ((a, a, b, a), 2, 4), ((a, b, c), 3, 3), ((a, b, b, b), 2, 5), ((a, b, a, b), 2, 4),
                                        ((a, a, a, c, c), 2, 9), ((a, c, a, c), 2, 4), ((unread, a, unread, unread), 2, 3), ((a,) * 9, 1, 8)):
            self.assertEqual(chains.boats(day_of(1, [(0, 1, *boat, 0) for boat in boats])), (different, reads))
        counted = chains.boats(day_of(4, LINES))
        self.assertEqual((counted.boats, counted.reads), (3, 13))
        line = b"\x02\x00\x00\x01\x01%b\x00\x00"
        for sails, different, reads in (([7] * 4096, 1, 4095), (range(4096), 4096, 8386560)):
            day = b"\x01\x00\x01" + b"".join(line % sail.to_bytes(3, "big") for sail in sails) + b"\x00"
            self.assertEqual(chains.boats(day), (different, reads))
            self.refused(7, chains.boats, day + b"\x00")
        day = day_of(1, [(0, 1, *a, 0)])
        for number, damaged in ((1, bytes(57349)), (2, b""), (3, day[:3]), (4, day[:5]), (5, day[:5] + b"\1" + day[6:]), (6, day[:6] + b"\0" + day[7:]),
                                (7, day + b"\0")):
            self.refused(number, chains.boats, damaged)


class Times(Asking):
    def test_bytes(self):
        day = day_of(2, [(1, 15, 255, 0x010203, 0, 86399), (0, 1, 1, 1, 1), (0, 1, 1, 1, 1, 0)])
        self.assertEqual(day, bytes.fromhex("010002 03 0001 0f ff 010203 0000 0001517f 02 0000 01 01 000001 0001 03 0000 01 01 000001 0001 00000000 00"))

    def test_lines(self):
        given = [(1, 15, 255, 0x010203, 0, 86399), (0, 1, 1, 1, 1), (0, 1, 1, 1, 1, 0)]
        day = day_of(2, given)
        read = chains.lines(day)
        self.assertEqual(read, given)
        self.assertEqual([line.time for line in read], [86399, None, 0])
        self.assertEqual([type(line) for line in read], [chains.TimedLine, chains.Line, chains.TimedLine])
        self.assertEqual((read[0].sail, read[1].sail, read[0].to), (0x010203, 1, 0))
        self.assertNotEqual(read[1], read[2])
        self.assertEqual(day_of(2, read), day)
        chains.add(day, from_=0, kind=4, class_=1, sail=7, to=1, time=5)
        self.assertEqual(chains.lines(day)[3], chains.TimedLine(0, 4, 1, 7, 1, 5))

    def test_refused(self):
        day = chains.begin(2)
        for number, line in ((5, (2, 0, 1, 1 << 24, 0, 86400)), (6, (0, 0, 1, 1 << 24, 0, 86400)), (28, (0, 1, 1, 1 << 24, 0, 86400)),
                             (28, (0, 1, 1, 1, 0, 2 ** 32 - 1)), (21, (0, 1, 1, 1 << 24, 0, 86399))):
            self.refused(number, chains.add, day, *line)
        self.assertEqual(day, chains.begin(2))
        timed = bytes(day_of(2, [(0, 1, 1, 1, 1, 5)]))
        late = timed[:13] + b"\1" + timed[14:]
        for number, damaged in ((4, timed[:16]), (4, timed[:13]), (3, timed[:17]), (7, timed + b"\0"), (28, late), (28, late + b"\0"),
                                (6, late[:6] + b"\0" + late[7:]), (3, timed[:3] + b"\4" + timed[4:])):
            for call in (chains.lines, chains.boats): self.refused(number, call, damaged)
            for call in (chains.words, chains.search_words): self.refused(number, call, damaged, b"")
            self.refused(number, chains.find, damaged, b"", 9, 9, windows={1: (5, 5)})

    def test_full(self):
        line, timed = b"\x02\x00\x00\x01\x01\x00\x00\x01\x00\x00", b"\x03\x00\x00\x01\x01\x00\x00\x01\x00\x00\x00\x00\x00\x05"
        day = bytearray(b"\x01\x00\x01" + timed * 4095 + b"\x00")
        chains.add(day, 0, 1, 1, 1, 0, time=86399)
        self.assertEqual((len(day), chains.boats(day)), (57348, (1, 4095)))
        for time in (None, 5): self.refused(22, chains.add, day, 0, 1, 1, 1, 0, time)
        self.refused(1, chains.boats, day + b"\x00")
        for number, end in ((22, b"\x02"), (22, b"\x03"), (3, b"\x04")): self.refused(number, chains.boats, day[:-1] + end)
        for lines in (line * 4097, line * 4 + timed * 4093): self.refused(22, chains.boats, b"\x01\x00\x01" + lines + b"\x00")


class Windows(Asking):
    def one_line(self, day, kind, windows, inside):
        """Found or none, one line being asked for from place 0 to place 1 in every way."""
        pattern, chain = bytes((0x21, kind)), [0] if inside else None
        self.assertEqual(chains.find(day, pattern, 0, 1, windows=windows), chain)
        self.assertIs(chains.check(day, pattern, 0, 1, [0], windows=windows), inside)
        self.assertEqual(chains.starts(day, pattern, [0, 1], 1, windows=windows), [1 if inside else None, None])
        search = chains.Search(day, pattern, 0, 1, windows=windows)
        self.assertEqual(search.move(1), 1)
        self.assertEqual(search.finish(), chain)

    def test_seconds(self):
        for time, window, inside in ((5, (5, 6), True), (5, (0, 5), False), (5, (6, 7), False), (5, (0, 86400), True), (0, (0, 1), True), (0, (1, 9), False),
                                     (86399, (86399, 86400), True), (86399, (0, 86399), False), (None, (0, 86400), True), (None, (0, 86399), False),
                                     (None, (1, 86400), False)):
            for kind in range(1, 16):
                day = day_of(2, [(0, kind, 1, 1, 1, time)])
                self.one_line(day, kind, {kind: window}, inside)
                others = {other: (6, 7) for other in range(1, 16) if other != kind}
                self.one_line(day, kind, others, True)
                self.one_line(day, kind, {**others, kind: window}, inside)
                for none in (None, {}): self.one_line(day, kind, none, True)

    def test_lines_outside(self):
        lines = [(*line, 100 * number) for number, line in enumerate(LINES + [(2, 4, 1, 150, 3)], 1)]
        day, low, high = day_of(4, lines), [1, 2, 5], [0, 3, 7]
        for windows, first, second in (({}, True, True), ({4: (0, 800)}, True, False), ({4: (601, 86400)}, False, True), ({4: (700, 800)}, False, False),
                                       ({2: (0, 400)}, True, False), ({2: (400, 401)}, False, True), ({1: (200, 300), 2: (0, 400)}, True, False),
                                       ({1: (200, 300), 2: (400, 401)}, False, False), ({3: (0, 1)}, True, True)):
            chain = high if second else low if first else None
            self.assertEqual(chains.find(day, P, 0, 3, windows=windows), chain)
            self.assertEqual([chains.check(day, P, 0, 3, given, windows=windows) for given in (low, high)], [first, second])
            self.refused(18, chains.check, day, P, 0, 3, [7, 5, 8], windows=windows)
            self.assertEqual(chains.starts(day, P, [0, 1], 3, windows=windows), [chain and 3, None])
            later = bytearray(day)
            search = chains.Search(later, P, 0, 3, windows=windows)
            chains.add(later, 0, 1, 2, 150, 1, 5)
            self.assertEqual(search.finish(), chain)
        self.assertEqual((chains.words(day, P), chains.search_words(day, P)), (8704, 8704 + 3 * 8))

    def test_refused(self):
        day, many = day_of(4, LINES), day_of(1024, [(0, 1, 1, boat, 0, 5) for boat in range(64)])
        large = bytes.fromhex("270100") + b"\x26" * 13 + b"\x21\x01"
        for kind in range(1, 16):
            for window in ((5, 5), (6, 5), (0, 86401), (86400, 86400), (2 ** 32 - 1, 0)):
                wrong = {"windows": {kind: window}}
                self.refused(27, chains.find, day, P, 0, 3, **wrong)
                self.refused(27, chains.check, day, P, 0, 3, [9], **wrong)
                self.refused(27, chains.starts, day, P, [], 3, **wrong)
                self.refused(27, chains.Search, day, P, 0, 3, **wrong)
        for number, to, pattern, window in ((15, 1024, large, (5, 5)), (27, 0, large, (5, 5)), (16, 0, large, (6, 7)), (8, 1024, b"", (5, 5))):
            for call in (chains.find, chains.Search): self.refused(number, call, many, pattern, 0, to, windows={1: window})

    def test_windows_that_are_none(self):
        day = chains.begin(2)
        for kind in (0, 16, -1, "4"):
            with self.assertRaises(ValueError): chains.find(day, NOTHING, 0, 0, windows={kind: (0, 1)})
        for window in ((-1, 5), (0, 1 << 32)):
            with self.assertRaises(OverflowError): chains.find(day, NOTHING, 0, 0, windows={1: window})


class Requests(Asking):
    def test_find(self):
        day = day_of(4, LINES)
        self.assertEqual(chains.find(day, P, 0, 3), [1, 2, 5])
        self.assertEqual(chains.find(day_of(4, LINES + [(2, 4, 1, 150, 3)]), P, 0, 3), [0, 3, 7])
        self.assertIsNone(chains.find(day_of(4, LINES[:5] + LINES[6:]), P, 0, 3))
        self.assertEqual(chains.find(day, NOTHING, 0, 0), [])
        self.assertIsNone(chains.find(day, NOTHING, 0, 1))
        two = day_of(1, [(0, 1, 1, 1, 0), (0, 1, 1, 2, 0)])
        self.assertEqual(chains.find(two, S, 0, 0), [0, 0, 1, 0])

    def test_long_chain(self):
        day = day_of(40, [(place, 1, 1, 1, place + 1) for place in range(39)])
        self.assertEqual(chains.find(day, b"\x26\x21\x01", 0, 39), list(range(39)))
        self.assertEqual(chains.find(day, b"\x26\x21\x01", 0, 16), list(range(16)))
        self.assertEqual(chains.find(day, b"\x26\x21\x01", 0, 17), list(range(17)))

    def test_starts(self):
        r, two, lines = day_of(4, LINES), day_of(1, [(0, 1, 1, 1, 0), (0, 1, 1, 2, 0)]), bytes.fromhex("26 24 24 2101 2102 24 2103 2104")
        for day, pattern, places, to, lengths in (
                (r, P, [0, 1, 2, 3, 0], 3, [3, None, None, None, 3]), (r, P, [], 3, []), (r, P, [0], 3, [3]), (r, P, range(4), 0, [None] * 4),
                (day_of(4, LINES + [(2, 4, 1, 150, 3)]), P, (3, 0), 3, [None, 3]), (day_of(4, LINES[:5] + LINES[6:]), P, [0, 0], 3, [None, None]),
                (two, S, [0, 0, 0], 0, [4, 4, 4]), (r, NOTHING, range(4), 1, [None, 0, None, None]), (r, lines, [3, 2, 1, 0, 3], 3, [0, 1, 2, 3, 0]),
                (r, lines, range(4), 2, [2, 1, 0, None])):
            self.assertEqual(chains.starts(day, pattern, places, to), lengths)
            found = [chains.find(day, pattern, place, to) for place in places]
            self.assertEqual([None if chain is None else len(chain) for chain in found], lengths)
        many = [n // 7 % 4 for n in range(70000)]
        self.assertEqual(chains.starts(r, lines, many, 3), [3 - place for place in many])
        day = day_of(40, [(place, 1, 1, 1, place + 1) for place in range(39)])
        self.assertEqual(chains.starts(day, b"\x26\x21\x01", range(40), 39), list(range(39, -1, -1)))
        for places in (iter((0, 3)), (0, 3), bytes((0, 3))): self.assertEqual(chains.starts(bytes(r), bytearray(P), places, 3), [3, None])

    def test_starts_refused(self):
        day = day_of(4, LINES)
        for number, given in ((2, (b"", b"", [9], 9)), (7, (day + b"\0", b"", [9], 9)), (8, (day, b"", [9], 9)), (10, (day, P[:-1], [9], 9)),
                              (24, (day, b"\x2a\1\0\x20", [9], 9)), (15, (day, P, [4], 3)), (15, (day, P, [4, 0], 3)), (15, (day, P, [0, 4], 3)),
                              (15, (day, P, [0] * 70000 + [4], 3)), (15, (day, P, [0], 4)), (15, (day, P, [], 4))):
            self.refused(number, chains.starts, *given)

    def test_search(self):
        r, two = day_of(4, LINES), day_of(1, [(0, 1, 1, 1, 0), (0, 1, 1, 2, 0)])
        # How many states: those gone through backward, and with a chain all that were found but the goal.
        for day, pattern, from_, to, states, chain in (
                (r, P, 0, 3, 4 + 4, [1, 2, 5]), (day_of(4, LINES + [(2, 4, 1, 150, 3)]), P, 0, 3, 7 + 7, [0, 3, 7]),
                (day_of(4, LINES[:5] + LINES[6:]), P, 0, 3, 2, None), (two, S, 0, 0, 9 + 9, [0, 0, 1, 0]), (r, NOTHING, 0, 0, 0, []),
                (r, NOTHING, 0, 1, 1, None)):
            self.assertEqual(chains.find(day, pattern, from_, to), chain)
            for count in range(states + 1):
                search = chains.Search(day, pattern, from_, to)
                self.assertEqual((search.move(0), search.move(count)), (0, count))
                self.assertEqual(search.finish(), chain)
            for amount in (1, 2, 5, 2 ** 64 - 1):
                search, left = chains.Search(day, pattern, from_, to), states
                while left:
                    moved = min(amount, left)
                    self.assertEqual(search.move(amount), moved)
                    left -= moved
                self.assertEqual((search.move(1), search.move(amount)), (0, 0))
                self.assertEqual(search.finish(), chain)
                for call, given in ((search.finish, ()), (search.move, (0,)), (search.move, (1,))): self.refused(26, call, *given)

    def test_lines_added_meanwhile(self):
        for count in range(9):
            day, pattern = day_of(4, LINES), bytearray(P)
            search = chains.Search(day, pattern, 0, 3)
            self.assertEqual(search.move(count), count)
            chains.add(day, 2, 4, 1, 150, 3)
            self.assertEqual(chains.find(day, pattern, 0, 3), [0, 3, 7])
            day[:], pattern[:] = b"", b""
            self.assertEqual(search.finish(), [1, 2, 5])

    def test_long_search(self):
        day = day_of(40, [(place, 1, 1, 1, place + 1) for place in range(39)])
        for to in (16, 17, 39): self.assertEqual(chains.Search(day, b"\x26\x21\x01", 0, to).finish(), list(range(to)))

    def test_search_refused(self):
        day = day_of(4, LINES)
        self.assertEqual(chains.search_words(day, P), 8704 + 3 * 7)
        self.assertEqual(chains.search_words(chains.begin(1), NOTHING), 8200)
        for number, given in ((2, (b"", P, 0, 3)), (7, (day + b"\0", P, 0, 3)), (8, (day, b"", 9, 9)), (10, (day, P[:-1], 9, 9)),
                              (24, (day, b"\x2a\1\0\x20", 9, 9)), (15, (day, P, 0, 4))):
            self.refused(number, chains.Search, *given)
            if number != 15: self.refused(number, chains.search_words, *given[:2])

    def test_check(self):
        day = day_of(4, LINES)
        self.assertIs(chains.check(day, P, 0, 3, [1, 2, 5]), True)
        self.assertIs(chains.check(day, P, 0, 3, [0, 2, 5]), False)
        self.assertIs(chains.check(day, NOTHING, 0, 0, []), True)
        self.refused(18, chains.check, day, P, 0, 3, [5, 0, 7])
        self.refused(15, chains.check, day, P, 0, 4, [1, 2, 5])

    def test_unread(self):
        any_, same, other = map(bytes.fromhex, ("270100 2102", "270100 220200", "270100 230200"))
        for kept, another in (((1, 1), (1, 2)), ((0, 5), (0, 6)), ((3, 0), (4, 0))):
            day = day_of(3, [(0, 1, *kept, 1), (1, 2, 0, 0, 2), (1, 2, *another, 2), (1, 2, *kept, 2)])
            self.assertEqual([chains.find(day, pattern, 0, 2) for pattern in (any_, same, other)], [[0, 1], [0, 3], [0, 2]])
            self.assertEqual([chains.check(day, pattern, 0, 2, [0, 1]) for pattern in (any_, same, other)], [True, False, False])
        day = day_of(2, [(0, 1, 0, 0, 1), (1, 2, 0, 0, 1), (1, 2, 1, 1, 1)])
        self.assertEqual([chains.find(day, pattern, 0, 1) for pattern in (any_, same, other)], [[0, 1], None, None])
        for second in (1, 2):
            self.assertEqual([chains.check(day, pattern, 0, 1, [0, second]) for pattern in (any_, same, other)], [True, False, False])
        self.assertEqual(chains.find(day, bytes.fromhex("270100 20"), 0, 1), [0])
        self.assertEqual(chains.find(day, bytes.fromhex("2102"), 1, 1), [1])
        keep = bytes.fromhex("270100 20")
        sizes = [chains.words(day_of(1, [(0, 1, 1, 1, 0)] + [(0, 1, 0, 0, 0)] * unread), keep) for unread in range(3)]
        self.assertEqual(sizes, [8216, 8228, 8228])

    def test_classes(self):
        same, other, sister, foreign = (bytes((0x27, 1, 0, test, 2, 0)) for test in (0x22, 0x23, 0x28, 0x29))
        day = day_of(3, [(0, 1, 2, 1, 1)] + [(1, 2, *boat, 2) for boat in ((1, 7), (1, 8), (2, 1), (2, 9), (3, 1))])
        self.assertEqual([chains.find(day, pattern, 0, 2) for pattern in (same, other, sister, foreign)], [[0, 3], [0, 1], [0, 4], [0, 1]])
        self.assertEqual([chains.check(day, sister, 0, 2, [0, n]) for n in range(1, 6)], [False, False, False, True, False])
        self.assertEqual([chains.check(day, foreign, 0, 2, [0, n]) for n in range(1, 6)], [True, True, False, False, True])
        day = day_of(3, [(0, 1, 1, 1, 1), (1, 2, 1, 7, 2), (1, 2, 1, 8, 2), (1, 2, 2, 1, 2)])
        self.assertEqual(chains.find(day, foreign, 0, 2), [0, 3])
        for kept, boats in (((0, 0), ((0, 5), (1, 1))), ((0, 5), ((0, 0), (0, 5)))):
            day = day_of(3, [(0, 1, *kept, 1)] + [(1, 2, *boat, 2) for boat in boats])
            self.assertEqual([chains.find(day, pattern, 0, 2) for pattern in (sister, foreign)], [None, None])
        for test in (0x28, 0x29):
            self.assertEqual(chains.counts(bytes((0x27, 1, 0, test, 15, 0))), (2, 1))
            for number, operands in ((10, (1,)), (11, (0, 0)), (11, (1, 4)), (12, (1, 0))): self.refused(number, chains.counts, bytes((test, *operands)))
        for byte in range(0x2B, 0x30): self.refused(8, chains.counts, bytes((byte,)))

    def test_rounds(self):
        day, lap = day_of(1, [(0, 3, 1, 1, 0)]), b"\x21\x03"
        for pattern, least, most in ((b"\x2a\2\5" + lap, 2, 5), (b"\x2a\0\0" + lap, 0, 0), (b"\x2a\1\3\x20", 0, 0),
                                     (b"\x2a\1\3\x24\x20" + lap, 0, 3), (b"\x25\x2a\2\5" + lap + b"\x2a\3\3" + lap, 5, 8)):
            self.assertEqual(chains.find(day, pattern, 0, 0), [0] * least)
            self.assertEqual([n for n in range(10) if chains.check(day, pattern, 0, 0, [0] * n)], list(range(least, most + 1)))
        two, own = day_of(1, [(0, 1, 1, 1, 0), (0, 1, 1, 2, 0)]), bytes.fromhex("2a0202 270100 220100")
        self.assertEqual([chains.check(two, own, 0, 0, chain) for chain in ([0, 0, 1, 1], [0, 0, 0, 1])], [True, False])
        self.assertEqual(chains.words(day, b"\x2a\2\5" + lap), 4 * 7 + 8192)
        for number, damaged in ((10, "2a"), (10, "2a01"), (24, "2a0100"), (24, "2a0015"), (8, "2a0000"), (14, "2a01012020")):
            self.refused(number, chains.counts, bytes.fromhex(damaged))

    def test_unfolded(self):
        self.assertEqual(chains.unfolded(P), 7)
        self.assertEqual(chains.counts(b"\x2a\2\5" + P), (8, 1))
        self.assertEqual(chains.unfolded(b"\x2a\2\5" + P), 36)
        self.assertEqual(chains.unfolded(b"\x2a\0\0" + S), 1)
        most = bytes.fromhex("26 26 2a0014 24 20 20")
        self.assertEqual(chains.unfolded(most), 63)
        nests = b"\x2a\x14\x14" * 40 + NOTHING
        self.assertEqual(chains.unfolded(b"\x2a\0\0" + nests), 1)
        for number, damaged in ((25, b"\x26" + most), (25, nests), (14, nests + NOTHING)):
            for call in (chains.counts, chains.unfolded): self.refused(number, call, damaged)
            self.refused(number, chains.find, chains.begin(1), damaged, 9, 9)

    def test_order_of_refusals(self):
        many = day_of(1024, [(0, 1, 1, boat, 0) for boat in range(64)])
        large = bytes.fromhex("270100") + b"\x26" * 13 + b"\x21\x01"
        for call in (chains.words, chains.search_words): self.refused(16, call, many, large)
        for call in (chains.find, chains.Search):
            self.refused(16, call, many, large, 0, 0)
            self.refused(15, call, many, large, 0, 1024)
            self.refused(8, call, many, b"", 0, 1024)
        for places in ([], [0], [0, 1023]): self.refused(16, chains.starts, many, large, places, 0)
        for places, to in (([], 1024), ([0, 1024], 0)):
            self.refused(15, chains.starts, many, large, places, to)
            self.refused(8, chains.starts, many, b"", places, to)

    def test_pattern(self):
        self.assertEqual(chains.counts(P), (7, 1))
        self.assertEqual(chains.counts(S), (5, 2))
        self.assertEqual(chains.counts(b"\x26" * 62 + NOTHING), (63, 0))
        four = bytes.fromhex("270100 270101 270102 270103 20")
        for number, damaged in ((8, b""), (9, b"\x26" * 64), (10, b"\x21"), (11, b"\x21\x00"), (12, b"\x22\x01\x00"), (13, four),
                                (14, b"\x20\x20")):
            self.refused(number, chains.counts, damaged)

    def test_words(self):
        self.assertEqual(chains.words(day_of(4, LINES), P), 8704)


class Module(unittest.TestCase):
    def test_sentences(self):
        rows = (HOME / "include/refusals.txt").read_text().splitlines()
        self.assertEqual(rows, [f"{number}\t{sentence}" for number, sentence in enumerate(chains.SENTENCES, 1)])
        self.assertIn("99", str(chains.Refused(99, 0)))

    def test_numbers_that_do_not_fit(self):
        day = chains.begin(2)
        search = chains.Search(day, NOTHING, 0, 0)
        for call, given in ((chains.begin, (65537,)), (chains.begin, (-1,)), (chains.add, (day, 65536, 1, 1, 1, 0)),
                            (chains.add, (day, 0, 257, 1, 1, 0)), (chains.add, (day, 0, 1, 256, 1, 0)),
                            (chains.add, (day, 0, 1, 1, 1 << 32, 0)), (chains.add, (day, 0, 1, 1, 1, 0, 1 << 32)),
                            (chains.add, (day, 0, 1, 1, 1, 0, -1)), (chains.find, (day, NOTHING, 65536, 0)),
                            (chains.check, (day, NOTHING, 0, 0, [65536])), (chains.check, (day, NOTHING, 0, 0, [-1])),
                            (chains.starts, (day, NOTHING, [0, 65536], 0)), (chains.starts, (day, NOTHING, [-1], 0)),
                            (chains.starts, (day, NOTHING, [0], 65536)), (chains.starts, (day, NOTHING, [], -1)),
                            (chains.Search, (day, NOTHING, 0, 65536)), (search.move, (1 << 64,)), (search.move, (-1,))):
            with self.assertRaises(OverflowError):
                call(*given)
        self.assertEqual(day, chains.begin(2))
        self.assertEqual(search.finish(), [])

    def test_version(self):
        header = (HOME / "include/chains.h").read_text()
        self.assertIn(f"#define CHAINS_VERSION {chains.version()}\n", header)

    def test_readme(self):
        """README's programs print what their comments say."""
        first, many, second, limit = re.findall(r"```python\n(.*?)```", (HOME / "README.md").read_text(), re.S)
        said = re.findall(r"# (\[0\]|True|\(1, 0\))", first)
        self.assertEqual(len(said), 3)
        self.printed(first, [chains.Line(0, 1, 2, 150, 1)], *map(eval, said))
        said = re.findall(r"print.*# (\[.*?\])", many)
        self.assertEqual(said, ["[3, None, None, None, 3]"])
        self.printed(many, *said)
        said = re.findall(r"print.*# (\[.*?\])", second)
        self.assertEqual(said, ["[1, 2, 5]", "[0, 3, 7]"])
        self.printed(second, *map(eval, said))
        said = re.findall(r"print.*# (\[.*?\]|\w+)", limit)
        self.assertEqual(said, ["[0, 2, 5]", "[1, 3, 4]", "False", "54000"])
        self.printed(limit, *said)

    def printed(self, program, *lines):
        ran = subprocess.run([sys.executable, "-c", program], capture_output=True, text=True, env=FOUND, cwd=HOME)
        self.assertEqual((ran.stdout, ran.stderr), ("".join(f"{line}\n" for line in lines), ""))


if __name__ == "__main__":
    unittest.main()
