#!/usr/bin/env python3
"""Rows about records and what they make crates/rows write, from the text of document 01 ("The day's record", questions 1 to 7 and 18
to 23) and of request Seven (timed lines, questions 1, 3, 22 and 28) alone.

Run from the repository's root: python3 tests/records.py FOLDER writes FOLDER/records.bin and prints a part of crates/rows/stdout."""
from chains01 import Refused, line as bytes_of, read_record, record
from table import Table, byte, field, long, short

table, BUFFER = Table("records"), 65536

NEW = [2, 0, 1, 15, 7, 1, 2, 3, 0, 0]


def read(data):
    """The number of the first question that fails, or the count of places and the lines: five numbers each, or six with a time."""
    try:
        places, lines = read_record(data)
    except Refused as refused:
        return refused.args[0]
    return places, [(a, kind, *boat, b) if time is None else (a, kind, *boat, b, time) for a, kind, boat, b, time in lines]


def begin(buf, room, places):
    if not 1 <= places <= 1024: return "refused 2"
    if room < 4: return "refused 23"
    buf[0:4] = [1, places // 256, places % 256, 0]
    return "length 4"


def add(buf, room, length, line):
    if length > room: return "refused 20"
    day = read(buf[:length])
    if isinstance(day, int): return "refused %d" % day
    if line[0] >= day[0] or line[4] >= day[0]: return "refused 5"
    if not 1 <= line[1] <= 15: return "refused 6"
    if line[3] >= 1 << 24: return "refused 21"
    if len(day[1]) >= 4096: return "refused 22"
    if length + 10 > room: return "refused 23"
    buf[length - 1:length + 10] = bytes_of(*line) + [0]
    return "length %d" % (length + 10)


class Buffer(list):
    """Bytes that stay from row to row. Each row prints its name and what is said."""

    def begin(self, name, room, places):
        table.row("%s: %s\n" % (name, begin(self, room, places)), byte(2), name + ": ", long(room), short(places))

    def add(self, name, room, length, new):
        table.row("%s: %s\n" % (name, add(self, room, length, new)), byte(3), name + ": ", long(room), long(length), ten_bytes(new))

    def line(self, name, n, i): table.row("%s: %s\n" % (name, line(self[:n], i)), byte(1), name + ": ", long(n), short(i))

    def shown(self, n): table.row("bytes %s\n" % " ".join(map(str, self[:n])), byte(4), "bytes", long(n))

    def fill(self, n, start, v):
        self[start:n] = [v] * (n - start)
        table.row("", byte(5), "", long(n), long(start), byte(v))

    def nines(self, name, n, start):
        table.row("%s: %d\n" % (name, self[start:n].count(9)), byte(7), name + ": ", long(n), long(start))

    def grow(self, name, room, length, new):
        """Made lines, added one after the other: each is good, and there is room. The length then."""
        fields = b"".join(field(ten_bytes(a)) for a in new)
        for i, a in enumerate(new): self[length - 1 + 10 * i:length + 10 + 10 * i] = bytes_of(*a) + [0]
        after = length + 10 * len(new)
        table.row("%s: %d\n" % (name, after), byte(6), name + ": ", long(room), long(length), fields)
        return after


def ten_bytes(new): return short(new[0]) + byte(new[1]) + byte(new[2]) + long(new[3]) + short(new[4])


def line(data, i):
    day = read(data)
    if isinstance(day, int): return "refused %d" % day
    if i >= len(day[1]): return "refused 18"
    numbers = day[1][i]
    return ("timed line " if len(numbers) == 6 else "line ") + " ".join(map(str, numbers))


def given(name, data, i): table.row("%s: %s\n" % (name, line(data, i)), byte(0), name + ": ", long(0), short(i), data)


def heads():
    given("no places", [1, 0, 0, 0], 0)
    given("1,025 places", [1, 4, 1, 0], 0)
    given("1,024 places", [1, 4, 0, 0], 0)
    given("one place", [1, 0, 1, 0], 0)
    given("no entry", [1, 0, 1], 0)
    given("two bytes", [1, 0], 0)
    given("one byte", [1], 0)
    given("empty", [], 0)
    given("first byte 02", [2, 0, 1, 0], 0)
    given("places twice", [1, 0, 1, 1, 0, 1, 0], 0)
    given("byte after the end", [1, 0, 1, 0, 0], 0)
    given("byte 03", [1, 0, 1, 3], 0)
    given("byte 04", [1, 0, 1, 4], 0)


def lines():
    def with_bytes(**changes):
        new = list(NEW)
        for place, value in changes.items(): new[int(place[1:])] = value
        return [1, 0, 2] + new + [0]
    given("a line", with_bytes(), 0)
    given("no line 1", with_bytes(), 1)
    given("no end", with_bytes()[:-1], 0)
    given("operand missing", with_bytes(b2=9, b3=0)[:-2], 0)
    given("from out", with_bytes(b2=2, b3=0), 0)
    given("to out", with_bytes(b3=0, b9=2), 0)
    given("kind 0", with_bytes(b3=0), 0)
    given("kind 16", with_bytes(b3=16), 0)
    given("kind of line 0 before places of line 1", with_bytes(b3=0)[:-1] + with_bytes(b2=9, b3=1)[3:], 0)
    given("line 0 of a record that fails later", with_bytes(b3=1)[:-1] + with_bytes(b2=0, b3=16)[3:], 0)


def timed_lines():
    late = record(2, (1, 15, 7, 66051, 0, 86399))
    given("a timed line", late, 0)
    given("no line 1 after a timed one", late, 1)
    for n in (1, 9, 10, 13): given("%d bytes of a timed line" % n, late[:3 + n], 0)
    given("a timed line and no end", late[:-1], 0)
    given("13 bytes of a timed line, then the end", late[:16] + [0], 0)
    given("a timed line, byte after the end", late + [0], 0)
    for time in (0, 1, 255, 256, 65535, 65536, 86398, 86399, 86400, 86401, 131072, 16777216, 4294967295):
        given("time %d" % time, record(1, (0, 1, 1, 1, 0, time)), 0)
    given("time 86,400, kind 0", record(1, (0, 0, 1, 1, 0, 86400)), 0)
    given("time 86,400, from out", record(1, (1, 1, 1, 1, 0, 86400)), 0)
    given("time 86,400, to out, kind 16", record(1, (0, 16, 1, 1, 1, 86400)), 0)
    given("time 86,400, cut", record(1, (0, 1, 1, 1, 0, 4294967295))[:16], 0)
    given("time of line 0 before places of line 1", record(1, (0, 1, 1, 1, 0, 86400), (1, 1, 1, 1, 0)), 0)
    given("places of line 0 before time of line 1", record(1, (1, 1, 1, 1, 0), (0, 1, 1, 1, 0, 86400)), 0)
    given("line 0 of a record that is late later", record(1, (0, 1, 1, 1, 0), (0, 1, 1, 1, 0, 86400)), 0)
    # Lines of both widths one after the other, and bytes of lines that look like commands.
    mixed = record(772, (0, 1, 1, 1, 0, 5), (1, 2, 2, 2, 2), (2, 3, 3, 197379, 771), (3, 3, 3, 3, 3, 0), (4, 4, 4, 4, 4, 66051), (5, 5, 5, 5, 5))
    for i in range(7): given("line %d of six, timed and not" % i, mixed, i)


def begins(buf):
    buf.fill(6, 0, 9)
    buf.begin("begin 0 in three bytes", 3, 0)
    buf.begin("begin 1,025 in three bytes", 3, 1025)
    buf.begin("begin 1,024 in three bytes", 3, 1024)
    buf.shown(6)
    buf.begin("begin 258 in six bytes", 6, 258)
    buf.shown(6)
    buf.begin("begin 1 in four bytes", 4, 1)
    buf.shown(6)


def adds(buf):
    buf.fill(15, 0, 9)
    buf.begin("begin 2", 15, 2)
    buf.add("length past the buffer", 15, 16, (0, 1, 1, 1, 1))
    buf.add("length past the end", 15, 5, (0, 1, 1, 1, 1))
    buf.add("length before the end", 15, 3, (0, 1, 1, 1, 1))
    buf.add("length 0", 15, 0, (0, 1, 1, 1, 1))
    buf.add("new from out", 15, 4, (2, 0, 1, 16777216, 1))
    buf.add("new to out", 15, 4, (0, 0, 1, 16777216, 2))
    buf.add("new kind 0", 15, 4, (0, 0, 1, 16777216, 1))
    buf.add("new kind 16", 15, 4, (0, 16, 1, 16777216, 1))
    buf.add("new sail number", 13, 4, (0, 1, 1, 16777216, 1))
    buf.add("one byte short", 13, 4, (0, 1, 1, 16777215, 1))
    buf.shown(15)
    buf.add("room to the byte", 14, 4, (1, 15, 255, 16777215, 0))
    buf.shown(15)
    buf.line("line 0", 14, 0)
    buf.line("whole buffer", 15, 0)


def nth(i): return (i % 1000 * 7 % 1024, i % 15 + 1, i % 251, i % 4096 * 4093, i % 1000 * 13 % 1024)


def full(buf):
    buf.fill(40980, 0, 9)
    buf.begin("begin 1,024", 40980, 1024)
    some = buf.grow("length after 300 lines", 40980, 4, [nth(i) for i in range(300)])
    for i in range(300): buf.line("line %d" % i, some, i)
    buf.nines("bytes left as they were", 40980, some)
    almost = buf.grow("length after 4,095 lines", 40980, some, [nth(i) for i in range(300, 4095)])
    buf.line("line 4,094 of 4,095", almost, 4094)
    buf.line("line 4,095 of 4,095", almost, 4095)
    buf.add("line 4,095 one byte short", 40963, almost, nth(4095))
    buf.add("line 4,095 to the byte", 40964, almost, nth(4095))
    buf.line("line 4,095 of 4,096", 40964, 4095)
    buf.line("line 65,535", 40964, 65535)
    buf.add("one line more", 40980, 40964, nth(0))
    buf.add("one line more, no room", 40964, 40964, nth(0))
    buf.add("one line more, bad sail number", 40980, 40964, (0, 1, 1, 16777216, 0))
    buf.nines("bytes left as they were", 40980, 40964)
    for command in (2, 3):
        buf.fill(40964, 40963, command)
        buf.line("4,096 lines and then 0%d" % command, 40964, 0)
        buf.line("4,096 lines, 0%d and another byte" % command, 40965, 0)
    buf.add("4,096 lines and then 03 to add to", 40980, 40964, (9999, 0, 1, 16777216, 0))
    buf.fill(40964, 40963, 4)
    buf.line("4,096 lines and then 04", 40964, 0)
    buf.fill(57360, 40963, 0)
    buf.line("4,096 lines and two ends", 40965, 0)
    buf.line("57,348 bytes", 57348, 0)
    buf.line("57,349 bytes", 57349, 0)
    buf.add("57,348 bytes to add to", 57360, 57348, nth(0))
    buf.add("57,349 bytes to add to", 57360, 57349, nth(0))


def unread(buf):
    buf.begin("begin 1", 64, 1)
    for length, new in ((4, (0, 1, 1, 150, 0)), (14, (0, 1, 2, 150, 0)), (24, (0, 2, 1, 150, 0)), (34, (0, 1, 0, 0, 0)), (44, (0, 3, 0, 0, 0))):
        buf.add("a boat", 64, length, new)
    buf.line("the second unread number", 54, 4)


heads()
lines()
timed_lines()
buffer = Buffer([0] * BUFFER)
begins(buffer)
adds(buffer)
full(buffer)
unread(buffer)
table.write()
