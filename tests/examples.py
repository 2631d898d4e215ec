#!/usr/bin/env python3
"""README's examples: their files, and the line that each prints, computed from the definitions and not by the library.

Run from the repository's root:
python3 tests/examples.py write FOLDER    writes examples/ under the folder: day.rec, ask.pat and expected.txt of each, and by_slip.txt,
                                          which the Rust example one_boat prints
python3 tests/examples.py run             runs ./chains on the stored examples and on what README says of them besides, and looks
                                          whether README shows their lines, their bytes and what they print"""
import re
import subprocess
import sys
import tempfile
from chains import put, question, said
from chains01 import find, read_record, record

KINDS = {1: "entered", 2: "started", 3: "rounded", 4: "finished", 5: "retired"}

# The boat of the entered line, then that boat started, rounded, finished.
ONCE = [0x27, 1, 0, 0x25, 0x22, 2, 0, 0x25, 0x22, 3, 0, 0x22, 4, 0]
# The same with two roundings.
TWICE = [0x27, 1, 0, 0x25, 0x22, 2, 0, 0x25, 0x22, 3, 0, 0x25, 0x22, 3, 0, 0x22, 4, 0]
# The same with two to five roundings.
COUNTED = [0x27, 1, 0, 0x25, 0x22, 2, 0, 0x25, 0x2A, 2, 5, 0x22, 3, 0, 0x22, 4, 0]
# The boat of the entered line, then that boat started and finished.
HOME = [0x27, 1, 0, 0x25, 0x22, 2, 0, 0x22, 4, 0]
# Entered, started, rounded, finished, of any boats.
ANY = [0x25, 0x21, 1, 0x25, 0x21, 2, 0x25, 0x21, 3, 0x21, 4]

# Places: a slip at the desk for each boat, 3 start, 4 beat, 5 run, 6 hut.
SLIPS = [(0, 1, 1, 150, 3), (1, 1, 2, 150, 3), (2, 1, 1, 151, 3), (3, 2, 2, 150, 4), (3, 2, 1, 150, 4), (3, 2, 1, 151, 4),
         (4, 3, 2, 150, 5), (4, 3, 1, 150, 5), (5, 4, 2, 150, 6), (4, 3, 1, 151, 5), (5, 5, 1, 151, 6), (5, 4, 1, 150, 6)]
# Places: 0 desk, 1 start, 2 first lap, 3 second lap, 4 last leg, 5 hut.
LEGS = [(0, 1, 1, 7, 1), (0, 1, 1, 9, 1), (1, 2, 1, 7, 2), (1, 2, 1, 9, 2), (2, 3, 1, 7, 3), (2, 3, 1, 9, 3), (3, 4, 1, 7, 5),
        (3, 3, 1, 9, 4), (4, 4, 1, 9, 5)]
# Places: 0 desk, 1 start, 2 course, 3 hut. The last field is the time, where there is one.
LIMIT = [(0, 1, 1, 7, 1), (0, 1, 1, 9, 1), (1, 2, 1, 7, 2, 36000), (1, 2, 1, 9, 2, 36000), (2, 4, 1, 9, 3, 53400), (2, 4, 1, 7, 3, 54000)]
# The same day with one place for the whole course: 0 desk, 1 start, 2 course, 3 hut.
COURSE = [(min(a, 2), kind, boat_class, sail, 3 if b == 5 else min(b, 2)) for a, kind, boat_class, sail, b in LEGS]


def own(lines, boat_class, sail): return [i for i, line in enumerate(lines) if line[2:4] == (boat_class, sail)]


# name: places, lines, first place, second place, pattern.
EXAMPLES = {
    "one_boat": (7, SLIPS, 1, 6, ONCE),
    "own_record": (7, [SLIPS[i] for i in own(SLIPS, 2, 150)], 1, 6, ANY),
    "laps": (6, LEGS, 0, 5, TWICE),
    "laps_one_place": (4, COURSE, 0, 3, TWICE),
    "laps_counted": (6, LEGS, 0, 5, COUNTED),
    "time_limit": (4, LIMIT, 0, 3, HOME),
}
# What README says of the time limit: the windows, and the answer with them.
WINDOWED = [({4: (0, 54000)}, "found 3: 1 3 4"), ({4: (0, 54001)}, "found 3: 0 2 5"), ({2: (36001, 86400)}, "none"), ({1: (0, 43200)}, "none")]


def files(name):
    places, lines, a, b, pattern = EXAMPLES[name]
    return record(places, *lines), question(a, b, pattern)


# As the Rust example prints a chain.
def listed(line): return re.sub(": (.*)", lambda m: ": [%s]" % m[1].replace(" ", ", "), line)


def write(folder):
    for name in EXAMPLES:
        day, ask = files(name)
        put("%s/examples/%s" % (folder, name), day, ask)
        with open("%s/examples/%s/expected.txt" % (folder, name), "w") as out: out.write(said(day, ask) + "\n")
    with open(folder + "/examples/one_boat/by_slip.txt", "w") as out:
        for slip in range(3): out.write("slip %d: %s\n" % (slip, listed(said(files("one_boat")[0], question(slip, 6, ONCE)))))


# ---- running

def read(path):
    with open(path, "rb") as file: return file.read()


def printed(folder): return subprocess.run(["./chains", folder], capture_output=True, text=True).stdout


def printed_of(day, ask):
    with tempfile.TemporaryDirectory() as folder:
        put(folder, day, ask)
        return printed(folder)


def hexadecimal(data): return " ".join("%02X" % byte for byte in data)


def rows(lines): return ["| %d | %d | %d %s | %d-%d | %d |" % (i, a, kind, KINDS[kind], c, sail, b) for i, (a, kind, c, sail, b) in enumerate(lines)]


def clock(time): return "%d:%02d:%02d" % (time // 3600, time // 60 % 60, time % 60)


def timed_rows(lines):
    """The rows of lines with a time or without: the seconds, and the hour that they are."""
    times = ["%s (%s)" % (format(line[5], ","), clock(line[5])) if line[5:] else "" for line in lines]
    return [row + (" %s |" % time if time else " |") for row, time in zip(rows([line[:5] for line in lines]), times)]


def said_with(day, ask, windows):
    """What the finder says of a question with windows, as the program would print it."""
    word, n, chain = find(day, ask[4:], ask[0] * 256 + ask[1], ask[2] * 256 + ask[3], 16384, 2048, windows)
    return "%s %d: %s" % (word, n, " ".join(map(str, chain))) if word == "found" else word


def run():
    failed = []

    def expect(what, is_so):
        if not is_so: failed.append(what)

    readme = read("README.md").decode()
    for name in EXAMPLES:
        folder = "examples/" + name
        expected = read(folder + "/expected.txt").decode()
        expect("%s prints %r" % (folder, expected), printed(folder) == expected)
        expect("README shows ./chains %s and what it prints" % folder, any(
            "./chains " + folder in row and row.endswith("prints: " + expected.strip()) for row in readme.splitlines()))
    for name in ("one_boat", "laps", "laps_one_place"):
        expect("README shows the lines of " + name, "\n".join(rows(EXAMPLES[name][1])) in readme)
    expect("README shows the lines of time_limit", "\n".join(timed_rows(LIMIT)) in readme)
    by_slip = "".join("    " + row for row in read("examples/one_boat/by_slip.txt").decode().splitlines(True))
    expect("README shows by_slip.txt", by_slip in readme)
    for pattern in (ONCE, TWICE, COUNTED, ANY, HOME): expect("README shows " + hexadecimal(pattern), "`%s`" % hexadecimal(pattern) in readme)

    # Each boat, from its own slip and by a record of its own lines: the same lines of the day.
    day, _ = files("one_boat")
    for slip, boat, line in ((0, (1, 150), "found 4: 0 4 7 11"), (1, (2, 150), "found 4: 1 3 6 8"), (2, (1, 151), "none")):
        expect("from slip %d: %s" % (slip, line), printed_of(day, question(slip, 6, ONCE)) == line + "\n")
        expect("README says " + line, line in readme)
        numbers = own(SLIPS, *boat)
        answer = printed_of(record(7, *[SLIPS[i] for i in numbers]), question(slip, 6, ANY)).strip()
        word, _, chain = answer.partition(":")
        back = word + ":" + "".join(" %d" % numbers[int(i)] for i in chain.split()) if chain else answer
        expect("by its own record: " + line, back == line)

    # Other counts of laps on the same day.
    for lowest, highest, line in ((0, 1, "found 4: 0 2 4 6"), (3, 5, "none")):
        counted = COUNTED[:9] + [lowest, highest] + COUNTED[11:]
        expect("%d to %d laps: %s" % (lowest, highest, line), printed_of(record(6, *LEGS), question(0, 5, counted)) == line + "\n")
        expect("README says %02X %02X and %s" % (lowest, highest, line), re.search("`%02X %02X`[^.]*`%s`" % (lowest, highest, line), readme))

    # The time limit: README names each window by its seconds, and then what the answer is.
    for windows, line in WINDOWED:
        ((kind, (opens, closes)),) = windows.items()
        expect("windows %s: %s" % (windows, line), said_with(*files("time_limit"), windows) == line)
        window = "%s to %s" % (format(opens, ","), format(closes, ","))
        expect("README says %s of kind %d and %s" % (window, kind, line), "| %d %s | %s | `%s` |" % (kind, KINDS[kind], window, line) in readme)
    # What README shows of C stands in the test that is compiled.
    shown = re.search(r"```c\n(.*?)```", readme, re.S)[1]
    tested = re.sub(r"\s+", " ", read("tests/c/chains_test.c").decode())
    for part in shown.split("\n\n")[0].splitlines(): expect("the C test has " + part.strip(), re.sub(r"\s+", " ", part.strip()) in tested)

    # A changed byte: line 5 of the worked day, the low byte of its sail number.
    day, ask = bytearray(read("examples/day/day.rec")), read("examples/day/ask.pat")
    expect("README names the byte", day[60] == 0x96 and "byte 60" in readme)
    day[60] += 1
    expect("a changed byte can be read", read_record(day))
    expect("and turns an answer into none", printed_of(day, ask) == "none\n")

    for what in failed: print("not so: " + what)
    print("examples: %d failed" % len(failed))
    sys.exit(len(failed) > 0)


if __name__ == "__main__":
    if sys.argv[1] == "write": write(sys.argv[2])
    else: run()
