"""The text of document 01 and of requests One to Three and Seven as Python, for the tests' expected outputs: reading records and patterns,
membership clause by clause, the questions of a request up to 17, lines inside windows, and the worked records and patterns."""

TABLE = {0x20: (0, 0), 0x21: (1, 0), 0x22: (2, 0), 0x23: (2, 0), 0x24: (0, 2), 0x25: (0, 2), 0x26: (0, 1), 0x27: (2, 1),
         0x28: (2, 0), 0x29: (2, 0), 0x2A: (2, 1)}


class Refused(Exception):
    """A question that is answered no stops the walk and gives its number."""


def ask(answer, number):
    if not answer: raise Refused(number)


DAY = 86400


def read_record(data):
    """The count of places, and each line: from, kind, boat, to, and the time or None."""
    ask(len(data) <= 57348, 1)
    ask(len(data) >= 3 and data[0] == 1 and 1 <= data[1] * 256 + data[2] <= 1024, 2)
    places, at, lines = data[1] * 256 + data[2], 3, []
    while True:
        ask(at < len(data) and data[at] in (0, 2, 3), 3)
        if data[at] == 0:
            ask(at == len(data) - 1, 7)
            return places, lines
        ask(len(lines) < 4096, 22)
        width = 10 if data[at] == 2 else 14
        ask(len(data) - at >= width, 4)
        b = data[at + 1:at + width]
        time = None if width == 10 else int.from_bytes(b[9:], "big")
        line = (b[0] * 256 + b[1], b[2], (b[3], (b[4] * 256 + b[5]) * 256 + b[6]), b[7] * 256 + b[8], time)
        ask(line[0] < places and line[3] < places, 5)
        ask(1 <= line[1] <= 15, 6)
        ask(time is None or time < DAY, 28)
        lines.append(line)
        at += width


def read_pattern(data):
    counted = [0]

    def part(at, kept):
        ask(at < len(data) and data[at] in TABLE, 8)
        counted[0] += 1
        ask(counted[0] <= 63, 9)
        code, (width, after) = data[at], TABLE[data[at]]
        operands = data[at + 1:at + 1 + width]
        ask(len(operands) == width, 10)
        ask(code == 0x2A or (width < 1 or 1 <= operands[0] <= 15) and (width < 2 or operands[1] <= 3), 11)
        ask(code != 0x2A or operands[0] <= operands[1] <= 20, 24)
        ask(code not in TAKES or operands[1] in kept, 12)
        ask(code != 0x27 or len(kept) < 3, 13)
        inside = kept + [operands[1]] if code == 0x27 else kept
        at, inner = at + 1 + width, []
        for _ in range(after):
            p, at = part(at, inside)
            inner.append(p)
        return (code, operands, inner), at

    p, at = part(0, [])
    ask(at == len(data), 14)
    ask(unfolded(p) <= 63, 25)
    return p


def unfolded(p): return 1 + (p[1][1] if p[0] == 0x2A else 1) * sum(unfolded(q) for q in p[2])


def keeps(p): return (p[0] == 0x27) + max([keeps(q) for q in p[2]] or [0])


UNREAD = (0, 0)


def compared(kept, boat):
    """What comparing a slot's boat with a line's tells."""
    if UNREAD in (kept, boat): return "unread"
    if kept == boat: return "same boat"
    return "same class only" if kept[0] == boat[0] else "other class"


# What the tests take: same, other, sister and foreign.
TAKES = {0x22: ("same boat",), 0x23: ("same class only", "other class"), 0x28: ("same class only",), 0x29: ("other class",)}


def met(code, kept, boat): return compared(kept, boat) in TAKES[code]


def accepts(p, word, slots):
    """Is the word, a tuple of kinds and boats, in the pattern's language, the slots having these boats?"""
    code, operands, inner = p
    one = len(word) == 1 and operands and word[0][0] == operands[0]
    if code == 0x20: return not word
    if code == 0x21: return one
    if code in TAKES: return one and met(code, slots[operands[1]], word[0][1])
    if code == 0x24: return any(accepts(q, word, slots) for q in inner)
    if code == 0x25: return any(accepts(inner[0], word[:i], slots) and accepts(inner[1], word[i:], slots) for i in range(len(word) + 1))
    if code == 0x26: return not word or any(accepts(inner[0], word[:i], slots) and accepts(p, word[i:], slots) for i in range(1, len(word) + 1))
    if code == 0x2A: return any(in_a_row(inner[0], n, word, slots) for n in range(operands[0], operands[1] + 1))
    return bool(word) and word[0][0] == operands[0] and accepts(inner[0], word[1:], {**slots, operands[1]: word[0][1]})


def in_a_row(p, n, word, slots):
    """Is the word n words of the pattern's language, one after the other?"""
    if n == 0: return not word
    return any(accepts(p, word[:i], slots) and in_a_row(p, n - 1, word[i:], slots) for i in range(len(word) + 1))


def inside(line, windows):
    """Is a line inside the window of its kind? A kind that is not in the dict has the whole day."""
    opens, closes = windows.get(line[1], (0, DAY))
    return (opens, closes) == (0, DAY) if line[4] is None else opens <= line[4] < closes


def asked(day, pattern, a, b, words, windows={}):
    """The questions of a request up to 17: the lines and the pattern, or the exception Refused."""
    places, lines = read_record(day)
    p = read_pattern(pattern)
    ask(a < places and b < places, 15)
    ask(all(opens < closes <= DAY for opens, closes in windows.values()), 27)
    size = places * (unfolded(p) + 1) * (len({line[2] for line in lines}) + 1) ** keeps(p)
    ask(size <= 1048576, 16)
    ask(words >= 4 * size + 8192, 17)
    return lines, p


def line(a, kind, boat_class, sail, b, time=None):
    fields = [a >> 8, a & 255, kind, boat_class, sail >> 16, sail >> 8 & 255, sail & 255, b >> 8, b & 255]
    return [2] + fields if time is None else [3] + fields + list(time.to_bytes(4, "big"))


def record(places, *lines): return [1, places >> 8, places & 255] + sum((line(*fields) for fields in lines), []) + [0]


R_LINES = [(0, 1, 1, 150, 1), (0, 1, 2, 150, 1), (1, 2, 2, 150, 2), (1, 2, 1, 150, 2), (2, 3, 1, 150, 2), (2, 4, 2, 150, 3),
           (2, 4, 1, 151, 3)]
R = record(4, *R_LINES)
P = [0x27, 1, 0, 0x25, 0x22, 2, 0, 0x25, 0x26, 0x22, 3, 0, 0x22, 4, 0]
T = record(1, (0, 1, 1, 1, 0), (0, 1, 1, 2, 0))
S = [0x27, 1, 0, 0x25, 0x27, 1, 0, 0x23, 1, 0, 0x22, 1, 0]
E = record(1)


# Request One. A: after boat 1-1, an unread line, its own and another's between two places. B: an unread number first, then an unread
# line and a read one.
A = record(3, (0, 1, 1, 1, 1), (1, 2, 0, 0, 2), (1, 2, 1, 1, 2), (1, 2, 1, 2, 2))
B = record(2, (0, 1, 0, 0, 1), (1, 2, 0, 0, 1), (1, 2, 1, 1, 1))
# A boat kept at kind 1, then a line of kind 2: any, its own, another's, another's of its class, one's of another class.
THEN_ANY = [0x27, 1, 0, 0x21, 2]
THEN_SAME, THEN_OTHER, THEN_SISTER, THEN_FOREIGN = ([0x27, 1, 0, test, 2, 0] for test in TAKES)
# Request Two. C: after boat 2-1, lines of two boats of another class, its own, one of its class and one of a third class. D: after boat
# 1-1, two others of its class and one of another.
C = record(3, (0, 1, 2, 1, 1), (1, 2, 1, 7, 2), (1, 2, 1, 8, 2), (1, 2, 2, 1, 2), (1, 2, 2, 9, 2), (1, 2, 3, 1, 2))
D = record(3, (0, 1, 1, 1, 1), (1, 2, 1, 7, 2), (1, 2, 1, 8, 2), (1, 2, 2, 1, 2))


# Request Three. One place, and a lap of it in one line of kind 3; a course of six such lines, each from a place to the next.
LAP = [0x21, 3]
F = record(1, (0, 3, 1, 1, 0))
G = record(7, *[(i, 3, 1, 1, i + 1) for i in range(6)])


def rounds(lowest, highest, pattern): return [0x2A, lowest, highest] + pattern


def twenties(n, pattern):
    """So many times "twenty times", each in the one before."""
    return [0x2A, 20, 20] * n + pattern


# Request Seven. R with a time for each line, from the first second of the day to the last.
R_TIMES = (0, 1, 5, 36000, 65535, 65536, 86399)
R_TIMED = record(4, *[fields + (time,) for fields, time in zip(R_LINES, R_TIMES)])


def boats_like(kept, other):
    """A boat kept at kind 1; after it an unread line, another boat's, its own."""
    return record(2, (0, 1, *kept, 1), (1, 2, 0, 0, 1), (1, 2, *other, 1), (1, 2, *kept, 1))


# ---- the first shortest chain
# What is still to be read of a word is a list of patterns, each with its slots' boats: a keep's inner pattern has its own, and those of
# the patterns after it stay as they were.


def heads(todo):
    """The lists that begin with a line, a test or keep, or are empty, to which a list comes without reading a line."""
    found, met, left = [], {todo}, [todo]
    while left:
        todo = left.pop()
        if not todo or todo[0][0][0] in (0x21, 0x27, *TAKES):
            found.append(todo)
            continue
        (code, _, inner), slots = todo[0]
        rest = todo[1:]
        after = {0x20: [rest],
                 0x24: [((q, slots),) + rest for q in inner],
                 0x25: [tuple((q, slots) for q in inner) + rest],
                 0x26: [rest] + [((q, slots),) + todo for q in inner],
                 0x2A: rounds_left(todo)}[code]
        for t in after:
            if t not in met:
                met.add(t)
                left.append(t)
    return found


def rounds_left(todo):
    """What a list that begins with a counted pattern comes to: no round, or a first one and then those that are left."""
    ((code, operands, inner), slots), rest = todo[0], todo[1:]
    if code != 0x2A: return []
    lowest, highest = operands
    none = [rest] if lowest == 0 else []
    more = (code, (max(lowest - 1, 0), highest - 1), inner)
    return none + ([((inner[0], slots), (more, slots)) + rest] if highest > 0 else [])


def read_one(todo, kind, boat):
    """What is left after a line of this kind and boat, the list beginning with a command that reads one; or None."""
    ((code, operands, inner), slots), rest = todo[0], todo[1:]
    if operands[0] != kind: return None
    if code in TAKES and not met(code, dict(slots)[operands[1]], boat): return None
    if code == 0x27: return ((inner[0], tuple(sorted({**dict(slots), operands[1]: boat}.items()))),) + rest
    return rest


def frozen(p): return (p[0], tuple(p[1]), tuple(frozen(q) for q in p[2]))


def first_shortest(lines, p, a, b, windows={}):
    """The first shortest accepted chain of lines inside their windows from a to b, or None: chains in order of length, and then of line
    numbers. Of two chains that end at one place with the same left to read, what follows the later one follows the earlier one too."""
    start = (a, frozenset(heads(((frozen(p), ()),))))
    waiting, met = [(start, [])], {start}
    for (place, lists), chain in waiting:
        if place == b and () in lists: return chain
        for i, line in enumerate(lines):
            come, kind, boat, go, _ = line
            if come != place or not inside(line, windows): continue
            after = frozenset(h for t in lists if t for left in [read_one(t, kind, boat)] if left is not None for h in heads(left))
            if after and (go, after) not in met:
                met.add((go, after))
                waiting.append(((go, after), chain + [i]))
    return None


def find(day, pattern, a, b, words, room, windows={}):
    """The finder: the reply as a pair of a word and a number, and the chain."""
    try:
        lines, p = asked(day, pattern, a, b, words, windows)
    except Refused as refused:
        return "refused", refused.args[0], []
    chain = first_shortest(lines, p, a, b, windows)
    if chain is None: return "none", 0, []
    if len(chain) > room: return "refused", 19, chain
    return "found", len(chain), chain
