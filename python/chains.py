"""A sailing day's record, and the first shortest chain of its lines that a pattern accepts: the functions of libchains.so.

A record and a pattern are bytes or a bytearray. A pattern compares a line's boat with one that it has kept: the same (22) or another (23),
and of others those of its class (sister, 28) and those of another class (foreign, 29). Class 0 with sail number 0 says that the number was
not read: all four fail on such a line, and all four fail where the slot holds such a number; line takes it, keep keeps it, and together
they count as one boat. From so many to so many rounds of a pattern (2A) may come in a row; the search goes by the unfolded count, in which
a command counts as often as it may come.

A line may have a time, in seconds since midnight. `find`, `check`, `starts` and Search take windows: a dict with the opening and the closing
second of kinds, such as {4: (0, 54000)}; a kind that is not in it has the whole day, 0 to 86,400. They answer as for the record with only the
lines inside the window of their kind, whose numbers stay. The opening second is inside and the closing one is not; a line without a time is
inside exactly if the window is the whole day. Without windows times have no say.

`starts` asks about many places in one search. A Search is begun, moved on and finished while lines are added to the record; its answer is
that for the record at the beginning.

CHAINS_LIB names the library's file; else it is looked for beside this module, in the folder above and in the repository's target. A
question that was answered no is a Refused, which has its number, its second number (value) and, as its text, a sentence; a number
that a function's type does not hold is an OverflowError, and a window of a kind that is not 1 to 15 a ValueError."""
import ctypes
import os
from array import array
from collections import namedtuple
from pathlib import Path

SENTENCES = (  # by number, from 1
    "the day's record is longer than 57,348 bytes",
    "the day's record must begin with its count of places, 1 to 1,024",
    "the day's record breaks off, or has something in it that is neither a line nor the end",
    "the last line of the day's record is cut short",
    "a line is from or to a place that the day's record does not have",
    "a line's kind is not 1 to 15",
    "the day's record goes on after its end",
    "the pattern breaks off, or has something in it that is not a command",
    "the pattern has more than 63 commands",
    "the pattern breaks off before a command's kind, slot or counts",
    "the pattern has a kind that is not 1 to 15, or a slot that is not 0 to 3",
    "the pattern compares a boat with that of a slot, but no keep around it keeps a boat there",
    "the pattern has more than three keeps inside each other",
    "the pattern goes on after it is complete",
    "a place that is asked about is not in the day's record",
    "the search would be too large: the day has too many places and boats for so long a pattern with so many keeps inside each other",
    "the work area is too small for this day and pattern",
    "a line is named that the day's record does not have",
    "the output is too short: for the chain that there is, or for the lengths asked for",
    "the day's record is said to be longer than its buffer",
    "the sail number is not below 16,777,216",
    "the day's record has more than 4,096 lines, or is full with that many",
    "the buffer has no room for the day's record after this",
    "the pattern has a count of rounds whose lowest is above its highest, or whose highest is above 20",
    "the pattern is too long: with its rounds written out it has more than 63 commands",
    "the work area holds no search, or not one as a begin and its moves left it",
    "a window does not open before it closes, or closes after 86,400, the end of the day",
    "a line's time is not below 86,400, the seconds of a day",
)
DAY = 86400  # the seconds of a day
Boats = namedtuple("Boats", "boats reads")


class Line(namedtuple("Line", "from_ kind class_ sail to")):
    """A line without a time: five fields."""
    __slots__ = ()
    time = None


TimedLine = namedtuple("TimedLine", "from_ kind class_ sail to time")  # a line with a time: six fields


class Refused(Exception):
    def __init__(self, number, value):
        known = 0 < number <= len(SENTENCES)
        super().__init__(SENTENCES[number - 1] if known else f"refused with {number}, which this module does not know")
        self.number, self.value = number, value


def _load():
    here = Path(__file__).resolve().parent
    files = here / "libchains.so", here.parent / "libchains.so", here.parent / "target" / "libchains.so"
    library = ctypes.CDLL(os.environ.get("CHAINS_LIB") or next((str(f) for f in files if f.exists()), "libchains.so"))
    types = {"1": ctypes.c_uint8, "2": ctypes.c_uint16, "4": ctypes.c_uint32, "n": ctypes.c_size_t, "p": ctypes.c_void_p}
    for name, taken in (("version", ""), ("begin", "pn2"), ("add", "pnn21142"), ("add_timed", "pnn211424"), ("read", "pn2pn"),
                        ("pattern", "pnpn"), ("boats", "pnpn"), ("words", "pnpn"), ("check_with", "pnpn22pnpnpn"),
                        ("find_with", "pnpn22pnpnpn"), ("starts_with", "pnpnpn2pnpnpn"), ("search_words", "pnpn"),
                        ("search_begin_with", "pnpn22pnpn"), ("search_move", "pnn"), ("search_finish", "pnpn")):
        function = getattr(library, "chains_" + name)
        function.argtypes, function.restype = [types[letter] for letter in taken], ctypes.c_uint64
    return library


_library = _load()


def _value(reply):
    if reply >> 32:
        raise Refused(reply >> 32, reply & 0xFFFFFFFF)
    return reply


def _u(bits, number):
    if not 0 <= number < 1 << bits:
        raise OverflowError(f"{number} is not 0 to {(1 << bits) - 1}")
    return number


def _slice(given):
    """Bytes or an array as pointer and count; the pointer is not null where there are none."""
    held = memoryview(given)
    return bytes(held), len(held)


def version():
    return _library.chains_version()


def begin(places):
    """A record without lines, as a bytearray."""
    day = (ctypes.c_uint8 * 4)()
    _value(_library.chains_begin(day, 4, _u(16, places)))
    return bytearray(day)


def add(day, from_, kind, class_, sail, to, time=None):
    """Adds a line to a record in a bytearray, which grows by ten bytes, or with a time, in seconds since midnight, by fourteen. Class and sail
    number are 0 where the number was not read."""
    line = _u(16, from_), _u(8, kind), _u(8, class_), _u(32, sail), _u(16, to)
    width, call = (10, _library.chains_add) if time is None else (14, _library.chains_add_timed)
    if time is not None:
        line += (_u(32, time),)
    longer = (ctypes.c_uint8 * (len(day) + width)).from_buffer_copy(day + bytes(width))
    _value(call(longer, len(longer), len(day), *line))
    day[:] = longer


def lines(day):
    """Every line of a record: a TimedLine where it has a time, and else a Line, whose time is None. `add(day, *line)` adds either."""
    given, found, fields = _slice(day), [], (ctypes.c_uint32 * 6)()
    while (reply := _library.chains_read(*given, len(found), fields, 6)) >> 32 != 18:
        found.append(TimedLine(*fields) if _value(reply) == 6 else Line(*fields[:5]))
    return found


def _counts(pattern):
    three = (ctypes.c_uint32 * 3)()
    _value(_library.chains_pattern(*_slice(pattern), three, 3))
    return tuple(three)


def counts(pattern):
    """A pattern's count of commands, as written, and its deepest nesting of keeps."""
    return _counts(pattern)[:2]


def unfolded(pattern):
    """A pattern's unfolded count."""
    return _counts(pattern)[2]


def boats(day):
    """How many different boats a record has, and how many earlier lines are read to tell: for each line those from line 0 on, up to the
    first with the same class and sail number, that one too, or all of them where none has the same."""
    two = (ctypes.c_uint32 * 2)()
    _value(_library.chains_boats(*_slice(day), two, 2))
    return Boats(*two)


def words(day, pattern):
    """The 32-bit words of work area that a request needs."""
    return _value(_library.chains_words(*_slice(day), *_slice(pattern)))


def search_words(day, pattern):
    """The 32-bit words of work area that a Search has: three for each line of the record more than `words` says."""
    return _value(_library.chains_search_words(*_slice(day), *_slice(pattern)))


def _request(day, pattern, *places, words=_library.chains_words):
    """What a request is given, and a work area: of no words where they are refused, since 15 is asked before 16."""
    given = *_slice(day), *_slice(pattern)
    reply = words(*given)
    needed = 0 if reply >> 32 else reply
    return (*given, *places), ((ctypes.c_uint32 * max(1, needed))(), needed)


def _options(windows):
    """Open and close of the kinds 1 to 15 in turn, as pointer and count: the whole day where there is no window."""
    words = (ctypes.c_uint32 * 30)(*(0, DAY) * 15)
    for kind, (open_, close) in dict(windows or {}).items():
        if kind not in range(1, 16):
            raise ValueError(f"a window of kind {kind}, which is not 1 to 15")
        words[2 * kind - 2:2 * kind] = _u(32, open_), _u(32, close)
    return words, len(words)


def _chain(reply, out):
    return None if _value(reply) == 0xFFFFFFFF else out[:reply]


def check(day, pattern, from_, to, chain, *, windows=None):
    """Does the chain, line numbers, lead from the first place to the second, and does the pattern accept it? With windows, is every line of
    it inside too?"""
    asked, area = _request(day, pattern, _u(16, from_), _u(16, to))
    return _value(_library.chains_check_with(*asked, *_slice(array("H", chain)), *_options(windows), *area)) == 1


def find(day, pattern, from_, to, *, windows=None):
    """The line numbers of the first shortest accepted chain, or None."""
    asked, area = _request(day, pattern, _u(16, from_), _u(16, to))
    options, room = _options(windows), 16
    while True:
        out = (ctypes.c_uint16 * room)()
        reply = _library.chains_find_with(*asked, *options, *area, out, room)
        if reply >> 32 != 19:
            return _chain(reply, out)
        room = reply & 0xFFFFFFFF


def starts(day, pattern, places, to, *, windows=None):
    """For each of the places the length of the first shortest accepted chain from it, or None: what `find` finds for each, out of one search.
    A place may come more than once."""
    listed = array("H", iter(places))  # also of bytes each is a place
    asked, area = _request(day, pattern, *_slice(listed), _u(16, to))
    lengths = (ctypes.c_uint32 * max(1, len(listed)))()
    _value(_library.chains_starts_with(*asked, *_options(windows), *area, lengths, len(listed)))
    return [None if length == 0xFFFFFFFF else length for length in lengths[:len(listed)]]


class Search:
    """A search in steps for the chain that `find` finds. It holds what it needs of record, pattern and windows, so lines may be added to the
    record before it is finished."""

    def __init__(self, day, pattern, from_, to, *, windows=None):
        """Begins the search, and searches nothing yet."""
        asked, self._area = _request(day, pattern, _u(16, from_), _u(16, to), words=_library.chains_search_words)
        _value(_library.chains_search_begin_with(*asked, *_options(windows), *self._area))

    def move(self, amount):
        """Takes up so many states, each a place, a spot in the pattern and the boats kept, or all that remain; gives how many. Where these are
        fewer than the amount, the search is at its end."""
        return _value(_library.chains_search_move(*self._area, _u(8 * ctypes.sizeof(ctypes.c_size_t), amount)))

    def finish(self):
        """Takes up all that remains: the line numbers of the first shortest accepted chain of the record at the beginning, or None. The search
        is over then, and a move or a second finish is refused with 26."""
        room = (self._area[1] - 8192) // 4  # the search size at least, and a chain has fewer lines than that
        out = (ctypes.c_uint16 * room)()
        return _chain(_library.chains_search_finish(*self._area, out, room), out)
