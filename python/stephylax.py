"""Stephylax for Python: places of planets, and the minutes when one stands too near the Sun, from a proved library.

Every call of include/stephylax.h, over the shared library, with nothing but ctypes. A refusal is raised as `Refused`.

A series, a text, a published file or an output is any object that lends its bytes (bytes, bytearray, memoryview, mmap, array ..).
Nothing is copied: an answer that was written is a memoryview of the output. Nobody may change what was lent while a call runs; bytes
cannot be changed, a bytearray that another thread holds can.

An instant is a whole number of milliseconds of TD from 2000-01-01 12h, or a date: (year, month, day) or (year, month, day, ms),
Julian through 1582-10-04 and Gregorian from 1582-10-15, with a year 0; or a datetime.date or datetime.datetime from 1582-10-15
on, without a time zone, which is read as TD. It may be four millennia away on either side; beyond two the series have to be good
for the wide range, which `check` tells. What the library cannot be asked is a ValueError, TypeError or OverflowError;
an output that is read only, or memory that is not contiguous, is a BufferError.

The library is the file that the environment variable STEPHYLAX_LIBRARY names; else libstephylax.so.1 beside this module, in
`target/shared` of its repository, in `lib` of a folder above it (of the prefix that it is installed under), or where the system
looks. The larger calls take up to 410 kB of stack: in a thread with too little of it they raise a RuntimeError.
"""

import ctypes
import datetime
import enum
import operator
import os
import pathlib
import threading
from typing import NamedTuple, Optional

__version__ = "0.2.0"

__all__ = [
    "Answer", "Change", "Checked", "Coordinates", "Date", "Fate", "Mended", "Moment", "Mount", "Place", "PublishedReader", "Refusal",
    "Refused", "Run", "TextReader", "apparent_place", "check", "coordinates_at", "date_of_day", "date_of_instant", "day_of_date",
    "instant_of_date", "mend", "mount_place", "print_text", "read_published", "read_text", "sun_list",
]


class Refusal(enum.IntEnum):
    """The numbers of the refusals, as enum stephylax_refusal has them."""

    NO_SUCH_DATE = 1
    PAST_LIMIT = 2
    BAD_BYTE = 3
    OVER_LIMIT = 4
    TOTAL_OVER_LIMIT = 5
    TOO_COARSE = 6
    NO_ROOM = 7
    ENDED_EARLY = 8
    BYTE_AFTER_END = 9
    NOT_SHORTEST = 10
    NOT_USABLE = 11
    BAD_WINDOW = 12
    BAD_HEADING = 13
    BAD_NUMBER = 14
    TOO_FAR = 17


_WORDS = {
    Refusal.NO_SUCH_DATE: "the date, the time of day or the day number does not exist",
    Refusal.PAST_LIMIT: "the instant is more than four millennia from 2000-01-01 12h TD; the figure is the instant",
    Refusal.BAD_BYTE: "a byte cannot continue its line; the figure is its offset",
    Refusal.OVER_LIMIT: "a number or a count passes its limit; the figure is the offset",
    Refusal.TOTAL_OVER_LIMIT: "the amplitudes of a block total more than 100,000; the figure is the offset",
    Refusal.TOO_COARSE: "the series is too coarse to be summed within 10^-6; the figure is the offset",
    Refusal.NO_ROOM: "the output does not fit; the figure is the length it would need, of a list of changes their number, for a text or a "
    "published file the offset",
    Refusal.ENDED_EARLY: "the input ended too early; the figure is its length",
    Refusal.BYTE_AFTER_END: "a byte follows the series; the figure is its offset",
    Refusal.NOT_SHORTEST: "a packed number is not in its shortest form; the figure is the offset",
    Refusal.NOT_USABLE: "a place is not usable: a body too near, too far, or both too close together; the figure is the minute of a list",
    Refusal.BAD_WINDOW: "the keep-out is outside 60 to 2,700 arcminutes, or the minutes are outside 1 to 1,440",
    Refusal.BAD_HEADING: "a heading is out of order, of no block, or not of version 4 (VSOP87D); the figure is the offset",
    Refusal.BAD_NUMBER: "a running number does not come next; the figure is the offset",
    Refusal.TOO_FAR: "the instant is more than two millennia from 2000-01-01 12h TD, and a series is not good for that; the figure is the "
    "instant, of a list the first such one",
}

_FIELDS = {
    1: "the year does not exist here: years go from -4712 to 9999",
    2: "the month does not exist",
    3: "the month has no such day, or it is one of the skipped days of 1582",
    4: "the time of day does not exist: it goes from 0 to 86,399,999 ms",
    5: "the day number does not exist: they go from 0 to 5,373,484",
}


class Refused(Exception):
    """A call that was refused: `number` (a Refusal), `figure` (what comes with it; None from mount_place), `words`."""

    def __init__(self, number, figure=None):
        self.number = Refusal(number)
        self.figure = figure
        self.words = _FIELDS.get(figure, _WORDS[self.number]) if self.number == Refusal.NO_SUCH_DATE else _WORDS[self.number]
        super().__init__(number, figure)

    def __str__(self):
        shown = "" if self.figure is None else f" ({self.figure})"
        return f"refused {self.number:d}{shown}: {self.words}"


class Date(NamedTuple):
    year: int
    month: int
    day: int

    def date(self):
        """The same day as a datetime.date, which has none before 1582-10-15."""
        _modern(self)
        return datetime.date(*self)


class Moment(NamedTuple):
    year: int
    month: int
    day: int
    ms: int

    def datetime(self):
        """The same moment as a datetime.datetime (of TD), which has none before 1582-10-15."""
        _modern(self)
        return datetime.datetime(*self[:3]) + datetime.timedelta(milliseconds=self.ms)


class Checked(NamedTuple):
    """A good series: how many terms it has, and whether it is good for the wide range, beyond two millennia."""

    terms: int
    wide: bool


class Coordinates(NamedTuple):
    """Longitude and latitude in 10^-11 radian, the longitude with its whole turns; radius in 10^-11 AU."""

    longitude: int
    latitude: int
    radius: int


class Place(NamedTuple):
    """Right ascension and declination in hundredths of an arcsecond, distance in 10^-11 AU. In the frame of the star catalogues (FK5)."""

    right_ascension: int
    declination: int
    distance: int


class Mount(NamedTuple):
    """Right ascension and declination in degrees, distance in AU."""

    right_ascension: float
    declination: float
    distance: float


class Answer(NamedTuple):
    """What stands of a text or a published file in pieces: the bytes that are packed, and whether it has ended and is good."""

    length: int
    accepted: bool


class Fate(enum.IntEnum):
    """What became of a byte of a mended text, as enum stephylax_change has it."""

    DROPPED = 0
    TAB_TO_SPACE = 1


class Change(NamedTuple):
    """A change of a mended text: the offset of the byte in the text as it was, and its Fate."""

    offset: int
    fate: Fate


class Mended(NamedTuple):
    """A clean text, the Changes that made it, in order, and what `read_text` says of it: `packed_length`, that of its packed form, or
    `refused`, the Refused that it raises (its figure is an offset in the clean text, with 8 its length). The other of the two is None."""

    text: memoryview
    changes: list
    packed_length: Optional[int]
    refused: Optional[Refused]


class Run(NamedTuple):
    """The first and the last minute of a run of listed minutes; both are listed."""

    first: int
    last: int


# The library.


def _paths():
    named = os.environ.get("STEPHYLAX_LIBRARY")
    if named:
        return [pathlib.Path(named).absolute()]
    here = pathlib.Path(__file__).resolve().parent
    folders = [here, here.parent / "target" / "shared"] + [above / "lib" for above in here.parents]
    return [folder / "libstephylax.so.1" for folder in folders]


def _load():
    paths = _paths()
    path = next((path for path in paths if path.is_file()), paths[0] if len(paths) == 1 else "libstephylax.so.1")
    try:
        return ctypes.CDLL(str(path))
    except OSError as error:
        raise ImportError(f"the library is not there ({error}): `make` builds it, and STEPHYLAX_LIBRARY may name it") from error


_library = _load()


def _struct(name, *fields):
    return type(name, (ctypes.Structure,), {"_fields_": fields})


def _answer(*names):
    return _struct("Answer", ("refusal", ctypes.c_uint64), ("figure", ctypes.c_int64), *((name, ctypes.c_int64) for name in names))


_I64, _SIZE, _POINTER = ctypes.c_int64, ctypes.c_size_t, ctypes.c_void_p
_SLICE = [_POINTER, _SIZE]
_DAY, _DATE, _INSTANT = _answer("day_number"), _answer("year", "month", "day", "ms"), _answer("t")
_WRITTEN, _CHECKED, _STANDING = _answer("length"), _answer("terms", "wide"), _answer("length", "accepted")
_COORDINATES, _PLACE = _answer("longitude", "latitude", "radius"), _answer("right_ascension", "declination", "distance")
_DOUBLES = ((name, ctypes.c_double) for name in ("right_ascension", "declination", "distance"))
_MENDED = _answer("length", "changes", "verdict", "place")
_MOUNT = _struct("Mount", ("refusal", ctypes.c_uint64), *_DOUBLES)
_TEXT, _PUBLISHED = _struct("Text", ("words", ctypes.c_uint64 * 17)), _struct("Published", ("words", ctypes.c_uint64 * 31))

# Each function: what it answers, what it takes.
_FUNCTIONS = {
    "day_of_date": (_DAY, [_I64, _I64, _I64]),
    "date_of_day": (_DATE, [_I64]),
    "instant_of_date": (_INSTANT, [_I64, _I64, _I64, _I64]),
    "date_of_instant": (_DATE, [_I64]),
    "read_text": (_WRITTEN, _SLICE + _SLICE),
    "text_start": (_TEXT, []),
    "text_piece": (_TEXT, [_TEXT] + _SLICE + _SLICE),
    "text_end": (_TEXT, [_TEXT] + _SLICE),
    "text_answer": (_STANDING, [_TEXT]),
    "mend": (_MENDED, _SLICE + _SLICE + _SLICE),
    "read_published": (_WRITTEN, _SLICE + _SLICE),
    "published_start": (_PUBLISHED, []),
    "published_piece": (_PUBLISHED, [_PUBLISHED] + _SLICE + _SLICE),
    "published_end": (_PUBLISHED, [_PUBLISHED] + _SLICE),
    "published_answer": (_STANDING, [_PUBLISHED]),
    "check": (_CHECKED, _SLICE),
    "print": (_WRITTEN, _SLICE + _SLICE),
    "coordinates_at": (_COORDINATES, _SLICE + [_I64]),
    "apparent_place": (_PLACE, _SLICE + _SLICE + [_I64]),
    "mount_place": (_MOUNT, _SLICE + _SLICE + [_I64]),
    "sun_list": (_WRITTEN, _SLICE + _SLICE + [_I64, _I64, _I64] + _SLICE),
}


def _function(name):
    function = getattr(_library, "stephylax_" + name)
    function.restype, function.argtypes = _FUNCTIONS[name]
    return function


_c = {name: _function(name) for name in _FUNCTIONS}

# Stack. The larger calls take up to 410 kB, and the interpreter needs some itself.

_STACK = 768 * 1024
_threads = threading.local()


def _stack_of_thread():
    """How large this thread's stack is, or None where the system does not tell."""
    libc = ctypes.CDLL(None)
    attributes, size = (ctypes.c_uint64 * 16)(), ctypes.c_size_t()
    try:
        libc.pthread_self.restype = ctypes.c_void_p
        asked = libc.pthread_getattr_np(ctypes.c_void_p(libc.pthread_self()), attributes)
    except AttributeError:
        return None
    if asked != 0:
        return None
    libc.pthread_attr_getstacksize(attributes, ctypes.byref(size))
    libc.pthread_attr_destroy(attributes)
    return size.value


def _need_stack():
    """Once in each thread: a call on a stack that is too small would end the whole process."""
    if getattr(_threads, "stack", None) is None:
        size = _stack_of_thread()
        _threads.stack = size is None or size >= _STACK
    if not _threads.stack:
        raise RuntimeError(f"this thread's stack is too small: call threading.stack_size({_STACK}), or more, before it is started")


# Numbers, dates and lent memory.


def _i64(number):
    """A whole number of 64 bits; ctypes would cut a larger one."""
    number = operator.index(number)
    if not -(2**63) <= number < 2**63:
        raise OverflowError(f"{number} has more than 64 bits")
    return number


def _modern(date):
    if tuple(date[:3]) < (1582, 10, 15):
        raise ValueError("datetime counts days before 1582-10-15 otherwise than the calendar here: use a tuple")


_DATES = "a date is (year, month, day), (year, month, day, ms), a datetime.date or a datetime.datetime"


def _fields(when):
    """Year, month, day and ms, of what was given for a date."""
    if isinstance(when, datetime.date):
        fields, ms = (when.year, when.month, when.day), 0
        if isinstance(when, datetime.datetime):
            if when.tzinfo is not None:
                raise ValueError("a time here is TD, in no time zone: convert it, and take the zone away")
            seconds = (when.hour * 60 + when.minute) * 60 + when.second
            ms, rest = divmod(seconds * 1000000 + when.microsecond, 1000)
            if rest:
                raise ValueError("a time here has whole milliseconds")
        _modern(fields)
        return (*fields, ms)
    if isinstance(when, (str, bytes, bytearray)) or not hasattr(when, "__iter__"):
        raise TypeError(_DATES)
    fields = tuple(when)
    if len(fields) not in (3, 4):
        raise ValueError(_DATES)
    return fields if len(fields) == 4 else (*fields, 0)


def _named(year, month, day, ms=0):
    return (year, month, day, ms)


def _date(given, names):
    """Year, month, day and ms, of a date in one argument or in several, these by name too."""
    if names:
        given = _named(*given, **names)
    return tuple(map(_i64, _fields(given[0] if len(given) == 1 else given)))


def _instant(when):
    """An instant, of a number or a date."""
    if hasattr(when, "__index__"):
        return _i64(when)
    return instant_of_date(when)


class _Buffer(ctypes.Structure):
    """What Python tells of lent memory."""

    _fields_ = [
        ("address", ctypes.c_void_p), ("owner", ctypes.c_void_p), ("length", ctypes.c_ssize_t), ("itemsize", ctypes.c_ssize_t),
        ("readonly", ctypes.c_int), ("ndim", ctypes.c_int), ("format", ctypes.c_char_p), ("shape", ctypes.c_void_p),
        ("strides", ctypes.c_void_p), ("suboffsets", ctypes.c_void_p), ("internal", ctypes.c_void_p),
    ]


_get_buffer = ctypes.pythonapi.PyObject_GetBuffer
_get_buffer.argtypes = [ctypes.py_object, ctypes.POINTER(_Buffer), ctypes.c_int]
_release_buffer = ctypes.pythonapi.PyBuffer_Release
_release_buffer.argtypes = [ctypes.POINTER(_Buffer)]
_release_buffer.restype = None
_WRITABLE = 1

# Stands for memory of length 0, which must have an address too.
_nowhere = ctypes.c_uint64()


class _Lent:
    """Memory lent for a call, while the block runs. The last of the objects are outputs: `outputs` has for each of them how many bytes
    an element has."""

    def __init__(self, *objects, outputs=()):
        self.objects, self.outputs = objects, outputs
        self.inputs = len(objects) - len(outputs)
        self.buffers = []

    def __enter__(self):
        try:
            for i, lent in enumerate(self.objects):
                buffer = _Buffer()
                _get_buffer(lent, ctypes.byref(buffer), _WRITABLE if i >= self.inputs else 0)
                self.buffers.append(buffer)
            return self._slices()
        except BaseException:
            self.__exit__()
            raise

    def __exit__(self, *_):
        while self.buffers:
            _release_buffer(ctypes.byref(self.buffers.pop()))

    def _slices(self):
        """Pointer and length of each."""
        lent = [(buffer.address if buffer.length else ctypes.addressof(_nowhere), buffer.length) for buffer in self.buffers]
        slices = [number for pair in lent for number in pair]
        for i, width in enumerate(self.outputs, self.inputs):
            start, length = lent[i]
            if start % width or length % width:
                raise ValueError(f"the output is not aligned to, or not of whole numbers of, {width} bytes")
            for j, (at, n) in enumerate(lent[:i]):
                if at < start + length and start < at + n:
                    raise ValueError("the output overlaps the input" if j < self.inputs else "the outputs overlap")
            slices[2 * i + 1] = length // width
        return slices


def _taken(answer):
    """The answer, if it is none of a refusal."""
    if answer.refusal:
        raise Refused(answer.refusal, getattr(answer, "figure", None))
    return answer


def _written(output, length):
    return memoryview(output).cast("B")[:length]


# The calls.


def day_of_date(*date, **names):
    """The noon day number of a date, 0 to 5,373,484. Takes (year, month, day), also by these names, a tuple of them, or a
    datetime.date; a time of day is not looked at. Refused: 1."""
    year, month, day, _ = _date(date, names)
    return _taken(_c["day_of_date"](year, month, day)).day_number


def date_of_day(day_number):
    """The Date of a noon day number. Refused: 1."""
    d = _taken(_c["date_of_day"](_i64(day_number)))
    return Date(d.year, d.month, d.day)


def instant_of_date(*date, **names):
    """The instant of a date and the milliseconds since its midnight (0 if left out). Takes what `day_of_date` takes, a fourth
    number, `ms`, or a datetime. Refused: 1, 2."""
    return _taken(_c["instant_of_date"](*_date(date, names))).t


def date_of_instant(t):
    """The Moment of an instant. Refused: 2."""
    d = _taken(_c["date_of_instant"](_i64(t)))
    return Moment(d.year, d.month, d.day, d.ms)


def _read(name, text, packed, more):
    if packed is None:
        packed = bytearray(memoryview(text).nbytes + more)
    with _Lent(text, packed, outputs=(1,)) as slices:
        length = _taken(_c[name](*slices)).length
    return _written(packed, length)


def read_text(text, packed=None):
    """Packs the text of a series, given whole: a memoryview of the packed form. `packed` is the output, else one that is long enough
    is made. Refused: 3 to 9; `packed` then holds the packed form of the lines before."""
    return _read("read_text", text, packed, more=0)


def _mend(text, out, changes):
    with _Lent(text, out, changes, outputs=(1, 8)) as slices:
        return _c["mend"](*slices)


def mend(text, out=None, changes=None):
    """Mends a damaged text: carriage returns, tabs and spaces before a line feed are dropped, and blank lines; other tabs become spaces.
    A Mended, whether the clean text is accepted or not. `out` is the output for the clean text, `changes` one of 64-bit numbers for the
    changes, two for each; else those that are long enough are made. Refused: 7, with the length of the clean text, then with the
    number of changes; both outputs are as they were."""
    if out is None:
        out = bytearray(memoryview(text).nbytes)
    if changes is None:
        # A first call, with no room for a change, tells how many there are.
        asked = _mend(text, out, bytearray())
        changes = (ctypes.c_uint64 * (2 * asked.figure))()
    m = _taken(_mend(text, out, changes))
    numbers = memoryview(changes).cast("B").cast("Q")[: 2 * m.changes].tolist()
    pairs = zip(numbers[::2], numbers[1::2])
    verdict = (None, Refused(m.verdict, m.place)) if m.verdict else (m.place, None)
    return Mended(_written(out, m.length), [Change(offset, Fate(fate)) for offset, fate in pairs], *verdict)


def read_published(file, packed=None):
    """The same for a published VSOP87D file. Refused: 3 to 9, 13, 14."""
    return _read("read_published", file, packed, more=18)


class TextReader:
    """Packs the text of a series that comes in pieces of any lengths, into `packed`. Until `end` nobody else may write there."""

    _start, _piece, _end, _answer = (_c[f"text_{name}"] for name in ("start", "piece", "end", "answer"))

    def __init__(self, packed):
        self._packed = packed
        self._state = self._start()

    def piece(self, text):
        """Takes the next piece: how many bytes are packed so far. Refused: 3 to 7, 9."""
        with _Lent(text, self._packed, outputs=(1,)) as slices:
            self._state = self._piece(self._state, *slices)
        return self.answer().length

    def end(self):
        """Says that the text has ended: a memoryview of the packed form. Refused: 3 to 9."""
        with _Lent(self._packed, outputs=(1,)) as slices:
            self._state = self._end(self._state, *slices)
        return _written(self._packed, self.answer().length)

    def answer(self):
        """What stands. The text is a series only where it is accepted, which it is after `end` alone. Refused: 3 to 9."""
        stands = _taken(self._answer(self._state))
        return Answer(stands.length, stands.accepted == 1)


class PublishedReader(TextReader):
    """The same for a published VSOP87D file; its `end` may write too. Refused: also 13, 14."""

    _start, _piece, _end, _answer = (_c[f"published_{name}"] for name in ("start", "piece", "end", "answer"))


def check(packed):
    """A packed series judged: Checked. Refused: 4, 5, 6, 8, 9, 10.

    Of series stored end to end, with nothing between them, the figure of 9 is the length of the first,
    after which the next begins."""
    _need_stack()
    with _Lent(packed) as slices:
        c = _taken(_c["check"](*slices))
    return Checked(c.terms, c.wide == 1)


def _print(packed, text):
    with _Lent(packed, text, outputs=(1,)) as slices:
        return _c["print"](*slices)


def print_text(packed, text=None):
    """A packed series as plain text: a memoryview of the text. `text` is the output, else one that is as long as it has to be is made.
    Refused: as `check`, then 7."""
    _need_stack()
    if text is None:
        asked = _print(packed, bytearray())
        text = bytearray(asked.figure if asked.refusal == Refusal.NO_ROOM else 0)
    return _written(text, _taken(_print(packed, text)).length)


def coordinates_at(packed, when):
    """The heliocentric Coordinates of a packed series at an instant, in the frame of the theory. Refused: 2, then as `check`, then 17."""
    _need_stack()
    t = _instant(when)
    with _Lent(packed) as slices:
        c = _taken(_c["coordinates_at"](*slices, t))
    return Coordinates(c.longitude, c.latitude, c.radius)


def _place(name, planet, earth, when):
    _need_stack()
    t = _instant(when)
    with _Lent(planet, earth) as slices:
        p = _taken(_c[name](*slices, t))
    return (p.right_ascension, p.declination, p.distance)


def apparent_place(planet, earth, when):
    """The apparent Place of a planet, seen from Earth, in the frame of the star catalogues (FK5); both packed series. Refused: 2, the
    planet's series, Earth's, 17, 11; at the instant that the light left at 2, 17, 11."""
    return Place(*_place("apparent_place", planet, earth, when))


def mount_place(planet, earth, when):
    """The same as a Mount has it. Refused: as `apparent_place`, without a figure."""
    return Mount(*_place("mount_place", planet, earth, when))


def sun_list(planet, earth, start, minutes=1440, keep_out=600, runs=None):
    """The Runs of minutes, counted from `start`, at which a planet stands within `keep_out` arcminutes of the Sun: none is missing, and
    none is listed that is more than two arcminutes farther out. `runs` is an output of 64-bit numbers, else one that is long enough
    is made. In the frame of the theory. Refused: 12, 2, the planet's series, Earth's, 17, 11, 7."""
    _need_stack()
    t0, minutes, keep_out = _instant(start), _i64(minutes), _i64(keep_out)
    if runs is None:
        runs = (ctypes.c_uint64 * 1440)()
    with _Lent(planet, earth, runs, outputs=(8,)) as slices:
        length = _taken(_c["sun_list"](*slices[:4], t0, minutes, keep_out, *slices[4:])).length
    numbers = memoryview(runs).cast("B").cast("Q")[:length].tolist()
    return [Run(*pair) for pair in zip(numbers[::2], numbers[1::2])]
