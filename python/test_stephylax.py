"""Tests of the Python module: the vectors of every call, every refusal, and what Python alone can get wrong.

Run by `python3 -m unittest` in this folder, after `make`."""

import array
import datetime
import mmap
import os
import pathlib
import pickle
import re
import struct
import subprocess
import sys
import tempfile
import threading
import unittest

import stephylax
from stephylax import Refusal, Refused

REPOSITORY = pathlib.Path(__file__).resolve().parent.parent


def published(planet):
    return (REPOSITORY / "data" / "vsop87d" / f"{planet}.txt").read_bytes()


TEXTS = {planet: published(planet) for planet in ("mercury", "venus", "earth")}
SERIES = {planet: bytes(stephylax.read_text(text)) for planet, text in TEXTS.items()}

def laid_out(text):
    """The text of a series as it is published: headings and terms in their columns, with no heading of an empty block."""
    lines, file = iter(text.decode().splitlines()), []
    for block in range(18):
        count = int(next(lines))
        if count:
            file.append(f"{4:18}{block // 6 + 1:24}{block % 6:18}{count:7} TERMS")
        for number in range(1, count + 1):
            a, b, c = next(lines).split()
            file.append(f"{number:10}{a:>87}{b:>14}{c:>20}")
    return "".join(line + "\n" for line in file).encode()


# A byte that outputs hold beforehand.
UNTOUCHED = 0xA5


class Fields:
    """The fields of a vector's line, from left to right."""

    def __init__(self, line):
        self.words = iter(line.split())

    def word(self):
        return next(self.words)

    def number(self):
        return int(self.word())

    def numbers(self, n):
        return tuple(self.number() for _ in range(n))

    def bytes(self):
        word = self.word()
        return b"" if word == "-" else bytes.fromhex(word)

    def repeated(self):
        """N, then N times how often and which bytes."""
        pairs = [(self.number(), self.bytes()) for _ in range(self.number())]
        return b"".join(times * some for times, some in pairs)

    def two_series(self):
        if self.word() == "name":
            return SERIES[self.word()], SERIES["earth"]
        return self.bytes(), self.bytes()

    def done(self):
        return next(self.words, None) is None


def vectors(name):
    for line in (REPOSITORY / "vectors" / name).read_text().splitlines():
        if line and not line.startswith("#"):
            yield line, Fields(line)


def fnv(some):
    h = 0xCBF29CE484222325
    for byte in some:
        h = (h ^ byte) * 0x100000001B3 % 2**64
    return h


def outcome(call, *arguments):
    """The answer, or the refusal's number and figure."""
    try:
        return (0, call(*arguments))
    except Refused as refused:
        return (int(refused.number), refused.figure)


class Vectors(unittest.TestCase):
    """Each line of the vectors of each call."""

    def expected(self, fields, answer):
        number = fields.number()
        return (0, answer(fields)) if number == 0 else (number, fields.number())

    def test_days(self):
        for line, fields in vectors("calendar_days.txt"):
            if fields.word() == "day":
                got = outcome(stephylax.day_of_date, fields.numbers(3))
                self.assertEqual(got, self.expected(fields, Fields.number), line)
            else:
                got = outcome(stephylax.date_of_day, fields.number())
                self.assertEqual(got, self.expected(fields, lambda f: f.numbers(3)), line)
            self.assertTrue(fields.done(), line)

    def test_instants(self):
        for line, fields in vectors("calendar_instants.txt"):
            if fields.word() == "t":
                got = outcome(stephylax.instant_of_date, *fields.numbers(4))
                self.assertEqual(got, self.expected(fields, Fields.number), line)
            else:
                got = outcome(stephylax.date_of_instant, fields.number())
                self.assertEqual(got, self.expected(fields, lambda f: f.numbers(4)), line)
            self.assertTrue(fields.done(), line)

    def text_case(self, line, text, room, wanted, output, read=stephylax.read_text, reader_of=stephylax.TextReader):
        """Whole, and cut into at most about a hundred pieces, with one of length 0 after each."""
        left = output + bytes([UNTOUCHED]) * (room - len(output))
        packed = bytearray([UNTOUCHED]) * room
        got = outcome(read, text, packed)
        self.assertEqual((got[0], len(got[1])) if got[0] == 0 else got, wanted, line)
        self.assertEqual(packed, left, line)
        packed = bytearray([UNTOUCHED]) * room
        reader = reader_of(packed)
        step = max(1 + len(line) % 7, len(text) // 100)
        for at in range(0, len(text), step):
            stands = outcome(reader.piece, memoryview(text)[at : at + step])
            self.assertEqual(outcome(reader.piece, b""), stands, line)
            self.assertTrue(stands[0] != 0 or not reader.answer().accepted, line)
        for _ in range(2):
            got = outcome(reader.end)
            self.assertEqual((got[0], len(got[1])) if got[0] == 0 else got, wanted, line)
        if wanted[0] == 0:
            self.assertEqual(reader.answer(), (wanted[1], True), line)
        self.assertEqual(packed, left, line)

    def published_case(self, line, file, room, wanted, output):
        self.text_case(line, file, room, wanted, output, stephylax.read_published, stephylax.PublishedReader)

    def test_published(self):
        for line, fields in vectors("requests/c11_published.txt"):
            room, file = fields.number(), fields.bytes()
            wanted = self.expected(fields, Fields.number)
            self.published_case(line, file, room, wanted, fields.bytes())
            self.assertTrue(fields.done(), line)

    def test_mending(self):
        cases = 0
        for line, fields in vectors("requests/c17_mend.txt"):
            cases += 1
            text, clean = fields.bytes(), fields.bytes()
            changes = [fields.numbers(2) for _ in range(fields.number())]
            number, figure = fields.numbers(2)
            self.assertTrue(fields.done(), line)
            out, numbers = bytearray([UNTOUCHED]) * (len(clean) + 2), array.array("Q", [UNTOUCHED] * (2 * len(changes) + 3))
            for mended in (stephylax.mend(text), stephylax.mend(text, out, numbers)):
                self.assertEqual((bytes(mended.text), mended.changes), (clean, changes), line)
                self.assertEqual(mended.packed_length, None if number else figure, line)
                self.assertEqual(mended.refused and (mended.refused.number, mended.refused.figure), (number, figure) if number else None)
            self.assertEqual(out, clean + bytes([UNTOUCHED]) * 2, line)
            self.assertEqual(numbers.tolist(), [n for change in changes for n in change] + [UNTOUCHED] * 3, line)
        self.assertEqual(cases, 46)

    def test_mended_planets(self):
        for planet, text in TEXTS.items():
            for damaged in (text, text.replace(b"\n", b"\r\n"), text.replace(b" ", b"\t").replace(b"\n", b" \t\n\n")):
                mended = stephylax.mend(damaged)
                self.assertEqual((mended.text, mended.packed_length, mended.refused), (text, len(SERIES[planet]), None), planet)

    def test_planets_as_published(self):
        for planet, packed in SERIES.items():
            file = laid_out(TEXTS[planet])
            self.assertEqual(stephylax.read_published(file), packed, planet)
            self.published_case(planet, file, len(packed) + 9, (0, len(packed)), packed)

    def test_texts(self):
        for line, fields in vectors("text.txt"):
            kind = fields.word()
            if kind == "name":
                text, room = TEXTS[fields.word()], fields.number()
                wanted = self.expected(fields, Fields.number)
                packed = bytearray([UNTOUCHED]) * room
                outcome(stephylax.read_text, text, packed)
                output = bytes(packed).rstrip(bytes([UNTOUCHED]))
                self.assertEqual(f"{fnv(output):016x}", fields.word(), line)
                self.text_case(line, text, room, wanted, output)
            else:
                take = Fields.repeated if kind == "rule" else Fields.bytes
                room, text = fields.number(), take(fields)
                wanted = self.expected(fields, Fields.number)
                self.text_case(line, text, room, wanted, take(fields))
            self.assertTrue(fields.done(), line)

    def test_packed(self):
        for line, fields in vectors("packed.txt"):
            packed = fields.repeated() if fields.word() == "rule" else fields.bytes()
            got = outcome(stephylax.check, packed)
            self.assertEqual((0, got[1].terms) if got[0] == 0 else got, self.expected(fields, Fields.number), line)
            self.assertTrue(fields.done(), line)

    def test_goodness(self):
        cases = [0, 0]
        for line, fields in vectors("goodness.txt"):
            packed = fields.repeated() if fields.word() == "rule" else fields.bytes()
            wanted = self.expected(fields, lambda f: stephylax.Checked(f.number(), f.number() == 1))
            self.assertEqual(outcome(stephylax.check, packed), wanted, line)
            self.assertTrue(fields.done(), line)
            if wanted[0] == 0:
                cases[wanted[1].wide] += 1
        self.assertEqual(cases, [108, 135])

    def test_print(self):
        for line, fields in vectors("print.txt"):
            named = fields.word() == "name"
            packed = SERIES[fields.word()] if named else None
            room = fields.number()
            packed = packed or fields.bytes()
            text = bytearray([UNTOUCHED]) * room
            got = outcome(stephylax.print_text, packed, text)
            wanted = self.expected(fields, Fields.number)
            self.assertEqual((got[0], len(got[1])) if got[0] == 0 else got, wanted, line)
            length = wanted[1] if wanted[0] == 0 else 0
            if wanted[0] == 0:
                written = bytes(got[1])
                self.assertEqual(written, text[:length], line)
                self.assertEqual(f"{fnv(written):016x}" if named else written.hex(), fields.word(), line)
                self.assertEqual(stephylax.print_text(packed), written, line)
            self.assertEqual(text[length:], bytes([UNTOUCHED]) * (room - length), line)
            self.assertTrue(fields.done(), line)

    def test_coordinates(self):
        for line, fields in vectors("lbr.txt"):
            packed = SERIES[fields.word()] if fields.word() == "name" else fields.bytes()
            got = outcome(stephylax.coordinates_at, packed, fields.number())
            self.assertEqual(got, self.expected(fields, lambda f: f.numbers(3)), line)
            self.assertTrue(fields.done(), line)

    def test_places(self):
        for line, fields in vectors("place.txt"):
            if line.startswith("light"):
                continue
            planet, earth = fields.two_series()
            t = fields.number()
            wanted = self.expected(fields, lambda f: f.numbers(14)[-3:])
            self.assertEqual(outcome(stephylax.apparent_place, planet, earth, t), wanted, line)
            mount = outcome(stephylax.mount_place, planet, earth, t)
            if wanted[0] == 0:
                bits = [struct.pack(">d", value).hex() for value in mount[1]]
                self.assertEqual(bits, [fields.word() for _ in range(3)], line)
            else:
                self.assertEqual(mount, (wanted[0], None), line)
            self.assertTrue(fields.done(), line)

    def test_sun_lists(self):
        untouched = int.from_bytes(bytes([UNTOUCHED]) * 8, "little")
        for line, fields in vectors("sunlist.txt"):
            planet, earth = fields.two_series()
            window, room = fields.numbers(3), fields.number()
            runs = array.array("Q", [untouched] * room)
            got = outcome(stephylax.sun_list, planet, earth, *window, runs)
            wanted = self.expected(fields, lambda f: list(f.numbers(f.number())))
            flat = (0, [minute for run in got[1] for minute in run]) if got[0] == 0 else got
            self.assertEqual(flat, wanted, line)
            count = len(flat[1]) if got[0] == 0 else 0
            self.assertEqual(runs[count:].tolist(), [untouched] * (room - count), line)
            self.assertTrue(fields.done(), line)


class Refusals(unittest.TestCase):
    """Each number, with its figure and its words."""

    def refused(self, number, figure, call, *arguments):
        with self.assertRaises(Refused) as raised:
            call(*arguments)
        refused = raised.exception
        self.assertIs(refused.number, number)
        self.assertEqual(refused.figure, figure)
        self.assertIn(refused.words, str(refused))
        self.assertTrue(str(refused).startswith(f"refused {int(number)} ({figure}): "), str(refused))
        again = pickle.loads(pickle.dumps(refused))
        self.assertEqual((again.number, again.figure, again.words), (number, figure, refused.words))

    def text(self, *lines, blocks=17):
        """The lines, then empty blocks."""
        return b"".join(line + b"\n" for line in lines) + b"0\n" * blocks

    def test_each(self):
        term = b"0.00000000000 0.00000000000"
        read = stephylax.read_text
        self.refused(Refusal.NO_SUCH_DATE, 1, stephylax.day_of_date, 10000, 1, 1)
        self.refused(Refusal.NO_SUCH_DATE, 2, stephylax.day_of_date, 2000, 13, 1)
        self.refused(Refusal.NO_SUCH_DATE, 3, stephylax.day_of_date, 1582, 10, 10)
        self.refused(Refusal.NO_SUCH_DATE, 4, stephylax.instant_of_date, 2000, 1, 1, 86400000)
        self.refused(Refusal.NO_SUCH_DATE, 5, stephylax.date_of_day, -1)
        self.refused(Refusal.PAST_LIMIT, 2**63 - 1, stephylax.date_of_instant, 2**63 - 1)
        self.refused(Refusal.BAD_BYTE, 1, read, b"0x\n")
        self.refused(Refusal.OVER_LIMIT, 4, read, b"4097\n")
        half = b"60000.00000000000 " + term
        self.refused(Refusal.TOTAL_OVER_LIMIT, 2 + 2 * len(half) + 1, read, self.text(b"2", half, half))
        moving = b"99999.00000000000 1.00000000000 1.00000000000"
        self.refused(Refusal.TOO_COARSE, 2 + len(moving), read, self.text(b"1", moving))
        self.refused(Refusal.NO_ROOM, 1, read, b"0\n" * 18, bytearray(0))
        self.refused(Refusal.NO_ROOM, 36, stephylax.print_text, bytes(18), bytearray(35))
        self.refused(Refusal.NO_ROOM, 2, stephylax.mend, b"0\r\n", bytearray(1))
        self.refused(Refusal.NO_ROOM, 3, stephylax.mend, b"0\t\r \n", bytearray(2), array.array("Q", [0] * 5))
        self.refused(Refusal.ENDED_EARLY, 34, read, b"0\n" * 17)
        self.refused(Refusal.BYTE_AFTER_END, 36, read, b"0\n" * 19)
        self.refused(Refusal.NOT_SHORTEST, 1, stephylax.check, b"\x80\x00")
        wide, narrow = (bytes(read(self.text(b"1", a + term))) for a in (b"50000.00000000000 ", b"50000.00000000001 "))
        self.assertEqual((stephylax.check(wide), stephylax.check(narrow)), ((1, True), (1, False)))
        for t in (63115200000001, -126230400000000):
            self.assertEqual(stephylax.coordinates_at(wide, t), (50000 * 10**11, 0, 0))
            self.refused(Refusal.TOO_FAR, t, stephylax.coordinates_at, narrow, t)
        earth = SERIES["earth"]
        self.refused(Refusal.TOO_FAR, 63115200060000, stephylax.sun_list, narrow, earth, 63115200000000, 5)
        self.refused(Refusal.NOT_USABLE, 0, stephylax.sun_list, earth, earth, 0)
        self.refused(Refusal.BAD_WINDOW, 0, stephylax.sun_list, earth, earth, 0, 1441)
        file = laid_out(self.text(b"1", b"1.00000000000 " + term))
        self.refused(Refusal.BAD_HEADING, file.index(b"\n"), stephylax.read_published, file.replace(b"4", b"3", 1))
        self.refused(Refusal.BAD_NUMBER, len(file) - 1, stephylax.read_published, file.replace(b"\n         1", b"\n         2", 1))
        self.refused(Refusal.ENDED_EARLY, len(file) - 1, stephylax.read_published, file[:-1])
        self.refused(Refusal.NO_ROOM, 0, stephylax.read_published, b"", bytearray(17))
        self.assertEqual(stephylax.read_published(b""), bytes(18))

    def test_names(self):
        """The header has the same names and numbers."""
        header = (REPOSITORY / "include" / "stephylax.h").read_text()
        body = re.search(r"enum stephylax_refusal \{(.*?)\};", header, re.DOTALL).group(1)
        named = {name: int(number) for name, number in re.findall(r"STEPHYLAX_(\w+) = (\d+)", body)}
        self.assertEqual(named.pop("ANSWERED"), 0)
        self.assertEqual(named, {refusal.name: refusal.value for refusal in Refusal})
        body = re.search(r"enum stephylax_change \{(.*?)\};", header, re.DOTALL).group(1)
        named = {name: int(number) for name, number in re.findall(r"STEPHYLAX_(\w+) = (\d+)", body)}
        self.assertEqual(named, {fate.name: fate.value for fate in stephylax.Fate})

    def test_mount(self):
        with self.assertRaises(Refused) as raised:
            stephylax.mount_place(b"", b"", 0)
        self.assertEqual((raised.exception.number, raised.exception.figure), (Refusal.ENDED_EARLY, None))
        self.assertTrue(str(raised.exception).startswith("refused 8: "))

    def test_text_before(self):
        """A refusal leaves the packed form of the lines before it."""
        packed = bytearray(b"??????")
        with self.assertRaises(Refused):
            stephylax.read_text(b"0\n0\nx", packed)
        self.assertEqual(packed, b"\0\0????")


class Dates(unittest.TestCase):
    def test_forms(self):
        wanted = stephylax.day_of_date(2019, 11, 11)
        for form in ((2019, 11, 11), [2019, 11, 11], datetime.date(2019, 11, 11), datetime.datetime(2019, 11, 11, 5, 7)):
            self.assertEqual(stephylax.day_of_date(form), wanted)
        t = stephylax.instant_of_date(2019, 11, 11, 18420250)
        self.assertEqual(stephylax.instant_of_date(datetime.datetime(2019, 11, 11, 5, 7, 0, 250000)), t)
        self.assertEqual(stephylax.instant_of_date(2019, 11, 11), stephylax.instant_of_date((2019, 11, 11, 0)))
        self.assertEqual(stephylax.date_of_instant(t).datetime(), datetime.datetime(2019, 11, 11, 5, 7, 0, 250000))
        self.assertEqual(stephylax.date_of_day(wanted).date(), datetime.date(2019, 11, 11))
        earth = SERIES["earth"]
        self.assertEqual(stephylax.coordinates_at(earth, (2019, 11, 11, 18420250)), stephylax.coordinates_at(earth, t))

    def test_refused_forms(self):
        """What would be read as another day or another time."""
        with self.assertRaises(ValueError):
            stephylax.day_of_date(datetime.date(1582, 10, 14))
        self.assertEqual(stephylax.day_of_date(datetime.date(1582, 10, 15)), 2299161)
        with self.assertRaises(ValueError):
            stephylax.date_of_day(2299160).date()
        with self.assertRaises(ValueError):
            stephylax.date_of_instant(stephylax.instant_of_date(1500, 2, 29)).datetime()
        with self.assertRaises(ValueError):
            stephylax.instant_of_date(datetime.datetime(2019, 11, 11, tzinfo=datetime.timezone.utc))
        with self.assertRaises(ValueError):
            stephylax.instant_of_date(datetime.datetime(2019, 11, 11, microsecond=1))
        for wrong in ((), (2019, 11), (2019, 11, 11, 0, 0), ((2019, 11),)):
            with self.assertRaisesRegex(ValueError, "^a date is "):
                stephylax.instant_of_date(*wrong)
        for wrong in (2019, 0.5, None, "2019-11-11", "123", b"123", bytearray(b"123")):
            for call in (stephylax.day_of_date, stephylax.instant_of_date):
                with self.assertRaisesRegex(TypeError, "^a date is "):
                    call(wrong)
        for wrong in (0.5, None, "now"):
            with self.assertRaisesRegex(TypeError, "^a date is "):
                stephylax.coordinates_at(SERIES["earth"], wrong)

    def test_names(self):
        """The fields of a date by name."""
        self.assertEqual(stephylax.day_of_date(year=2000, month=1, day=1), 2451545)
        self.assertEqual(stephylax.day_of_date(2000, 1, day=1), 2451545)
        self.assertEqual(stephylax.instant_of_date(2000, 1, 1, ms=43200001), 1)
        for wrong in ({"year": 2000}, {"year": 2000, "month": 1, "day": 1, "hour": 1}):
            with self.assertRaises(TypeError):
                stephylax.day_of_date(**wrong)

    def test_numbers(self):
        """A number of more than 64 bits is not cut, and one that is not whole is not rounded."""
        for n in (2**63, -(2**63) - 1, 2**64 + 2451545):
            with self.assertRaises(OverflowError):
                stephylax.date_of_day(n)
            with self.assertRaises(OverflowError):
                stephylax.day_of_date(2000, 1, n)
            with self.assertRaises(OverflowError):
                stephylax.sun_list(SERIES["venus"], SERIES["earth"], 0, n)
        with self.assertRaises(TypeError):
            stephylax.date_of_day(2451545.0)
        with self.assertRaises(TypeError):
            stephylax.coordinates_at(SERIES["earth"], 0.5)


class Memory(unittest.TestCase):
    def test_lenders(self):
        """Every object that lends bytes does, and is free again after the call."""
        earth = SERIES["earth"]
        lent = bytearray(b"??" + earth)
        with mmap.mmap(-1, len(earth)) as mapped:
            mapped[:] = earth
            for packed in (earth, bytearray(earth), memoryview(lent)[2:], mapped, array.array("B", earth), memoryview(earth).toreadonly()):
                self.assertEqual(stephylax.check(packed), (2425, True))
        lent.extend(b"!")
        with self.assertRaises(TypeError):
            stephylax.check("0")
        with self.assertRaises(BufferError):
            stephylax.check(memoryview(bytes(36))[::2])

    def test_nothing(self):
        """Length 0 is an input and an output like others."""
        for nothing in (b"", bytearray(), memoryview(b""), array.array("B")):
            self.assertEqual(outcome(stephylax.check, nothing), (8, 0))
            self.assertEqual(outcome(stephylax.read_text, nothing), (8, 0))
            self.assertEqual(outcome(stephylax.sun_list, nothing, nothing, 0, 1, 60, array.array("Q")), (8, 0))
            mended = stephylax.mend(nothing, bytearray(), array.array("Q"))
            self.assertEqual((len(mended.text), mended.changes, mended.refused.number), (0, [], Refusal.ENDED_EARLY))
        self.assertEqual(outcome(stephylax.read_text, b"0\n", bytearray()), (7, 1))
        self.assertEqual(outcome(stephylax.print_text, bytes(18), bytearray()), (7, 36))

    def test_outputs(self):
        """An output that is read only, overlaps the input or is out of step is not written."""
        with self.assertRaises(BufferError):
            stephylax.read_text(b"0\n", bytes(4))
        shared = bytearray(b"0\n" * 18)
        view = memoryview(shared)
        for text, packed in ((shared, shared), (view[:20], view[19:]), (view[8:], view[:9])):
            with self.assertRaises(ValueError):
                stephylax.read_text(text, packed)
        self.assertEqual(shared, b"0\n" * 18)
        self.assertEqual(outcome(stephylax.read_text, view[:20], view[20:]), (8, 20))
        numbers = memoryview(bytearray(80))
        for runs in (numbers[1:73], numbers[:79]):
            with self.assertRaisesRegex(ValueError, "not aligned to, or not of whole numbers of, 8 bytes"):
                stephylax.sun_list(SERIES["venus"], SERIES["earth"], 0, 1, 60, runs)
        both = memoryview(bytearray(96))
        for text, out, changes, said in (
            (b"0", both[:40], both[32:64], "the outputs overlap"),
            (b"0", both[40:], both[:48], "the outputs overlap"),
            (both[:9], both[8:32], both[32:], "the output overlaps the input"),
            (both[:9], both[16:32], both[8:16], "the output overlaps the input"),
            (b"0", both[:8], both[9:49], "not aligned to"),
        ):
            with self.assertRaisesRegex(ValueError, said):
                stephylax.mend(text, out, changes)
        for out, changes in ((bytes(9), bytearray(16)), (bytearray(9), bytes(16))):
            with self.assertRaises(BufferError):
                stephylax.mend(b"0", out, changes)
        self.assertEqual(both, bytes(96))

    def test_refused_mending(self):
        """Both outputs stay as they were."""
        for room, numbers in ((1, 8), (0, 0), (2, 3)):
            out, changes = bytearray(b"?" * room), array.array("Q", [9] * numbers)
            with self.assertRaises(Refused):
                stephylax.mend(b"0\r\r\n", out, changes)
            self.assertEqual((out, changes.tolist()), (b"?" * room, [9] * numbers))

    def test_not_copied(self):
        """What is answered is the output itself."""
        packed = bytearray(100)
        view = stephylax.read_text(b"0\n" * 18, packed)
        packed[3] = 77
        self.assertEqual((len(view), view[3]), (18, 77))

    def test_round_trip(self):
        for planet, packed in SERIES.items():
            self.assertEqual(stephylax.read_text(stephylax.print_text(packed)), packed, planet)


class Threads(unittest.TestCase):
    def run_with(self, stack, call):
        got = []

        def run():
            try:
                got.append(call())
            except RuntimeError as error:
                got.append(error)

        before = threading.stack_size(stack)
        try:
            thread = threading.Thread(target=run)
            thread.start()
        finally:
            threading.stack_size(before)
        thread.join()
        return got[0]

    def test_small_stack(self):
        """A thread whose stack is too small is told, and the process lives on; small calls answer there too."""
        venus, earth = SERIES["venus"], SERIES["earth"]
        calls = (
            lambda: stephylax.check(venus),
            lambda: stephylax.print_text(venus),
            lambda: stephylax.coordinates_at(venus, 0),
            lambda: stephylax.apparent_place(venus, earth, 0),
            lambda: stephylax.mount_place(venus, earth, 0),
            lambda: stephylax.sun_list(venus, earth, 0, 1),
        )
        # The small stacks come first: the C library may give a thread a larger one that another has left.
        for call in calls:
            self.assertIsInstance(self.run_with(256 * 1024, call), RuntimeError)
        for call in calls:
            self.assertEqual(self.run_with(768 * 1024, call), call())
        self.assertEqual(self.run_with(256 * 1024, lambda: stephylax.day_of_date(2000, 1, 1)), 2451545)
        self.assertEqual(self.run_with(256 * 1024, lambda: stephylax.read_text(TEXTS["venus"])), venus)
        self.assertEqual(self.run_with(256 * 1024, lambda: stephylax.mend(TEXTS["venus"])).text, TEXTS["venus"])

    def test_at_once(self):
        venus, earth = SERIES["venus"], SERIES["earth"]
        starts = [day * 86400000 for day in range(6)]
        got = {}
        threads = [threading.Thread(target=lambda t=t: got.update({t: stephylax.sun_list(venus, earth, t, 60)})) for t in starts]
        for thread in threads:
            thread.start()
        for thread in threads:
            thread.join()
        self.assertEqual(got, {t: stephylax.sun_list(venus, earth, t, 60) for t in starts})


class Finding(unittest.TestCase):
    def python(self, program, **environment):
        command = [sys.executable, "-c", program]
        given = dict(os.environ, PYTHONPATH=str(pathlib.Path(__file__).parent), PYTHONDONTWRITEBYTECODE="1", **environment)
        return subprocess.run(command, env=given, capture_output=True, text=True, cwd="/")

    def test_named(self):
        library = stephylax._library._name
        run = self.python("import stephylax; print(stephylax._library._name)", STEPHYLAX_LIBRARY=library)
        self.assertEqual(run.stdout.strip(), library, run.stderr)

    def test_version(self):
        """The module has the version of the whole."""
        package = (REPOSITORY / "host" / "Cargo.toml").read_text()
        self.assertEqual(stephylax.__version__, re.search(r'^version = "(.*)"$', package, re.MULTILINE).group(1))

    def test_missing(self):
        run = self.python("import stephylax", STEPHYLAX_LIBRARY="/nowhere/libstephylax.so.1")
        self.assertEqual(run.returncode, 1)
        self.assertIn("ImportError: the library is not there (/nowhere/libstephylax.so.1", run.stderr)

    def test_readme(self):
        """The README's program runs, and prints what those in C and Rust do."""
        program = re.search(r"```python\n(.*?)```", (REPOSITORY / "README.md").read_text(), re.DOTALL).group(1)
        given = dict(os.environ, PYTHONPATH=str(pathlib.Path(__file__).parent))
        run = subprocess.run([sys.executable, "-B", "-c", program], env=given, capture_output=True, text=True, cwd=REPOSITORY)
        self.assertEqual(run.stdout, "shut from minute 296 to 1439\n", run.stderr)

    def test_example(self):
        example = pathlib.Path(__file__).parent / "example.py"
        run = subprocess.run([sys.executable, str(example), "2019-11-11", "60"], capture_output=True, text=True, cwd=REPOSITORY)
        self.assertEqual(run.stdout, "mercury  shut from 04:56 to 23:59\nvenus    open all day\n", run.stderr)
        run = subprocess.run([sys.executable, str(example), "1582-10-10"], capture_output=True, text=True, cwd=REPOSITORY)
        self.assertEqual(run.returncode, 1)
        self.assertTrue(run.stderr.startswith("refused 1 (3): "), run.stderr)

    def test_example_elsewhere(self):
        """Where the series are not found the example says so; with their folder it runs, for the day of UTC if none is given."""
        text = (pathlib.Path(__file__).parent / "example.py").read_text()
        data = str(REPOSITORY / "data" / "vsop87d")
        with tempfile.TemporaryDirectory() as folder:
            example = pathlib.Path(folder, "deep", "example.py")
            example.parent.mkdir()
            example.write_text(text)
            given = dict(os.environ, PYTHONPATH=str(pathlib.Path(__file__).parent), TZ="XXX-24")
            run = [sys.executable, "-B", str(example), "2019-11-11", "60"]
            lost = subprocess.run(run, env=given, capture_output=True, text=True, cwd="/")
            self.assertEqual((lost.returncode, lost.stdout), (1, ""))
            self.assertRegex(lost.stderr, "^the series are not in .*: give their folder as the third word\n$")
            found = subprocess.run([*run, data], env=given, capture_output=True, text=True, cwd="/")
            self.assertEqual(found.stdout, "mercury  shut from 04:56 to 23:59\nvenus    open all day\n", found.stderr)
            for planet, series in TEXTS.items():
                pathlib.Path(folder, f"VSOP87D.{planet[:3]}").write_bytes(laid_out(series))
            found = subprocess.run([*run, folder], env=given, capture_output=True, text=True, cwd="/")
            self.assertEqual(found.stdout, "mercury  shut from 04:56 to 23:59\nvenus    open all day\n", found.stderr)
            program = f"import sys; sys.path.insert(0, {str(example.parent)!r}); import example; print(example.today())"
            before = datetime.datetime.now(datetime.timezone.utc).date()
            day = subprocess.run([sys.executable, "-B", "-c", program], env=given, capture_output=True, text=True, cwd="/")
            after = datetime.datetime.now(datetime.timezone.utc).date()
            self.assertIn(day.stdout.strip(), (str(before), str(after)), day.stderr)


if __name__ == "__main__":
    unittest.main()
