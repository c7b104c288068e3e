"""Each status: by its cause in the library, and what the package makes of it."""
import ctypes
import os
import subprocess
import tempfile
import unittest

from fluent_rattle import FluentBundle
from fluent_rattle._library import Handle, Lengths, Status, load
from fluent_rattle.bundle import NO_REPORT

from . import LIBRARY, TOP


class Raw:
    """Calls of the library, by their statuses."""

    def __init__(self):
        self.library = load()
        self.handle = Handle()

    def open(self, tag=b"en"):
        return self.library.fluent_open(self.handle, tag, len(tag), False)

    def add(self, source):
        return self.library.fluent_add(self.handle, source, len(source))

    def has(self, message):
        return self.library.fluent_has(self.handle, message, len(message))

    def format(self, message=b"a", name=b"", args=b"", room=64, errors_room=64):
        self.text, self.errors = (ctypes.create_string_buffer(b"\xa5" * 64) for _ in range(2))
        self.lengths = Lengths(99, 99)
        return self.library.fluent_format(self.handle, message, len(message), name, len(name), args, len(args),
                                          self.text, room, self.errors, errors_room, self.lengths)

    def declare(self, name=b"F", over=True):
        return self.library.fluent_declare_function(self.handle, name, len(name), over)

    def ask(self, answers=b"", room=64):
        self.text, self.errors = (ctypes.create_string_buffer(b"\xa5" * 64) for _ in range(2))
        self.lengths = Lengths(99, 99)
        return self.library.fluent_format_asking(self.handle, b"f", 1, b"", 0, b"", 0, answers, len(answers), self.text, room,
                                                 self.errors, 64, self.lengths)

    def close(self):
        self.library.fluent_close(self.handle)


class ByCause(unittest.TestCase):
    def setUp(self):
        self.raw = Raw()
        self.addCleanup(self.raw.close)

    def opened(self):
        self.assertEqual(self.raw.open(), Status.OK)
        self.assertEqual(self.raw.add(b"a = A{ $x }\nonly =\n .b = B\n"), Status.OK)
        return self.raw

    def assert_nothing(self):
        raw = self.raw
        self.assertEqual((raw.lengths.text, raw.lengths.errors), (0, 0))
        self.assertEqual(raw.text.raw[:64] + raw.errors.raw[:64], b"\xa5" * 128)

    def test_the_layout_of_a_bundle(self):
        self.assertFalse(self.raw.handle.is_open)
        self.opened()
        self.assertIs(self.raw.handle.is_open, True)
        self.assertTrue(self.raw.handle.at)
        self.assertEqual(ctypes.sizeof(Handle), 24)
        call = self.raw.library.fluent_sizes
        call.restype = ctypes.c_uint64
        self.assertEqual((call() & 0xFF, call() >> 8 & 0xFF), (ctypes.sizeof(Handle), ctypes.sizeof(Lengths)))
        self.assertEqual(bytes(self.raw.handle)[8], 1)
        self.raw.close()
        self.assertIs(self.raw.handle.is_open, False)

    def test_nothing_is_written_after_a_bundle(self):
        class Fenced(ctypes.Structure):
            _fields_ = [("before", ctypes.c_uint64), ("handle", Handle), ("after", ctypes.c_uint64)]

        fenced = Fenced(before=2**64 - 1, after=2**64 - 1)
        self.raw.handle = fenced.handle
        self.opened()
        self.assertEqual(self.raw.format(), Status.OK)
        self.raw.close()
        self.assertEqual((fenced.before, fenced.after), (2**64 - 1, 2**64 - 1))

    def test_ok(self):
        raw = self.opened()
        self.assertEqual(raw.format(args=b"t\1\0\0\0x\1\0\0\0y"), Status.OK)
        self.assertEqual((raw.lengths.text, raw.lengths.errors, raw.text.raw[:3]), (2, 0, b"Ay\xa5"))

    def test_too_small(self):
        raw = self.opened()
        line = b"Resolver error: Unknown variable: $x\n"
        lengths = (5, len(line))
        self.assertEqual(raw.format(room=4), Status.TOO_SMALL)
        self.assertEqual((raw.lengths.text, raw.lengths.errors), lengths)
        self.assertEqual(raw.text.raw[:64], b"\xa5" * 64)
        self.assertEqual(raw.format(errors_room=len(line) - 1), Status.TOO_SMALL)
        self.assertEqual((raw.lengths.text, raw.lengths.errors), lengths)
        self.assertEqual(raw.errors.raw[:64], b"\xa5" * 64)
        self.assertEqual(raw.format(room=5, errors_room=len(line)), Status.OK)
        self.assertEqual((raw.text.raw[:6], raw.errors.raw[:lengths[1]]), (b"A{$x}\xa5", line))

    def test_not_utf8(self):
        self.assertEqual(self.raw.open(b"\xff"), Status.LANGUAGE_NOT_UTF8)
        raw = self.opened()
        self.assertEqual(raw.add(b"b = \xff"), Status.SOURCE_NOT_UTF8)
        self.assertEqual(raw.has(b"\xff"), Status.ID_NOT_UTF8)
        self.assertEqual(raw.format(b"\xed\xa0\x80"), Status.ID_NOT_UTF8)
        self.assert_nothing()
        self.assertEqual(raw.format(name=b"\xff"), Status.ID_NOT_UTF8)
        for args in (b"t\1\0\0\0\xff\1\0\0\0y", b"t\1\0\0\0x\1\0\0\0\xff"):
            self.assertEqual(raw.format(args=args), Status.ARGUMENTS_NOT_UTF8)
            self.assert_nothing()

    def test_no_language(self):
        for tag in (b"xx", b""):
            self.assertEqual(self.raw.open(tag), Status.NO_LANGUAGE)
            self.assertTrue(self.raw.handle.is_open)
            self.raw.close()

    def test_no_message(self):
        raw = self.opened()
        self.assertEqual(raw.has(b"b"), Status.NO_MESSAGE)
        for message, name in ((b"b", b""), (b"only", b""), (b"a", b"b"), (b"", b"")):
            self.assertEqual(raw.format(message, name), Status.NO_MESSAGE)
            self.assert_nothing()
        self.assertEqual(raw.format(b"only", b"b"), Status.OK)

    def test_arguments_cut(self):
        for args in (b"t", b"t\1\0\0\0x\2\0\0\0y", b"t\xff\xff\xff\xffx", b"?\1\0\0\0x\1\0\0\0y"):
            self.raw = Raw()
            self.assertEqual(self.opened().format(args=args), Status.ARGUMENTS_CUT)
            self.assert_nothing()
            self.raw.close()

    def test_asks(self):
        raw = self.opened()
        self.assertEqual(raw.add(b'f = { F("x") }\n'), Status.OK)
        self.assertEqual(raw.declare(), Status.OK)
        question = b"f\1\0\0\0Ft\0\0\0\0\1\0\0\0x"
        self.assertEqual(raw.ask(), Status.ASKS)
        self.assertEqual((raw.lengths.text, raw.lengths.errors), (len(question), 0))
        self.assertEqual(raw.text.raw[: len(question)], question)
        self.assertEqual(raw.ask(room=len(question) - 1), Status.ASKS)
        self.assertEqual((raw.lengths.text, raw.lengths.errors), (len(question), 0))
        self.assertEqual(raw.text.raw[:64], b"\xa5" * 64)
        answer = b"t" + len(question).to_bytes(4, "little") + question + b"\2\0\0\0xx"
        self.assertEqual(raw.ask(answer), Status.OK)
        self.assertEqual((raw.text.raw[:3], raw.lengths.text), (b"xx\xa5", 2))
        self.assertEqual(raw.ask(answer[:-1]), Status.ARGUMENTS_CUT)

    def test_id_taken(self):
        raw = self.opened()
        for name, status in ((b"a", Status.ID_TAKEN), (b"NUMBER", Status.ID_TAKEN), (b"F", Status.OK), (b"F", Status.ID_TAKEN)):
            self.assertEqual(raw.declare(name, False), status)
        self.assertEqual(raw.declare(b"\xff"), Status.ID_NOT_UTF8)
        self.assertEqual(raw.has(b"a"), Status.OK)
        self.assertEqual(raw.declare(b"a"), Status.OK)
        self.assertEqual(raw.has(b"a"), Status.NO_MESSAGE)

    def test_open_and_closed(self):
        raw = self.raw
        for status in (raw.add(b""), raw.has(b"a"), raw.format(), raw.declare(), raw.ask()):
            self.assertEqual(status, Status.CLOSED_BUNDLE)
        self.assert_nothing()
        self.opened()
        for tag in (b"pl", b"xx", b"\xff"):
            self.assertEqual(raw.open(tag), Status.OPEN_BUNDLE)
        self.assertEqual(raw.has(b"a"), Status.OK)
        raw.close()
        raw.close()
        self.assertEqual(raw.has(b"a"), Status.CLOSED_BUNDLE)


class Stub:
    """A library that answers one status to all calls."""

    def __init__(self, status):
        self.status = status

    def __getattr__(self, _):
        return lambda *_: self.status


class OfThePackage(unittest.TestCase):
    EXCEPTIONS = {Status.NO_MEMORY: MemoryError, Status.CLOSED_BUNDLE: ValueError, Status.BAD_RULES: ValueError,
                  Status.OUT_OF_RANGE: ValueError}
    CALLS = [lambda b: b._open(True), lambda b: b._limit(1), lambda b: b.add_resource(""),
             lambda b: b.message_ids(), lambda b: b.has_message("a"), lambda b: b.has_value("a"),
             lambda b: b.format_value("a")]

    def test_each(self):
        for status in Status:
            if status in (Status.OK, Status.TOO_SMALL, Status.NO_LANGUAGE, Status.NO_MESSAGE, Status.ASKS):
                continue
            bundle = FluentBundle("en")
            bundle._calls.library = Stub(status)
            for call in self.CALLS:
                with self.subTest(status=status), self.assertRaises(self.EXCEPTIONS.get(status, RuntimeError)):
                    call(bundle)


class NoMemory(unittest.TestCase):
    """The library over memory that ends."""

    @classmethod
    def setUpClass(cls):
        folder = tempfile.TemporaryDirectory()
        cls.addClassCleanup(folder.cleanup)
        cls.path = os.path.join(folder.name, "libfluent.so")
        wrapped = [f"-Wl,--wrap={name}" for name in ("malloc", "realloc", "free")]
        whole = ["-Wl,--whole-archive", LIBRARY.with_suffix(".a"), "-Wl,--no-whole-archive"]
        subprocess.run([os.environ.get("CC", "cc"), "-shared", "-fPIC", TOP / "c/blocks.c", *wrapped, *whole,
                        "-o", cls.path], check=True)
        library = ctypes.CDLL(cls.path)
        cls.blocks, cls.taken = ctypes.c_long.in_dll(library, "blocks"), ctypes.c_long.in_dll(library, "taken")

    def in_turn(self, call, check):
        """Makes a call with no block, then with one, .., until it has enough, and gives how often it had not."""
        for turn in range(10_000):
            self.blocks.value = turn
            try:
                answer = call()
            except MemoryError:
                self.blocks.value = -1
                check()
            else:
                self.blocks.value = -1
                return turn, answer
        self.fail("memory never suffices")

    def test_each_call(self):
        nothing = lambda: self.assertEqual(self.taken.value, 0)
        turns, bundle = self.in_turn(lambda: FluentBundle("en", library=self.path), nothing)
        self.assertGreater(turns, 0)
        missing = lambda: self.assertFalse(bundle.has_message("b"))
        turns, _ = self.in_turn(lambda: bundle.add_resource("a = A{ $x }\n"), missing)
        self.assertGreater(turns, 0)
        turns, _ = self.in_turn(lambda: bundle.add_resource("b = { a }{ $n }\n"), missing)
        self.assertGreater(turns, 0)
        there = lambda: self.assertTrue(bundle.has_message("b"))
        turns, answer = self.in_turn(lambda: bundle.format_value("b", {"x": "x", "n": 1}), there)
        self.assertGreater(turns, 0)
        self.assertEqual(answer, ("A\u2068x\u2069\u20681\u2069", []))
        self.assertEqual(self.in_turn(bundle.message_ids, there)[1], ["a", "b"])
        self.assertGreater(self.taken.value, 0)
        bundle.close()
        self.assertEqual(self.taken.value, 0)

    def test_adding_never_fails_after_it_added(self):
        told = []
        for turn in range(10_000):
            with FluentBundle("en", library=self.path) as bundle:
                self.blocks.value = turn
                try:
                    told.append(bundle.add_resource("a = A\n?? Junk\n"))
                except MemoryError:
                    self.blocks.value = -1
                    self.assertEqual((told, bundle.has_message("a")), ([], False))
                    continue
                self.blocks.value = -1
                self.assertTrue(bundle.has_message("a"))
            if told[-1] != [NO_REPORT]:
                break
        self.assertIn([NO_REPORT], told)
        self.assertEqual(told[-1], ["2: unreadable entry at bytes 6..14"])

    def test_a_call_of_a_function(self):
        before = self.taken.value
        bundle = FluentBundle("en", {"F": lambda text: text * 2}, transform=str.upper, library=self.path)
        bundle.add_resource('m = text { F("x") }\n')
        there = lambda: self.assertTrue(bundle.has_message("m"))
        turns, answer = self.in_turn(lambda: bundle.format_value("m"), there)
        self.assertGreater(turns, 0)
        self.assertEqual(answer, ("TEXT \u2068xx\u2069", []))
        kept = self.taken.value
        self.in_turn(lambda: bundle.format_value("m"), there)
        self.assertEqual(self.taken.value, kept)
        bundle.close()
        self.assertEqual(self.taken.value, before)


if __name__ == "__main__":
    unittest.main()
