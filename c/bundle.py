"""A bundle that is kept: python3 c/bundle.py PATH/libfluent.so"""
import ctypes
import sys


class Lengths(ctypes.Structure):
    _fields_ = [("text", ctypes.c_size_t), ("errors", ctypes.c_size_t)]


class Handle(ctypes.Structure):
    _fields_ = [("at", ctypes.c_void_p), ("is_open", ctypes.c_bool), ("asks", ctypes.c_void_p)]


library = ctypes.CDLL(sys.argv[1])


def sized(text):
    return len(text.encode()).to_bytes(4, "little") + text.encode()


def lent(text):
    text = text if isinstance(text, bytes) else text.encode()
    return text, ctypes.c_size_t(len(text))


class Bundle:
    def __init__(self, language, isolate=True):
        self.handle = Handle()
        self.call(library.fluent_open, *lent(language), ctypes.c_bool(isolate))

    def call(self, function, *arguments):
        function.restype = ctypes.c_uint8
        status = function(ctypes.byref(self.handle), *arguments)
        if status > 1:
            raise ValueError(f"status {status}")
        return status

    def add(self, source):
        self.call(library.fluent_add, *lent(source))

    def format(self, message, attribute="", **values):
        """The text and the errors. Numbers are shown with the digits that str() gives them."""
        values = b"".join((b"t" if isinstance(v, str) else b"n") + sized(k) + sized(str(v)) for k, v in values.items())
        room, lengths = 64, Lengths()
        while True:
            out, err = ctypes.create_string_buffer(room), ctypes.create_string_buffer(room)
            status = self.call(library.fluent_format, *lent(message), *lent(attribute), *lent(values), out,
                               ctypes.c_size_t(room), err, ctypes.c_size_t(room), ctypes.byref(lengths))
            if status == 0:
                return out.raw[:lengths.text].decode(), err.raw[:lengths.errors].decode().splitlines()
            room = max(lengths.text, lengths.errors)

    def close(self):
        library.fluent_close(ctypes.byref(self.handle))


bundle = Bundle("pl", isolate=False)
bundle.add("files = { $n ->\n    [one] plik\n    [few] { $n } pliki\n   *[many] { $n } plików\n }\n    .title = Pliki\n")
bundle.add("hello = Hej, { $name }!\nfiles = again\n")
for n in 1, 2, 5, 22:
    print(bundle.format("files", n=n))
print(bundle.format("files", "title"), bundle.format("hello"), len(bundle.format("hello", name="x" * 5000)[0]))
try:
    bundle.format("gone")
except ValueError as error:
    print(error)
bundle.close()
bundle.close()
try:
    bundle.format("hello")
except ValueError as error:
    print(error)
