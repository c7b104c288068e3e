"""A message with an argument, and one whose plural form the language chooses: python3 c/hello.py PATH/libfluent.so"""
import ctypes
import sys

SOURCE = "hello = Hello, { $name }!\nmails = { $n ->\n    [one] one mail\n   *[other] { $n } mails\n }\n"


class Lengths(ctypes.Structure):
    _fields_ = [("text", ctypes.c_size_t), ("errors", ctypes.c_size_t)]


library = ctypes.CDLL(sys.argv[1])
library.fluent_format_source.restype = ctypes.c_uint8


def sized(text):
    return len(text.encode()).to_bytes(4, "little") + text.encode()


def lent(text):
    text = text if isinstance(text, bytes) else text.encode()
    return text, ctypes.c_size_t(len(text))


def format_source(source, message, attribute="", language="en", isolate=False, **values):
    """The text and the errors. Numbers are shown with the digits that str() gives them."""
    values = b"".join((b"t" if isinstance(v, str) else b"n") + sized(k) + sized(str(v)) for k, v in values.items())
    room, lengths = 256, Lengths()
    while True:
        out, err = ctypes.create_string_buffer(room), ctypes.create_string_buffer(room)
        status = library.fluent_format_source(
            *lent(language), ctypes.c_bool(isolate), *lent(source), *lent(message), *lent(attribute), *lent(values), out,
            ctypes.c_size_t(room), err, ctypes.c_size_t(room), ctypes.byref(lengths))
        if status > 1:
            raise LookupError(message) if status == 8 else ValueError(f"status {status}")
        if status == 0:
            return out.raw[:lengths.text].decode(), err.raw[:lengths.errors].decode().splitlines()
        room = max(lengths.text, lengths.errors)


print(format_source(SOURCE, "hello", name="Ada"))
print(format_source(SOURCE, "hello"))
print(format_source(SOURCE, "mails", n=1), format_source(SOURCE, "mails", n=3))
print(len(format_source(SOURCE, "hello", name="x" * 5000)[0]))
try:
    format_source(SOURCE, "gone")
except LookupError as error:
    print("no message:", error)
