"""libfluent as ctypes sees it: what c/fluent.h declares."""
import ctypes
import enum
import functools
import os
from typing import Any, Dict, List, Union


# The version of the package, which the library has too.
VERSION = "0.2.0"


class Status(enum.IntEnum):
    """What a call answers."""

    OK = 0
    TOO_SMALL = 1
    NO_MEMORY = 2
    SOURCE_NOT_UTF8 = 3
    LANGUAGE_NOT_UTF8 = 4
    NO_LANGUAGE = 5
    BAD_RULES = 6
    ID_NOT_UTF8 = 7
    NO_MESSAGE = 8
    ARGUMENTS_CUT = 9
    ARGUMENTS_NOT_UTF8 = 10
    CLOSED_BUNDLE = 11
    OPEN_BUNDLE = 12
    OUT_OF_RANGE = 13
    ASKS = 14
    ID_TAKEN = 15
    FUNCTION_FAILED = 16


class Lengths(ctypes.Structure):
    """How many bytes a text and the lines of its errors have."""

    _fields_ = [("text", ctypes.c_size_t), ("errors", ctypes.c_size_t)]


class Checked(ctypes.Structure):
    """What a check tells beside its text: how many bytes that has, errors and warnings, and whether nothing shows an error."""

    _fields_ = [("text", ctypes.c_size_t), ("errors", ctypes.c_size_t), ("warnings", ctypes.c_size_t), ("is_clean", ctypes.c_bool)]


class Handle(ctypes.Structure):
    """A bundle of the library. As it is made, it is closed."""

    _fields_ = [("at", ctypes.c_void_p), ("is_open", ctypes.c_bool), ("asks", ctypes.c_void_p)]


_BUNDLE = ctypes.POINTER(Handle)
_TEXT = [ctypes.c_char_p, ctypes.c_size_t]
_ROOM = [ctypes.c_void_p, ctypes.c_size_t]
_LENGTH = ctypes.POINTER(ctypes.c_size_t)
_WRITTEN = [*_ROOM, *_ROOM, ctypes.POINTER(Lengths)]


# What each call takes. All but fluent_close answer a status.
SIGNATURES: Dict[str, List[Any]] = {
    "fluent_open": [_BUNDLE, *_TEXT, ctypes.c_bool],
    "fluent_open_rules": [_BUNDLE, *_TEXT, *_TEXT, ctypes.c_bool],
    "fluent_set_limit": [_BUNDLE, ctypes.c_size_t],
    "fluent_add": [_BUNDLE, *_TEXT],
    "fluent_add_overriding": [_BUNDLE, *_TEXT],
    "fluent_report": [_BUNDLE, *_ROOM, _LENGTH],
    "fluent_ids": [_BUNDLE, *_ROOM, _LENGTH],
    "fluent_attributes": [_BUNDLE, *_TEXT, *_ROOM, _LENGTH],
    "fluent_variables": [_BUNDLE, *_TEXT, *_TEXT, *_ROOM, _LENGTH],
    "fluent_has": [_BUNDLE, *_TEXT],
    "fluent_find": [_BUNDLE, *_TEXT, *_TEXT],
    "fluent_declare_function": [_BUNDLE, *_TEXT, ctypes.c_bool],
    "fluent_declare_formatter": [_BUNDLE, ctypes.c_bool],
    "fluent_declare_transform": [_BUNDLE, ctypes.c_bool],
    "fluent_format": [_BUNDLE, *_TEXT, *_TEXT, *_TEXT, *_WRITTEN],
    "fluent_format_asking": [_BUNDLE, *_TEXT, *_TEXT, *_TEXT, *_TEXT, *_WRITTEN],
    "fluent_find_chain": [_BUNDLE, ctypes.c_size_t, *_TEXT, *_TEXT, _LENGTH],
    "fluent_check": [*_TEXT, *_TEXT, *_TEXT, *_TEXT, *_TEXT, ctypes.c_bool, *_ROOM, ctypes.POINTER(Checked)],
    "fluent_close": [_BUNDLE],
}


def path_of(given: Union[str, "os.PathLike[str]", None] = None) -> str:
    """Where the library is: as given, else by FLUENT_LIBRARY, else in the package's folder or beside that."""
    named = given or os.environ.get("FLUENT_LIBRARY")
    if named:
        return os.fspath(named)
    package = os.path.dirname(os.path.abspath(__file__))
    places = [os.path.join(folder, "libfluent.so") for folder in (package, os.path.dirname(package))]
    for place in places:
        if os.path.exists(place):
            return place
    raise OSError(f"no libfluent.so: name it by FLUENT_LIBRARY, or put it at {places[0]}")


def _version_of(library: Any) -> str:
    """The version of a library; one that has no call for it is older than all that have."""
    call = getattr(library, "fluent_version", None)
    if call is None:
        return "an earlier one"
    call.restype, call.argtypes = ctypes.c_char_p, []
    written: bytes = call()
    return written.decode("utf-8")


@functools.lru_cache(maxsize=None)
def _loaded(path: str) -> Any:
    library = ctypes.CDLL(path)
    version = _version_of(library)
    if version != VERSION:
        raise OSError(f"{path} has version {version}, and fluent_rattle {VERSION}")
    for name, arguments in SIGNATURES.items():
        function = getattr(library, name)
        function.restype = None if name == "fluent_close" else ctypes.c_uint8
        function.argtypes = arguments
    return library


def load(given: Union[str, "os.PathLike[str]", None] = None) -> Any:
    """The library at a path, or where it is found; each is loaded once."""
    return _loaded(path_of(given))
