"""Calls of the library for handles that are guarded by a lock: what they answer becomes Python's values and exceptions."""
import contextlib
import ctypes
import threading
import weakref
from typing import Any, Callable, Iterator, List, Optional, Tuple

from ._library import Handle, Lengths, Status
from ._records import lent

# How many bytes a text has room for at the first try.
ROOM = 256


def fault(status: int, missing: Optional[str]) -> Exception:
    """The exception of a status, where `missing` says what is not there."""
    if status == Status.NO_MEMORY:
        return MemoryError("libfluent got no memory")
    if status == Status.NO_MESSAGE:
        return LookupError(missing)
    if status == Status.BAD_RULES:
        return ValueError("the plural rules can't be read")
    if status == Status.OUT_OF_RANGE:
        return ValueError("the limit of placeables is from 1 to 10000")
    if status == Status.CLOSED_BUNDLE:
        return ValueError("the bundle is closed")
    return RuntimeError(f"libfluent answers status {status}")


def _close(library: Any, handles: Any, lock: Any) -> None:
    with lock:
        for handle in handles:
            library.fluent_close(ctypes.byref(handle))


class Calls:
    """Handles in one place, of bundles that are closed at first, and are closed again once nothing refers to this."""

    def __init__(self, library: Any, count: int) -> None:
        self.library = library
        self.handles = (Handle * count)()
        # A handler of signals may run within a call, and call again in the same thread.
        self.lock = threading.RLock()
        weakref.finalize(self, _close, library, self.handles, self.lock)

    @contextlib.contextmanager
    def opening(self) -> Iterator[None]:
        """Closes what was opened meanwhile where something fails."""
        try:
            yield
        except BaseException:
            _close(self.library, self.handles, self.lock)
            raise

    def status(self, name: str, index: int, *words: Any) -> int:
        """What a call answers for the handle of an index."""
        with self.lock:
            answered: int = getattr(self.library, name)(ctypes.byref(self.handles[index]), *words)
            return answered

    def make(self, name: str, index: int, *words: Any, missing: Optional[str] = None) -> None:
        """The same where it is to be OK."""
        status = self.status(name, index, *words)
        if status != Status.OK:
            raise fault(status, missing)

    def lines(self, name: str, index: int, *words: Any, missing: Optional[str] = None) -> List[str]:
        """The lines that a call writes."""
        room, length = ROOM, ctypes.c_size_t()
        while True:
            text = (ctypes.c_char * room)()
            status = self.status(name, index, *words, text, room, length)
            if status == Status.OK:
                return ctypes.string_at(text, length.value).decode("utf-8").split("\n")[:-1]
            if status != Status.TOO_SMALL:
                raise fault(status, missing)
            room = length.value

    def place(self, message_id: str, attribute: str, missing: str) -> int:
        """The index of the handle that has a message."""
        index = ctypes.c_size_t()
        words = *lent(message_id, "an id"), *lent(attribute, "the name of an attribute")
        self.make("fluent_find_chain", 0, len(self.handles), *words, index, missing=missing)
        return index.value

    def format(
        self, index: int, words: Tuple[Any, ...], answers: bytes, answer: Callable[[bytes], bytes], missing: str
    ) -> Tuple[str, bytes]:
        """The text of a message, and the bytes that tell of its errors. `words` are its id, its attribute and the
        arguments. Where the library asks, `answer` gives a record, which goes behind the answers that there are."""
        lengths = Lengths()
        text_room = errors_room = ROOM
        while True:
            text, errors = (ctypes.c_char * text_room)(), (ctypes.c_char * errors_room)()
            rooms = text, text_room, errors, errors_room, lengths
            status = self.status("fluent_format_asking", index, *words, answers, len(answers), *rooms)
            if status == Status.OK:
                return ctypes.string_at(text, lengths.text).decode("utf-8"), ctypes.string_at(errors, lengths.errors)
            if status == Status.ASKS and lengths.text <= text_room:
                answers += answer(ctypes.string_at(text, lengths.text))
            elif status not in (Status.TOO_SMALL, Status.ASKS):
                raise fault(status, missing)
            text_room, errors_room = max(text_room, lengths.text), max(errors_room, lengths.errors)
