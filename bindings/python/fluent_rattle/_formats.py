"""The calls that format by id, and give a line for each error: those of a bundle and of a chain."""
from typing import Any, List, Mapping, Optional, Tuple

from ._asking import Failure
from ._told import Told

Args = Mapping[str, Any]


def no_value(message_id: str) -> str:
    return f"no message {message_id!r} with a value"


def no_attribute(message_id: str, name: str) -> str:
    return f"no attribute {name!r} of a message {message_id!r}"


class Formats:
    """What has messages that can be formatted, and is closed in the end."""

    def _format(
        self, message_id: str, attribute: str, args: Optional[Args], missing: str
    ) -> Tuple[str, List[Told], List[Failure]]:
        raise NotImplementedError

    def format_value(self, message_id: str, args: Optional[Args] = None) -> Tuple[str, List[str]]:
        """The text of a message's value, and a line for each error in it: a text is given whatever went wrong.

        LookupError: there is no such message, or it has no value. TypeError: an argument has none of the types of values.
        """
        return self._with_lines(message_id, "", args, no_value(message_id))

    def format_attribute(self, message_id: str, name: str, args: Optional[Args] = None) -> Tuple[str, List[str]]:
        """The same for an attribute of a message. LookupError: it is not there."""
        missing = no_attribute(message_id, name)
        if name == "":
            raise LookupError(missing)
        return self._with_lines(message_id, name, args, missing)

    def _with_lines(
        self, message_id: str, attribute: str, args: Optional[Args], missing: str
    ) -> Tuple[str, List[str]]:
        text, told, failures = self._format(message_id, attribute, args, missing)
        return text, [each.line() for each in told] + [each.line() for each in failures]

    def close(self) -> None:
        raise NotImplementedError

    def __enter__(self) -> Any:
        return self

    def __exit__(self, *_: object) -> None:
        self.close()

    def __reduce__(self) -> Any:
        raise TypeError("bundles are neither copied nor pickled")
