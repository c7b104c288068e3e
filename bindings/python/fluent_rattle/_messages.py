"""Sources and messages by the names of fluent.runtime."""
from typing import Dict, NamedTuple, Optional


class FluentResource:
    """The text of an FTL source."""

    def __init__(self, source: str) -> None:
        if not isinstance(source, str):
            raise TypeError(f"a source is a str, not {type(source).__name__}")
        self.text = source


class Pattern(NamedTuple):
    """The value of a message, or its attribute of a name, for FluentBundle.format_pattern."""

    message_id: str
    attribute: str = ""


class Message(NamedTuple):
    """A message of a bundle: its value, where it has one, and its attributes by their names."""

    id: str
    value: Optional[Pattern]
    attributes: Dict[str, Pattern]
