"""A bundle: messages of one language, which are asked for by their ids."""
import operator
import os
from typing import Any, Dict, Iterable, List, Mapping, Optional, Tuple, Union

from ._asking import Additions, Answers, Failure, Formatter, Functions, Transform, additions_of
from ._calls import Calls, fault
from ._formats import Args, Formats, no_attribute, no_value
from ._library import Status, load
from ._messages import FluentResource, Message, Pattern
from ._records import lent
from ._told import Told, told_of
from .builtins import BUILTINS

Locales = Union[str, Iterable[str]]
Library = Union[str, "os.PathLike[str]", None]
Shows = Union[str, Formatter, None]


def _switch(use_isolating: bool) -> bool:
    """Whether placeables are isolated. What is no bool, as functions in its place, is a mistake."""
    if not isinstance(use_isolating, bool):
        raise TypeError(f"use_isolating is a bool, not {type(use_isolating).__name__}")
    return use_isolating


def each_of(locales: Iterable[Locales]) -> List[Locales]:
    """A list of what may be a single tag."""
    return [locales] if isinstance(locales, str) else list(locales)


def tags_of(locales: Locales) -> List[str]:
    """The tags of what may be a single one."""
    tags = [locales] if isinstance(locales, str) else list(locales)
    for tag in tags:
        if not isinstance(tag, str):
            raise TypeError(f"a locale is a str, not {type(tag).__name__}")
    return tags


class FluentBundle(Formats):
    """Messages of one language. It is closed by close(), at the end of a `with`, or once nothing refers to it.

    locales           tags such as "pt-PT": the first that has plural rules in the Unicode CLDR chooses the forms. Where none
                      has, each number is `other`
    functions         what messages may call, by their names, beside NUMBER and DATETIME, whose places they may take
    use_isolating     whether placeables stand between U+2068 and U+2069, which keep texts of other directions apart
    formatter         what shows values: "babel" shows numbers and dates as Babel does where it is installed, and else plainly;
                      a function gives the text of a value, or None for as usual
    transform         a function that changes each text which stands in a message
    placeable_limit   how many placeables a text may have before it ends, from 1 to 10000; else it is 100
    library           the path of libfluent.so; else FLUENT_LIBRARY names it, or it is in the package's folder

    ValueError: there is no such limit. OSError: the library is not found, or is of another version.

    Calls from several threads wait for one another, but not for functions. Each call may raise MemoryError, where an
    allocation failed and the bundle stays as it was, and ValueError, where the bundle is closed or a text has a lone surrogate.
    """

    # The functions that each bundle has. What is none of them is as the library has it.
    _builtins: Functions = BUILTINS

    def __init__(
        self,
        locales: Locales,
        functions: Optional[Functions] = None,
        use_isolating: bool = True,
        *,
        formatter: Shows = "babel",
        transform: Optional[Transform] = None,
        placeable_limit: Optional[int] = None,
        library: Library = None,
    ) -> None:
        tags = tags_of(locales)
        self._begin(Calls(load(library), 1), 0, tags, self._additions(tags, functions, formatter, transform))
        with self._calls.opening():
            self._open(use_isolating)
            self._limit(placeable_limit)

    @classmethod
    def from_rules(
        cls,
        cardinal: str,
        ordinal: str = "",
        use_isolating: bool = True,
        *,
        locales: Locales = (),
        functions: Optional[Functions] = None,
        formatter: Shows = "babel",
        transform: Optional[Transform] = None,
        placeable_limit: Optional[int] = None,
        library: Library = None,
    ) -> "FluentBundle":
        """A bundle whose plural forms are chosen by the texts of rules, as the Unicode CLDR has them, with ';' between them:
        "one: n = 1; other:". Without rules, each number is `other`. The locales are those by which Babel shows numbers and
        dates. ValueError: the rules can't be read."""
        tags = tags_of(locales)
        made = cls._at(Calls(load(library), 1), 0, tags, cls._additions(tags, functions, formatter, transform))
        rules = *lent(cardinal, "a text of rules"), *lent(ordinal, "a text of rules")
        with made._calls.opening():
            made._calls.make("fluent_open_rules", 0, *rules, _switch(use_isolating))
            made._declare()
            made._limit(placeable_limit)
        return made

    @classmethod
    def _additions(
        cls, tags: List[str], functions: Optional[Functions], formatter: Shows, transform: Optional[Transform]
    ) -> Additions:
        return additions_of(tags, {**cls._builtins, **_functions(functions)}, formatter, transform)

    @classmethod
    def _at(cls, calls: Calls, index: int, tags: List[str], additions: Additions) -> "FluentBundle":
        """The bundle of a handle that is closed."""
        made = cls.__new__(cls)
        made._begin(calls, index, tags, additions)
        return made

    def _begin(self, calls: Calls, index: int, tags: List[str], additions: Additions) -> None:
        self.locales = tags
        self._calls, self._index, self._additions_made = calls, index, additions
        # What the transform made of the texts of each message and attribute, as answers.
        self._changed: Dict[Tuple[str, str], bytes] = {}

    def _open(self, use_isolating: bool) -> None:
        """Opens it by the rules of the first tag that has some, or else by those of the root."""
        tags = self.locales or [""]
        for place, tag in enumerate(tags, 1):
            status = self._calls.status("fluent_open", self._index, *lent(tag, "a locale"), _switch(use_isolating))
            if status == Status.OK or (status == Status.NO_LANGUAGE and place == len(tags)):
                break
            if status != Status.NO_LANGUAGE:
                raise fault(status, None)
            self.close()
        self._declare()

    def _declare(self) -> None:
        """Tells the library what the program adds."""
        additions = self._additions_made
        for name in additions.functions:
            self._calls.make("fluent_declare_function", self._index, *lent(name, "the name of a function"), True)
        if additions.formatter:
            self._calls.make("fluent_declare_formatter", self._index, True)
        if additions.transform:
            self._calls.make("fluent_declare_transform", self._index, True)

    def _limit(self, limit: Optional[int]) -> None:
        if limit is None:
            return
        # More than a size_t holds would come as another number.
        if not 0 <= operator.index(limit) < 2**32:
            raise fault(Status.OUT_OF_RANGE, None)
        self._calls.make("fluent_set_limit", self._index, limit)

    def add_resource(self, resource: Union[str, FluentResource], allow_overrides: bool = False) -> List[str]:
        """Adds the messages and terms of an FTL source. What can't be read in it is passed over, and so is an entry whose
        id is there: a line tells of each, with the number of its line in the source before it. With allow_overrides entries
        take the place of what has their ids."""
        sent = lent(resource.text if isinstance(resource, FluentResource) else resource, "a source")
        with self._calls.lock:
            self._calls.make("fluent_add_overriding" if allow_overrides else "fluent_add", self._index, *sent)
            self._changed.clear()
            return self._report()

    def _report(self) -> List[str]:
        """What was passed over in the source that was added last. That there is no memory to tell it is no fault of adding."""
        try:
            return self._calls.lines("fluent_report", self._index)
        except MemoryError:
            return [NO_REPORT]

    def message_ids(self) -> List[str]:
        """The ids of all messages, in the order of their characters."""
        return self._calls.lines("fluent_ids", self._index)

    def _is_there(self, name: str, *words: Any) -> bool:
        status = self._calls.status(name, self._index, *words)
        if status not in (Status.OK, Status.NO_MESSAGE):
            raise fault(status, None)
        return status == Status.OK

    def has_message(self, message_id: str) -> bool:
        """Whether there is a message of the id, also one without a value."""
        return self._is_there("fluent_has", *lent(message_id, "an id"))

    def has_value(self, message_id: str) -> bool:
        """Whether there is a message of the id that has a value."""
        return self._is_there("fluent_find", *lent(message_id, "an id"), b"", 0)

    def has_attribute(self, message_id: str, name: str) -> bool:
        """Whether there is a message of the id that has an attribute of the name."""
        words = *lent(message_id, "an id"), *lent(name, "the name of an attribute")
        return name != "" and self._is_there("fluent_find", *words)

    def attributes(self, message_id: str) -> List[str]:
        """The names of a message's attributes, in the order of the source. LookupError: there is no such message."""
        missing = f"no message {message_id!r}"
        return self._calls.lines("fluent_attributes", self._index, *lent(message_id, "an id"), missing=missing)

    def variables(self, message_id: str, attribute: Optional[str] = None) -> List[str]:
        """The names of the arguments that a message's value may need, or its attribute: those of variables in it, and in messages
        that it refers to. Each is there once, in the order of its characters. LookupError: there is no such value or attribute."""
        missing = no_value(message_id) if attribute is None else no_attribute(message_id, attribute)
        if attribute == "":
            raise LookupError(missing)
        words = *lent(message_id, "an id"), *lent(attribute or "", "the name of an attribute")
        return self._calls.lines("fluent_variables", self._index, *words, missing=missing)

    def get_message(self, message_id: str) -> Message:
        """A message, whose value and attributes format_pattern takes. KeyError: there is none of the id.

        Of two attributes with one name the first is meant.
        """
        try:
            names = self.attributes(message_id)
        except LookupError:
            raise KeyError(message_id) from None
        attributes = {name: Pattern(message_id, name) for name in names}
        return Message(message_id, Pattern(message_id) if self.has_value(message_id) else None, attributes)

    def format_pattern(self, pattern: Optional[Pattern], args: Optional[Args] = None) -> Tuple[str, List[Exception]]:
        """The text of what get_message gave, and the errors in it: those of fluent_rattle.errors, a TypeError for each argument
        that has none of the types of values, and then what functions raised."""
        if pattern is None:
            raise TypeError("the message has no value")
        message_id, attribute = pattern
        missing = no_attribute(message_id, attribute) if attribute else no_value(message_id)
        unsupported: Dict[str, Exception] = {}
        text, told, failures = self._format(message_id, attribute, args, missing, unsupported)
        errors = [unsupported[each.id] if each.letter == "v" and each.id in unsupported else each.exception()
                  for each in told]
        return text, [*errors, *(failure.error for failure in failures)]

    def _format(
        self,
        message_id: str,
        attribute: str,
        args: Optional[Args],
        missing: str,
        unsupported: Optional[Dict[str, Exception]] = None,
    ) -> Tuple[str, List[Told], List[Failure]]:
        answers, place = Answers(self._additions_made), (message_id, attribute)
        arguments = answers.values.arguments(args or {}, unsupported)
        sent = b"".join(each.written() for each in arguments)
        words = *lent(message_id, "an id"), *lent(attribute, "the name of an attribute"), sent, len(sent)
        changed = self._changed.get(place, b"")
        text, records = self._calls.format(self._index, words, answers.known(arguments) + changed, answers.answer, missing)
        if answers.changed:
            self._changed[place] = changed + answers.changed
        return text, told_of(records), answers.failures

    def close(self) -> None:
        """Gives back the memory of the bundle, which can't be asked any more. Closing it again does nothing."""
        self._calls.status("fluent_close", self._index)


# What add_resource gives where it can't tell what was passed over.
NO_REPORT = "no memory to tell what was passed over"


def _functions(given: Optional[Functions]) -> Functions:
    """The functions of a program. What is no mapping, as a switch in its place, is a mistake."""
    if given is None:
        return {}
    if not isinstance(given, Mapping) or not all(map(callable, given.values())):
        raise TypeError(f"functions is a mapping of names to functions, not {given!r}")
    return given
