"""What went wrong in a text, as exceptions by the names of fluent.runtime. None is raised: they stand beside the text."""


class FluentFormatError(ValueError):
    """Something went wrong in a text. Two are equal where class and text are."""

    def __eq__(self, other: object) -> bool:
        return isinstance(other, FluentFormatError) and other.__class__ is self.__class__ and other.args == self.args

    def __hash__(self) -> int:
        return hash((self.__class__, self.args))


class FluentReferenceError(FluentFormatError):
    """What a text refers to is not there."""


class FluentCyclicReferenceError(FluentFormatError):
    """A text refers to itself."""
