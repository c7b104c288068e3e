"""A chain: bundles of several languages, of which the first that has a message answers."""
from typing import Iterable, List, Optional, Tuple, Type

from ._asking import Failure, Functions, Transform
from ._calls import Calls
from ._formats import Args, Formats, no_attribute, no_value
from ._library import load
from ._told import Told
from .bundle import FluentBundle, Library, Locales, Shows, each_of, tags_of


class FluentChain(Formats):
    """Bundles that are asked in turn, such as one for each language that somebody reads, the one that is read best first. A
    message is shown by the first bundle that has it, with its references looked up in that bundle alone.

    locales   what each bundle takes as its locales: ["pl", "en"] has two bundles

    The other arguments, what is raised and when it is closed are as for FluentBundle. The bundles are made with the
    chain, as the library wants them to lie side by side, and calls of all of them wait for one another.
    """

    # What the bundles are.
    bundle_class: Type[FluentBundle] = FluentBundle

    bundles: Tuple[FluentBundle, ...]

    def __init__(
        self,
        locales: Iterable[Locales],
        functions: Optional[Functions] = None,
        use_isolating: bool = True,
        *,
        formatter: Shows = "babel",
        transform: Optional[Transform] = None,
        placeable_limit: Optional[int] = None,
        library: Library = None,
    ) -> None:
        each = [tags_of(tags) for tags in each_of(locales)]
        if not each:
            raise ValueError("a chain has a bundle at least")
        made, calls = self.bundle_class, Calls(load(library), len(each))
        self._calls = calls
        self.bundles = tuple(
            made._at(calls, index, tags, made._additions(tags, functions, formatter, transform))
            for index, tags in enumerate(each)
        )
        with calls.opening():
            for bundle in self.bundles:
                bundle._open(use_isolating)
                bundle._limit(placeable_limit)

    def _format(
        self, message_id: str, attribute: str, args: Optional[Args], missing: str
    ) -> Tuple[str, List[Told], List[Failure]]:
        place = self._calls.place(message_id, attribute, missing)
        return self.bundles[place]._format(message_id, attribute, args, missing)

    def bundle_of(self, message_id: str, attribute: str = "") -> FluentBundle:
        """The bundle that answers for a message's value, or its attribute. LookupError: none has it."""
        missing = no_attribute(message_id, attribute) if attribute else no_value(message_id)
        return self.bundles[self._calls.place(message_id, attribute, missing)]

    def has_message(self, message_id: str) -> bool:
        """Whether one of the bundles has a message of the id, also one without a value."""
        return any(bundle.has_message(message_id) for bundle in self.bundles)

    def close(self) -> None:
        """Closes all bundles."""
        for bundle in self.bundles:
            bundle.close()
