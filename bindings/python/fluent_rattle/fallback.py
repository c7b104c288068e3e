"""Messages of several languages, loaded when they are asked for, by the names of fluent.runtime."""
import itertools
import os
import threading
from typing import Generator, Iterable, List, Optional, Type, Union

from ._asking import Functions
from ._formats import Args
from ._messages import FluentResource
from .bundle import FluentBundle


class AbstractResourceLoader:
    """What gives the sources of a language."""

    def resources(self, locale: str, resource_ids: List[str]) -> Generator[List[FluentResource], None, None]:
        """Gives lists of sources: a bundle is made of each."""
        raise NotImplementedError


class FluentResourceLoader(AbstractResourceLoader):
    """Reads the files of a folder, or of several, whose paths name a language by {locale}: "l10n/{locale}"."""

    def __init__(self, roots: Union[str, List[str]]) -> None:
        self.roots = [roots] if isinstance(roots, str) else roots

    def resources(self, locale: str, resource_ids: List[str]) -> Generator[List[FluentResource], None, None]:
        for root in self.roots:
            paths = [self.localize_path(os.path.join(root, name), locale) for name in resource_ids]
            found = [self._read(path) for path in paths if os.path.isfile(path)]
            if found:
                yield found

    def localize_path(self, path: str, locale: str) -> str:
        return path.format(locale=locale)

    @staticmethod
    def _read(path: str) -> FluentResource:
        with open(path, encoding="utf-8", newline="") as file:
            return FluentResource(file.read())


class FluentLocalization:
    """Messages of the first of some languages that has them.

    locales           tags, of which the first is asked first
    resource_ids      what the loader is asked for in each language, such as ["main.ftl"]
    resource_loader   a FluentResourceLoader, or what has its method `resources`
    functions         what messages may call, as for FluentBundle
    """

    def __init__(
        self,
        locales: List[str],
        resource_ids: Iterable[str],
        resource_loader: AbstractResourceLoader,
        use_isolating: bool = False,
        bundle_class: Type[FluentBundle] = FluentBundle,
        functions: Optional[Functions] = None,
    ) -> None:
        self.locales, self.resource_ids = list(locales), list(resource_ids)
        self.resource_loader, self.use_isolating, self.bundle_class = resource_loader, use_isolating, bundle_class
        self.functions = functions
        self._bundle_cache: List[FluentBundle] = []
        self._bundle_it = self._iterate_bundles()
        self._lock = threading.RLock()

    def format_value(self, msg_id: str, args: Optional[Args] = None) -> str:
        """The text of a message, and its id where no language has it."""
        for bundle in self._bundles():
            if bundle.has_value(msg_id):
                return bundle.format_pattern(bundle.get_message(msg_id).value, args)[0]
        return msg_id

    def _bundles(self) -> Generator[FluentBundle, None, None]:
        """The bundles in turn. Each is made once, and no earlier than it is asked."""
        index = 0
        while self._has_bundle(index):
            yield self._bundle_cache[index]
            index += 1

    def _has_bundle(self, index: int) -> bool:
        """Whether there is a bundle at an index, which is made if need be. Other threads wait for it."""
        with self._lock:
            if index == len(self._bundle_cache):
                self._bundle_cache.extend(itertools.islice(self._bundle_it, 1))
            return index < len(self._bundle_cache)

    def _create_bundle(self, locales: List[str]) -> FluentBundle:
        return self.bundle_class(locales, functions=self.functions, use_isolating=self.use_isolating)

    def _iterate_bundles(self) -> Generator[FluentBundle, None, None]:
        for first in range(len(self.locales)):
            for resources in self.resource_loader.resources(self.locales[first], self.resource_ids):
                bundle = self._create_bundle(self.locales[first:])
                for resource in resources:
                    bundle.add_resource(resource)
                yield bundle
