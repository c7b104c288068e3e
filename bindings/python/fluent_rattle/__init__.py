"""Fluent: messages of FTL sources as text, by the proved library for C, libfluent."""
from ._chain import FluentChain
from ._library import VERSION as __version__
from ._messages import FluentResource, Message, Pattern
from .bundle import FluentBundle
from .errors import FluentCyclicReferenceError, FluentFormatError, FluentReferenceError
from .fallback import AbstractResourceLoader, FluentLocalization, FluentResourceLoader
from .findings import Finding, Findings, check
from .types import FluentNone, FluentType, fluent_date, fluent_number

__all__ = [
    "AbstractResourceLoader",
    "Finding",
    "Findings",
    "FluentBundle",
    "FluentChain",
    "FluentCyclicReferenceError",
    "FluentFormatError",
    "FluentLocalization",
    "FluentNone",
    "FluentReferenceError",
    "FluentResource",
    "FluentResourceLoader",
    "FluentType",
    "Message",
    "Pattern",
    "__version__",
    "check",
    "fluent_date",
    "fluent_number",
]
