"""A page in two languages, with a date, numbers and a function of the program: FLUENT_LIBRARY=PATH python3 shop.py, and then
http://localhost:8000/?name=Ada. All but its imports is as for fluent.runtime."""
from datetime import date
from pathlib import Path
from typing import Any, Dict, Iterable, List
from urllib.parse import parse_qs
from wsgiref.simple_server import make_server

from fluent_rattle import FluentLocalization, FluentResourceLoader
from fluent_rattle.types import fluent_number

LANGUAGES = ["en", "pl"]
LOADER = FluentResourceLoader(str(Path(__file__).parent / "l10n/{locale}"))


def filesize(size: float) -> str:
    """A size in the largest unit that it fills: { FILESIZE($bytes) }."""
    for unit in "B", "kB", "MB":
        if size < 1000:
            break
        size = size / 1000
    return f"{size:.0f} {unit}"


def localization(header: str) -> FluentLocalization:
    """The languages of somebody whose browser sends this header, and English behind them."""
    wanted = [part.split(";")[0].split("-")[0].strip() for part in header.split(",")]
    locales = [tag for tag in dict.fromkeys([*wanted, "en"]) if tag in LANGUAGES]
    return FluentLocalization(locales, ["shop.ftl"], LOADER, functions={"FILESIZE": filesize})


def page(l10n: FluentLocalization, name: str, today: date) -> List[str]:
    total = fluent_number(1234.5, style="currency", currency="PLN")
    return [
        l10n.format_value("hello", {"name": name}),
        l10n.format_value("today", {"now": today}),
        l10n.format_value("basket", {"count": 3, "total": total}),
        l10n.format_value("tax", {"tax": 0.235}),
        l10n.format_value("picture", {"bytes": 1_250_000}),
        l10n.format_value("return", {"days": 14}),
    ]


def application(environ: Dict[str, Any], start_response: Any) -> Iterable[bytes]:
    name = parse_qs(environ.get("QUERY_STRING", "")).get("name", ["you"])[0]
    lines = page(localization(environ.get("HTTP_ACCEPT_LANGUAGE", "")), name, environ.get("today", date.today()))
    start_response("200 OK", [("Content-Type", "text/plain; charset=utf-8")])
    return ["\n".join(lines).encode("utf-8")]


if __name__ == "__main__":
    make_server("localhost", 8000, application).serve_forever()
