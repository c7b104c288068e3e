"""The functions that messages may call without more ado."""
from typing import Any, Callable, Dict

from .types import fluent_date, fluent_number

NUMBER = fluent_number
DATETIME = fluent_date

BUILTINS: Dict[str, Callable[..., Any]] = {"NUMBER": NUMBER, "DATETIME": DATETIME}
