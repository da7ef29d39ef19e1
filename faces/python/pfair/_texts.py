"""The texts and pictures that a desk has of itself, by the names of their kinds."""

from typing import Any

from pfair._events import unsigned
from pfair._library import NUMBERS, struct

TEXTS = (
    "schedule", "lags", "misses", "denials", "events", "script", "json", "processors", "stats", "chart", "windows", "jobs",
    "load", "quanta", "trace", "c", "full", "html", "tables",
)

STYLES = ("strips", "stairs")


def text_number(kind: str) -> int:
    if kind not in TEXTS:
        raise ValueError(f"{kind!r} is none of {', '.join(TEXTS)}")
    return NUMBERS[kind.upper()]


def raw_look(cell: int, wrap: int, style: str) -> Any:
    if style not in STYLES:
        raise ValueError(f"{style!r} is none of {', '.join(STYLES)}")
    return struct("picture_look")(unsigned(cell), unsigned(wrap), NUMBERS[style.upper()])
