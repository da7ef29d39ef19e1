"""A desk as a notebook shows it: its picture over tables of what it tells."""

from html import escape
from typing import Any, Sequence

# How many lines of each table are shown.
LINES = 40


def _cell(value: Any) -> str:
    if value is None:
        return "<td></td>"
    text = " to ".join(map(str, value)) if isinstance(value, tuple) else str(value)
    return f"<td>{escape(text)}</td>"


def table(title: str, columns: Sequence[str], rows: Sequence[Sequence[Any]]) -> str:
    """A table with its title and how many rows there are, or nothing where there is none."""
    if not rows:
        return ""
    title += f": {len(rows)}" + (f", of which the first {LINES} are shown" if len(rows) > LINES else "")
    lines = "".join(f"<tr>{''.join(map(_cell, row))}</tr>" for row in rows[:LINES])
    head = "".join(f"<th>{escape(it)}</th>" for it in columns)
    return f"<table><caption>{escape(title)}</caption><tr>{head}</tr>{lines}</table>"


def page(title: str, *parts: str) -> str:
    """The parts below one another."""
    return f"<div><p><code>{escape(title)}</code></p>{''.join(parts)}</div>"
