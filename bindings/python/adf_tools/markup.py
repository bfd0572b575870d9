"""HTML of pages. A text becomes a part of one by `html` alone, which escapes it: an Html is no text, and a text no Html."""

from __future__ import annotations

import re
import urllib.parse
from typing import Iterable

ESCAPED = {"&": "&amp;", "<": "&lt;", ">": "&gt;", '"': "&quot;", "'": "&#x27;"}
HIDDEN = "\\x00-\\x08\\x0b-\\x1f\\x7f-\\x9f\\u2028\\u2029\\ud800-\\udfff"  # what no page has as it is
ESCAPES, HIDDEN_LETTER = re.compile(f"[&<>\"'{HIDDEN}]"), re.compile(f"[{HIDDEN}]")


class Html(str):
    """A part of a page. It is made of a text that stands in a program, never of one that came from elsewhere."""

    __slots__ = ()


PLAIN = {Html, int}  # types of values that stand in a page as they are


def escape_of(found: re.Match[str]) -> str:
    """What stands for a letter that a page does not have as it is."""
    return ESCAPED.get(found[0]) or f"\\x{ord(found[0]):02x}"


def escaped(value: object) -> Html:
    """A value as HTML: an Html as it is, nothing for none, else its text, escaped for contents and for attributes with quotes."""
    if type(value) is Html:
        return value
    text = "" if value is None else str(value)
    return Html(text if text.isalnum() else ESCAPES.sub(escape_of, text))


def html(template: str, **values: object) -> Html:
    """A template, which stands in a program, with these values in the place of their names in braces, escaped. In a tag they stand in
    quotes."""
    for name, value in values.items():
        if type(value) not in PLAIN:
            values[name] = escaped(value)
    return Html(template.format_map(values))


def enclosed(begin: Html, value: object, end: Html) -> Html:
    """A value, escaped, between two parts of a page."""
    return Html(begin + escaped(value) + end)


def joined(parts: Iterable[Html], between: str = "") -> Html:
    """Parts of a page, one behind the other."""
    return Html((between and escaped(between)).join(parts))


def shown(text: object) -> Html:
    """A text, which may break behind what parts it."""
    return Html(escaped(str(text)).replace("/", "/<wbr>").replace("_", "_<wbr>"))


def address(path: str, fragment: str = "") -> Html:
    """The address of a file beside or above a page, for an attribute; what a path cannot have stands in digits."""
    return escaped(urllib.parse.quote(path, "/") + ("#" + urllib.parse.quote(fragment, "=") if fragment else ""))


def link(path: str, text: object, fragment: str = "") -> Html:
    return html('<a href="{address}">{text}</a>', address=address(path, fragment), text=shown(text))


def marked(text: str) -> Html:
    """A paragraph of a page of documentation."""
    text = re.sub(r"`([^`]*)`", r"<code>\1</code>", escaped(text))
    text = re.sub(r"\*(\w+)\*", r"<em>\1</em>", re.sub(r"\*\*(.*?)\*\*", r"<strong>\1</strong>", text))
    return html("<p>{text}</p>", text=Html(text))


def drawn(picture: str) -> Html:
    """A picture as adf_tools/picture.py draws it, which escapes markup in what it names."""
    return Html(picture if picture.replace("\n", "").isprintable() else HIDDEN_LETTER.sub(escape_of, picture))
