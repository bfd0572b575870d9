"""What the pages of a catalogue share: their form, and their tables."""

from __future__ import annotations

import base64
import functools
import hashlib
import os
import re
from typing import Iterable, Optional, Tuple

from adf_tools.markup import Html, enclosed, html, joined, marked, shown

HERE = os.path.dirname(os.path.abspath(__file__))
FAULTS = os.path.join(HERE, "FAULTS.md")
if not os.path.exists(FAULTS):  # in a clone
    FAULTS = os.path.join(HERE, "..", "..", "..", "docs", "FAULTS.md")
MOST_ROWS, MOST_LETTERS = 100_000, 8 << 20  # of a table of a page, which is long if paths are
STYLE = Html("""
:root { color-scheme: light dark; --text: #222; --back: #fff; --line: #ddd; --head: #eee; --fault: #a00; --note: #555 }
@media (prefers-color-scheme: dark) {
:root { --text: #ddd; --back: #1b1b1b; --line: #444; --head: #2c2c2c; --fault: #ff8a80; --note: #aaa } a { color: #8ab4f8 } }
body { font: 15px/1.4 sans-serif; margin: 1.5em; color: var(--text); background: var(--back) }
table { border-collapse: collapse; margin: 1em 0 } caption { text-align: left; font-weight: bold; padding: .3em 0 }
svg { max-width: 100%; height: auto } meter { width: 4em }
td, th { padding: .15em .7em .15em 0; text-align: left; border-bottom: 1px solid var(--line); vertical-align: top }
thead th { background: var(--head); position: sticky; top: 0 } .number { text-align: right } .nowrap { white-space: nowrap }
.text { white-space: pre-wrap; overflow-wrap: break-word; min-width: 5em } code { overflow-wrap: anywhere }
figure { display: inline-block; margin: 0 1.5em 1em 0; text-align: center } figcaption { color: var(--note) }
.nowrap code { white-space: pre } .note { color: var(--note) } .refused { color: var(--fault) }
@media (min-width: 70em) { .beside { display: grid; grid-template-columns: auto 1fr; gap: 2em; align-items: start }
.beside svg { max-width: 30vw } }
@media (min-width: 48em) { .verdict { white-space: nowrap } td.text:first-child { min-width: 12em } }
@media (max-width: 48em) { .wide { display: none } body { margin: .7em } .scroll { overflow-x: auto } td.text:first-child { min-width: 8em } }
button { font: inherit; font-weight: bold; border: 0; background: none; color: inherit; padding: 0; cursor: pointer }
[aria-sort=ascending] button::after { content: " \\25b2" } [aria-sort=descending] button::after { content: " \\25bc" }
""")
NO_SCRIPT, CELL_END, ROW_BEGIN, ROW_END = Html(""), Html("</td>"), Html("<tr>"), Html("</tr>\n")
PAGE = """<!DOCTYPE html>
<html lang="en"><head><meta charset="utf-8"><meta http-equiv="Content-Security-Policy" content="{policy}">
<meta name="viewport" content="width=device-width"><title>{title}</title><style>{style}</style></head>
<body>
<h1 class="text">{head}</h1>
{body}{script}
</body></html>
"""


# Texts


@functools.lru_cache(maxsize=None)
def paragraphs_of_causes() -> dict[str, Html]:
    """What the page of faults says of each cause: the paragraph that begins with its name."""
    with open(FAULTS, encoding="utf-8") as file:
        paragraphs = [text for text in file.read().split("\n\n") if text.startswith("**`")]
    return {cause: marked(text) for text in reversed(paragraphs) for cause in re.findall(r"\*\*`([^`]*)`\*\*", text)}


def count_of(number: int, one: str, many: str = "") -> str:
    """A number of things."""
    return f"{number} {one if number == 1 else many or one + 's'}"


def day(date: Optional[str]) -> str:
    """The day of a date, as it is written in a table."""
    return (date or "").split(" ")[0]


# Pages


def page(title: str, body: Html, script: Html = NO_SCRIPT, style: Html = STYLE) -> Html:
    """A whole page. Its policy lets no script run but this one and those that it loads, and nothing else be loaded or sent."""
    digest = base64.b64encode(hashlib.sha256(script.encode()).digest()).decode()
    scripts = f"'sha256-{digest}' 'strict-dynamic'" if script else "'none'"
    policy = f"default-src 'none'; style-src 'unsafe-inline'; script-src {scripts}; form-action 'none'; base-uri 'none'"
    run = html("<script>{script}</script>", script=script) if script else script
    return html(PAGE, policy=policy, title=title, style=style, head=shown(title), body=body, script=run)


def table(name: str, heads: Iterable[str], rows: Iterable[Html]) -> Html:
    """A table with a name. A head that begins with `-` is hidden on a narrow screen, as its cells are."""
    wide, plain = '<th scope="col" class="wide">{text}</th>', '<th scope="col">{text}</th>'
    head = joined(html(wide if text.startswith("-") else plain, text=text.lstrip("-")) for text in heads)
    body = joined([part for row in rows for part in (ROW_BEGIN, row, ROW_END)])
    form = '<div class="scroll"><table><caption>{name}</caption><thead><tr>{head}</tr></thead><tbody>\n{body}</tbody></table></div>\n'
    return html(form, name=name, head=head, body=body)


def long_table(name: str, heads: Iterable[str], rows: Iterable[Html], whole: int, command: str) -> Html:
    """A table that ends where it gets too long, and says then how many rows it leaves out, and what command writes all."""
    taken: list[Html] = []
    letters = 0
    for row in rows:
        letters += len(row)
        if letters > MOST_LETTERS or len(taken) == MOST_ROWS:
            break
        taken.append(row)
    left_out = whole - len(taken)
    note = '<p class="refused">{count} more are left out: <code>{command}</code> has all.</p>\n' if left_out else ""
    return joined((table(name, heads, taken), html(note, count=left_out, command=command)))


def cell(value: object, kind: str = "nowrap", key: object = None) -> Html:
    """A cell; where a table is to be sorted by something else than its text, that is the key."""
    if key is None:
        return enclosed(cell_begin(kind), value, CELL_END)
    return html('<td class="{kind}" data-key="{key}">{value}</td>', kind=kind, key=key, value=value)


@functools.lru_cache(maxsize=4096, typed=True)
def text_cell(text: object, kind: str = "nowrap") -> Html:
    """The cell of a text that many rows have, as a date, which is kept."""
    return cell(shown(text), kind)


@functools.lru_cache(maxsize=None)
def cell_begin(kind: str) -> Html:
    return html('<td class="{kind}">', kind=kind)


def facts(name: str, pairs: Iterable[Tuple[str, object]]) -> Html:
    rows = joined(html('<tr><th scope="row">{head}</th><td class="text">{value}</td></tr>\n', head=head, value=value) for head, value in pairs)
    return html("<table><caption>{name}</caption><tbody>{rows}</tbody></table>\n", name=name, rows=rows)


def paragraph(value: object, kind: str = "") -> Html:
    return html('<p class="{kind}">{value}</p>\n' if kind else "<p>{value}</p>\n", kind=kind, value=value)
