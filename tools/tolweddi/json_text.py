"""Reads a text of JSON by the rules of bundles, and says where and why one isn't JSON."""
from __future__ import annotations

import json
import re
from collections.abc import Iterator
from typing import NoReturn

from .faults import BundleFault, Finding
from .limits import MOST_OPEN, VERBS
from .line_hints import BYTE_ORDER_MARK, MARK_HINT
from .places import over_blanks

# strings, numbers, brackets, and what Python takes for a number of JSON
_TOKEN = re.compile(r'"[^"\\]*(?:\\.[^"\\]*)*"|[\[\]{}]|-?Infinity|NaN|-?[0-9][0-9.eE+-]*', re.S)
_HALF = re.compile(r"\\u[dD][89a-fA-F]")


class OddNumber:
    """A number of JSON that is no number of a bundle, such as 1.0 or -1."""


def _whole_number(word: str) -> object:
    """A number of digits alone that is below 2^64; others are odd ones."""
    return int(word) if len(word) <= 20 and word.isdigit() and int(word) < 1 << 64 else OddNumber()


def _odd_number(word: str) -> object:
    """A number with a fraction, an exponent or a name."""
    return OddNumber()


def json_value(data: bytes | str) -> object:
    """The value that the bytes spell as JSON; raises BundleFault where they are none."""
    text = _text_of(data)
    try:
        value: object = json.loads(text, parse_constant=_odd_number, parse_int=_whole_number, parse_float=_odd_number)
    except json.JSONDecodeError as fault:
        _refuse(text, fault.pos, fault.msg)
    except RecursionError:
        value = None
    for at, what in _strange(text):
        _refuse(text, at, what)
    return value


def text_of(data: bytes) -> str:
    """The text of any bytes, with `\\\\xff` in the place of a byte 255 that is no UTF-8."""
    return data.decode("utf-8", "backslashreplace")


def _text_of(data: bytes | str) -> str:
    """The text of bytes that are UTF-8; raises BundleFault for others."""
    try:
        return data if isinstance(data, str) else data.decode()
    except UnicodeDecodeError as fault:
        at = len(fault.object[: fault.start].decode())
        _refuse(text_of(fault.object), at, f"byte {fault.object[fault.start]:#04x} is no UTF-8 here")


def _refuse(text: str, at: int, what: str) -> NoReturn:
    """Raises BundleFault for what isn't JSON there."""
    column = at - text.rfind("\n", 0, at)
    line = text.count("\n", 0, at) + 1
    hints = tuple(_hints(text, at, what))
    raise BundleFault.of(Finding("json", f"line {line}, column {column}", f"{what}, so this is no JSON", hints, at=at))


def _strange(text: str) -> Iterator[tuple[int, str]]:
    """What Python takes for JSON and bundles don't: where, and what."""
    opened = 0
    for token in _TOKEN.finditer(text):
        first = token[0][0]
        opened += (first in "[{") - (first in "]}")
        if opened > MOST_OPEN:
            yield token.start(), f"more than {MOST_OPEN} arrays and objects are open"
        elif first == '"' and _HALF.search(token[0]) and any("\ud800" <= c <= "\udfff" for c in json.loads(token[0])):
            yield token.start(), "a `\\u` escape is half of a surrogate pair without its other half"
        elif token[0].endswith(("NaN", "Infinity")):
            yield token.start(), f"{token[0]} is no number of JSON"
        elif first in "-0123456789" and abs(float(token[0])) == float("inf"):
            yield token.start(), "the number is too large"


# hints


def _hints(text: str, at: int, what: str) -> Iterator[str]:
    """What would be right, where the text isn't JSON in this place."""
    kind = kind_of(text)
    if text.startswith(BYTE_ORDER_MARK):
        yield MARK_HINT
    elif "\0" in text[:8] or text.startswith(("\\xff\\xfe", "\\xfe\\xff")):
        yield "this looks like UTF-16; a bundle is UTF-8"
    elif not text.strip(" \t\r\n"):
        yield "nothing stands here: a bundle is one JSON object, and begins with `{`"
    elif kind == "script":
        yield "this looks like a script: `sb solo` takes it"
    elif kind == "report":
        yield "this looks like a report; with its bundle, `sb check` takes it"
    else:
        yield from _hints_of_mark(text, at, what)


def kind_of(text: str) -> str:
    """What a text looks like by its first words: `bundle`, `script`, `report`, or nothing."""
    if text.startswith("sb 1"):
        return "report"
    words = re.match(r"[\s\ufeff]*(?:#[^\n]*\s*)*([^\s]*)", text)
    first = words[1] if words else ""
    if first.startswith("{"):
        return "bundle"
    return "script" if first.lower() in VERBS else ""


def _hints_of_mark(text: str, at: int, what: str) -> Iterator[str]:
    """What would be right, by the characters of the place."""
    here, before = text[at : at + 2], text[:at].rstrip(" \t\r\n")
    if here[:1] in ("]", "}") and before.endswith(","):
        yield "JSON has no comma behind the last item"
    elif here.startswith(("//", "/*", "#")):
        yield "JSON has no comments; a script has: texts that begin with `#`"
    elif here.startswith("'"):
        yield 'JSON has texts in double quotes: "name", and not \'name\''
    elif before.endswith("0") and here[:1] in ("x", "X"):
        word = re.match(r"[xX][0-9a-fA-F]*", text[at:])
        yield f'JSON has no hexadecimal numbers: where a field is a text, write "0{word[0].lower() if word else "x"}", with quotes'
    elif before[-1:] == "0" and here[:1].isdigit():
        yield "a number of JSON has no zeros in front"
    else:
        yield from _hints_of_error(text, at, what)


_WORDS = {"True": "true", "False": "false", "None": "no value: leave the field out"}


def _hints_of_error(text: str, at: int, what: str) -> Iterator[str]:
    """What would be right, by what Python's reader of JSON says."""
    word = re.match(r"[A-Za-z_][A-Za-z0-9_.]*", text[at : at + 80])
    if what.startswith("Expecting ',' delimiter"):
        yield "a comma is missing before this place" if at < len(text) else "the text ends too early: a bracket isn't closed"
    elif what.startswith("Extra data"):
        is_object = text.lstrip().startswith("{")
        yield "a bundle is one object, and nothing stands behind it" if is_object else "a bundle is one JSON object, and begins with `{`"
    elif over_blanks(text, at) >= len(text):
        yield "the text ends too early: something isn't closed"
    elif what.startswith("Expecting property name") and word:
        yield f'names of fields stand in double quotes: "{word[0]}"'
    elif what.startswith("Expecting value") and word:
        yield f"`{word[0]}` is {_WORDS[word[0]]} in JSON" if word[0] in _WORDS else f'a text stands in double quotes: "{word[0]}"'
    elif what.startswith("Invalid control character"):
        yield "a text ends on its line, with a double quote; a tab within it is `\\t`"
    elif what.startswith("Invalid \\"):
        yield "a backslash within a text is written twice"
