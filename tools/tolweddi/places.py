"""Where the values of a text of JSON stand in it."""
from __future__ import annotations

import json
import re
from collections.abc import Iterator
from typing import Union

from .faults import Path

_BLANKS = re.compile(r"[ \t\n\r]*")
_SCAN = json.JSONDecoder(parse_int=str, parse_float=str, parse_constant=str).raw_decode
_CLOSING = {"{": "}", "[": "]"}


def over_blanks(text: str, at: int) -> int:
    """The place of the next character that is no blank, or the end of the text."""
    found = _BLANKS.match(text, at)
    return found.end() if found else at


def members(text: str, at: int) -> Iterator[tuple[Union[str, int], int, int]]:
    """The members of the object or list that begins there: of each its key or number, where the key stands, and the value."""
    closing, number = _CLOSING[text[at]], 0
    at = over_blanks(text, at + 1)
    while text[at] != closing:
        start, key = at, number
        if closing == "}":
            key, at = _SCAN(text, at)
            at = over_blanks(text, over_blanks(text, at) + 1)
        yield key, start, at
        at = over_blanks(text, _SCAN(text, at)[1])
        if text[at] == ",":
            at = over_blanks(text, at + 1)
        number += 1


def place_of(text: str, path: Path) -> tuple[int, int]:
    """Where the key and the value of a path stand in a text that is JSON; of a key that comes twice, the last one. Of a path that
    leads nowhere, the last object on the way."""
    key_at = value_at = over_blanks(text, 0)
    for name in path:
        found = list(members(text, value_at)) if text[value_at] in _CLOSING else []
        places = [(of_key, of_value) for key, of_key, of_value in found if key == name]
        if not places:
            break
        key_at, value_at = places[-1]
    return key_at, value_at
