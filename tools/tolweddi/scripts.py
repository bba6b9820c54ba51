"""Lines of scripts: what they ask for, and the fault of those that ask for nothing that can be had."""
from __future__ import annotations

import re
from dataclasses import dataclass

from .limits import ATOMICS, DIGITS, MOST_WORDS_OF_ONE, NUMERAL, PAGE, TOP, VERBS

LINE_FAULTS = {
    "verb": f"the first word is none of {', '.join(VERBS)}",
    "number": "it hasn't four words, or ADDR, SIZE or COUNT is no number",
    "size": "SIZE is above 3",
    "data": "BODY isn't an even number of hexadecimal digits",
    "length": "it hasn't 1 to 256 whole words, or an atomic hasn't just one",
    "aligned": "ADDR is no multiple of the word",
    "page": "it goes past the end of its page",
    "range": "ADDR is 2^56 or more",
}


class LineFault(Exception):
    """A line of a script has a fault, by its name in LINE_FAULTS."""


@dataclass(frozen=True)
class Access:
    """What a line of a script asks for: COUNT words of 2^size bytes from an address on."""

    verb: str
    address: int
    size: int
    count: int
    body: bytes

    @property
    def bytes(self) -> int:
        """How many bytes it speaks of."""
        return self.count << self.size


def words_of(line: str) -> list[str]:
    """The words of a line, without the CR at its end."""
    return [word for word in re.split("[ \t]", line.removesuffix("\r")) if word]


def number_of(word: str) -> int:
    """The value of a numeral of scripts; raises LineFault where it is none."""
    if not NUMERAL.fullmatch(word):
        raise LineFault("number")
    value = int(word, 16 if word.startswith("0x") else 10)
    if value >> 64:
        raise LineFault("number")
    return value


def access_of(line: str) -> Access | None:
    """What a line of a script asks for, or None for a comment or an empty line; raises LineFault."""
    words = words_of(line)
    if not words or words[0].startswith("#"):
        return None
    verb = words[0]
    if verb not in VERBS:
        raise LineFault("verb")
    if len(words) != 4:
        raise LineFault("number")
    address, size = number_of(words[1]), number_of(words[2])
    count = number_of(words[3]) if verb == "rd" else 0
    if size > 3:
        raise LineFault("size")
    body = b"" if verb == "rd" else _body_of(words[3])
    if len(body) % (1 << size):
        raise LineFault("length")
    access = Access(verb, address, size, count or len(body) >> size, body)
    fault = _fault_of(access)
    if fault:
        raise LineFault(fault)
    return access


def is_transaction(line: str) -> bool:
    """Whether a line is neither empty nor a comment."""
    words = line.removesuffix("\r").lstrip(" \t")
    return bool(words) and not words.startswith("#")


def _body_of(word: str) -> bytes:
    """The bytes of a BODY; raises LineFault."""
    if len(word) % 2 or not DIGITS.fullmatch(word):
        raise LineFault("data")
    return bytes.fromhex(word)


def _fault_of(access: Access) -> str:
    """The name of the first fault that an access has by its numbers, or an empty text."""
    if not 1 <= access.count <= MOST_WORDS_OF_ONE or access.verb in ATOMICS and access.count != 1:
        return "length"
    if access.address % (1 << access.size):
        return "aligned"
    if access.address % PAGE + access.bytes > PAGE:
        return "page"
    return "range" if access.address >= TOP else ""
