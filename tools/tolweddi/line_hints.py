"""What would be right in the place of a line of a script that has a fault: a hint for each of the usual mistakes."""
from __future__ import annotations

import difflib
import re
from collections.abc import Callable, Iterator

from .limits import ATOMICS, MOST_WORDS_OF_ONE, PAGE, TOP, VERBS
from .scripts import LineFault, number_of, words_of

BYTE_ORDER_MARK = "\ufeff"
MARK_HINT = "the file begins with a byte order mark, the bytes EF BB BF, which have to go: save it as UTF-8 without one"
SIZES = "SIZE is a power of two: 0, 1, 2, 3 for words of 1, 2, 4, 8 bytes"
# what other languages call the same
OTHER_VERBS = {
    "read": "rd", "load": "rd", "ld": "rd", "lw": "rd", "get": "rd", "peek": "rd", "write": "wr", "store": "wr", "st": "wr", "sw": "wr",
    "put": "wr", "poke": "wr", "post": "wp", "posted": "wp", "inc": "add", "xchg": "swap", "exchange": "swap",
}  # fmt: skip


def line_hints(line: str, fault: str) -> tuple[str, ...]:
    """What would be right, for a line with this fault."""
    return tuple(_HINTS[fault](line, words_of(line)))


def form_of(verb: str) -> str:
    """How a line of this verb is written."""
    return f"{verb} ADDR SIZE {'COUNT' if verb == 'rd' else 'BODY'}"


def same_name(one: str, other: str) -> bool:
    """Whether two names differ in case and `_` alone."""
    return one.replace("_", "").lower() == other.replace("_", "").lower()


def close_to(name: str, names: list[str]) -> str:
    """The one of the names that was most likely meant, or an empty text."""
    same = [known for known in names if same_name(known, name)]
    return next(iter(same or difflib.get_close_matches(name, names, 1, 0.5)), "")


def _verb(line: str, words: list[str]) -> Iterator[str]:
    word = words[0]
    if word.startswith(BYTE_ORDER_MARK):
        yield MARK_HINT
    elif word.startswith(("//", ";", "--", "/*")):
        yield "a comment is a line whose first word begins with `#`"
    elif word.startswith(("{", "[")):
        yield "this looks like a bundle, which `sb replay` and `sb run` take"
    elif word.lower() in VERBS:
        yield f"verbs are in lower case: `{word.lower()}`"
    else:
        meant = OTHER_VERBS.get(word.lower()) or close_to(word.lower(), list(VERBS))
        if meant:
            yield f"did you mean `{form_of(meant)}`?"


def _number(line: str, words: list[str]) -> Iterator[str]:
    wrong = [hint for name, word in zip(("ADDR", "SIZE", "COUNT"), words[1 : 4 if words[0] == "rd" else 3]) if (hint := _numeral_hint(name, word))]
    if "\n" in line:
        yield "a line feed within a text ends no line: write each line as a text of its own"
    elif words[-1].endswith("\r"):
        yield "the line ends with two CR, and one is dropped"
    elif any(word.startswith(("#", "//", ";")) for word in words[1:]):
        yield "a comment needs a line of its own"
    elif len(words) == 4:
        yield wrong[0]
    else:
        yield f"it has {len(words)} word{'s' * (len(words) != 1)}, and is written `{form_of(words[0])}`"
        if len(words) > 4 and words[0] != "rd":
            yield "all digits of BODY stand together, without blanks"


def _numeral_hint(name: str, word: str) -> str:
    """Why a word is no numeral, or an empty text where it is one."""
    try:
        number_of(word)
        return ""
    except LineFault:
        plain = word.replace("_", "")
    if re.fullmatch("(0[xX])?[0-9a-fA-F]+", plain) and plain != word:
        return f"{name} has no `_`: write `{plain}`"
    if re.fullmatch("0X[0-9a-fA-F]+", word):
        return f"the `x` of {name} is in lower case: `0x{word[2:]}`"
    if word.startswith(("-", "+")):
        return f"{name} has no sign"
    if re.fullmatch("(0x)?[0-9a-fA-F]+", word) and (word.isdigit() or word.startswith("0x")):
        return f"{name} is below 2^64, and has at most 20 decimal digits, or 16 hexadecimal ones behind `0x`"
    if re.fullmatch("[0-9a-fA-F]+", word):
        return f"{name} is hexadecimal only behind `0x`: `0x{word}`"
    return f"{name} is a number, and `{word[:30]}` is none"


def _size(line: str, words: list[str]) -> Iterator[str]:
    size = number_of(words[2])
    if size in (4, 8):
        yield f"SIZE is a power of two: {size.bit_length() - 1} means {size} bytes"
    elif size in (16, 32, 64):
        yield f"SIZE is a power of two, in bytes: {size.bit_length() - 4} means {size // 8} bytes, {size} bits"
    else:
        yield SIZES


def _data(line: str, words: list[str]) -> Iterator[str]:
    body, word = words[3], 1 << number_of(words[2])
    if re.fullmatch("0[xX][0-9a-fA-F]+", body):
        yield "BODY has no `0x`, and is bytes in the order of their addresses"
        yield from _as_bytes(int(body, 16), word)
        return
    strange = re.search("[^0-9a-fA-F]", body)
    if strange and body.replace("_", "") != body:
        yield f"BODY has no `_`: write `{body.replace('_', '')[:60]}`"
    elif strange:
        yield f"`{strange[0]}` is no hexadecimal digit"
    else:
        yield f"BODY has {len(body)} digit{'s' * (len(body) != 1)}, and a byte has two"
        if len(body) < 2 * word:
            yield f"a word of {word} bytes has {2 * word} digits, the byte of the lowest address first: 1 is `{(1).to_bytes(word, 'little').hex()}`"


def _as_bytes(number: int, word: int) -> Iterator[str]:
    """How a number is written as a word, where it has room there."""
    if not number >> 8 * word:
        yield f"a word of {word} byte{'s' * (word > 1)} with the number {number:#x} is `{number.to_bytes(word, 'little').hex()}`"


def _length(line: str, words: list[str]) -> Iterator[str]:
    word = 1 << number_of(words[2])
    if words[0] == "rd":
        count = number_of(words[3])
        yield f"COUNT is 1 to {MOST_WORDS_OF_ONE}" if not count else f"COUNT {count} is above {MOST_WORDS_OF_ONE}: take several reads"
        return
    given = len(words[3]) // 2
    told = f"BODY has {given} byte{'s' * (given > 1)}, and a word of SIZE {words[2]} has {word}"
    if words[0] in ATOMICS:
        yield f"{told}: an atomic takes one word, {2 * word} digits"
    elif given % word:
        yield f"{told}: whole words alone can be written"
    else:
        yield f"{told}: take several writes, of at most {MOST_WORDS_OF_ONE} words"


def _aligned(line: str, words: list[str]) -> Iterator[str]:
    address, word = number_of(words[1]), 1 << number_of(words[2])
    below = address - address % word
    yield f"SIZE {words[2]} means {word} bytes: {below:#x} and {below + word:#x} are multiples of {word}, and {address:#x} isn't"


def _page(line: str, words: list[str]) -> Iterator[str]:
    address, word = number_of(words[1]), 1 << number_of(words[2])
    count = number_of(words[3]) if words[0] == "rd" else len(words[3]) // 2 // word
    border = address - address % PAGE + PAGE
    first = (border - address) // word
    yield f"it would end at {address + count * word - 1:#x}, and its page ends at {border - 1:#x}"
    yield f"cut it in two: {first} word{'s' * (first > 1)} from {address:#x} on, and {count - first} from {border:#x} on"


def _range(line: str, words: list[str]) -> Iterator[str]:
    yield f"addresses are below {TOP:#x}"


_HINTS: dict[str, Callable[[str, list[str]], Iterator[str]]] = {
    "verb": _verb, "number": _number, "size": _size, "data": _data, "length": _length, "aligned": _aligned, "page": _page, "range": _range,
}  # fmt: skip
