"""Memory files: raw binary files, Intel HEX, and Verilog's $readmemh."""
from __future__ import annotations

import os
import pathlib
import re
from collections.abc import Iterator
from dataclasses import dataclass

from .faults import FileFault
from .limits import MOST_PAGES, PAGE
from .tooling import of_file

FORMATS = ("binary", "ihex", "readmemh")
ENDINGS = {
    **dict.fromkeys((".bin", ".raw", ".img"), "binary"),
    **dict.fromkeys((".ihex", ".ihx"), "ihex"),
    **dict.fromkeys((".mem", ".vmem", ".memh"), "readmemh"),
}
MOST_IMAGE = MOST_PAGES * PAGE


@dataclass(frozen=True)
class ImageForm:
    """How a memory file is to be read: its format, or None to go by the file's ending; the address in the file of the device's
    first byte; and for readmemh how many bytes a word has, and in which order its bytes lie in memory."""

    format: str | None = None
    base: int = 0
    word: int = 1
    order: str = "little"


def read_image(path: str | os.PathLike[str], form: ImageForm = ImageForm()) -> bytes:
    """The bytes of a memory file, from the device's first byte on; raises FileFault with the line."""
    return of_file(path, lambda data: _image_of(data, _format_of(path, data, form.format), form))


def _format_of(path: str | os.PathLike[str], data: bytes, format: str | None) -> str:
    """The format of a memory file, by its ending where none is named."""
    ending = pathlib.Path(path).suffix.lower()
    if ending == ".hex" and format is None:
        return "ihex" if data.lstrip().startswith(b":") else "readmemh"
    found = format or ENDINGS.get(ending)
    if found is None:
        raise FileFault(f"the ending `{ending}` doesn't say what it is; name one of {', '.join(FORMATS)} as its format")
    return found


def _image_of(data: bytes, format: str, form: ImageForm) -> bytes:
    """The bytes of a memory file of this format."""
    if format == "binary":
        if len(data) > MOST_IMAGE:
            raise FileFault(f"it has {len(data)} bytes, and a device at most {MOST_IMAGE}")
        return data
    pieces = _intel_hex(data.decode("latin-1")) if format == "ihex" else _readmemh(data.decode("latin-1"), form)
    image, filled = bytearray(), bytearray()
    for line, address, piece in pieces:
        at = address - form.base
        if at < 0 or at + len(piece) > MOST_IMAGE:
            raise FileFault(f"line {line}: address {address:#x} isn't within {MOST_IMAGE} bytes from the base {form.base:#x} on")
        span = slice(at, at + len(piece))
        if any(filled[span]):
            raise FileFault(f"line {line}: address {address:#x} or one behind it has a byte already")
        for bytes_so_far in (image, filled):
            bytes_so_far.extend(bytes(max(0, span.stop - len(bytes_so_far))))
        image[span], filled[span] = piece, b"\1" * len(piece)
    return bytes(image)


def _intel_hex(text: str) -> Iterator[tuple[int, int, bytes]]:
    """The data of an Intel HEX file: line, address, bytes."""
    upper = 0
    for number, line in enumerate(text.splitlines(), 1):
        if not line.strip():
            continue
        kind, address, data = _hex_record(number, line.strip())
        if kind == 1:
            return
        if kind in (2, 4):
            upper = int.from_bytes(data, "big") << (4 if kind == 2 else 16)
        if kind == 0:
            yield number, upper + address, data
    raise FileFault("the end of file record is missing")


def _hex_record(number: int, line: str) -> tuple[int, int, bytes]:
    """The type, the address and the data of a record."""
    if not re.fullmatch(r":([0-9a-fA-F]{2}){5,}", line):
        raise FileFault(f"line {number}: this is no record of Intel HEX")
    record = bytes.fromhex(line[1:])
    kind, data = record[3], record[4:-1]
    if record[0] != len(data) or sum(record) % 256:
        raise FileFault(f"line {number}: the length or the checksum of the record is wrong")
    if kind > 5 or kind in (2, 4) and len(data) != 2:
        raise FileFault(f"line {number}: a record of type {kind} can't be so")
    return kind, int.from_bytes(record[1:3], "big"), data


def _readmemh(text: str, form: ImageForm) -> Iterator[tuple[int, int, bytes]]:
    """The words of a $readmemh file: line, address, bytes. An address in the file counts words."""
    blanked = re.sub(r"/\*.*?\*/|//[^\n]*", lambda found: re.sub(r"[^\n]", " ", found[0]), text, flags=re.S)
    place = 0
    for number, line in enumerate(blanked.split("\n"), 1):
        for word in line.split():
            digits = word.removeprefix("@").replace("_", "")
            if not re.fullmatch(r"[0-9a-fA-F]{1,64}", digits):
                raise FileFault(f"line {number}: `{word[:20]}` is no number of $readmemh")
            value = int(digits, 16)
            if word.startswith("@"):
                place = value
                continue
            if value >> 8 * form.word:
                raise FileFault(f"line {number}: {word[:20]} is more than a word of {form.word} bytes")
            yield number, place * form.word, value.to_bytes(form.word, "big" if form.order == "big" else "little")
            place += 1
