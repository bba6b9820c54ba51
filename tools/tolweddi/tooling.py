"""What the tools share: files that are read and written, words of the command line, faults in one line."""
from __future__ import annotations

import argparse
import os
import pathlib
import sys
import tempfile
from collections.abc import Callable
from typing import NoReturn, TypeVar

from .faults import Fault, FileFault, one_line
from .limits import MOST_BYTES
from .scripts import LineFault, number_of

Found = TypeVar("Found")


def of_file(path: str | os.PathLike[str], read: Callable[[bytes], Found]) -> Found:
    """What is read out of a file's bytes; faults get the file's name in front."""
    try:
        with open(path, "rb") as file:
            data = file.read(MOST_BYTES * 4 + 1)
    except (OSError, ValueError) as fault:
        raise FileFault(f"{os.fspath(path)}: {getattr(fault, 'strerror', None) or fault}") from None
    if len(data) > MOST_BYTES * 4:
        raise FileFault(f"{os.fspath(path)}: this is longer than anything that is read here")
    try:
        return read(data)
    except Fault as fault:
        fault.args = (f"{os.fspath(path)}: {fault}",)
        raise


def put(path: str | None, data: bytes) -> None:
    """Writes a file whole or not at all, by a file beside it; or standard output, where there is no path."""
    try:
        _put(path, data)
    except OSError as fault:
        raise FileFault(f"{path or 'standard output'}: {fault.strerror or fault}") from None


def _put(path: str | None, data: bytes) -> None:
    """Does what put does."""
    if path is None or os.path.exists(path) and not os.path.isfile(path):
        with open(1 if path is None else path, "wb", buffering=0, closefd=path is not None) as out:
            while data:
                data = data[out.write(data) or 0 :]
        return
    target = pathlib.Path(os.path.realpath(path))
    mask = os.umask(0)
    os.umask(mask)
    mode = target.stat().st_mode & 0o777 if target.exists() else 0o666 & ~mask
    handle, beside = tempfile.mkstemp(prefix=f".{target.name[:100]}.", dir=target.parent)
    try:
        with open(handle, "wb") as out:
            out.write(data)
        os.chmod(beside, mode)
        os.replace(beside, target)
    except BaseException:
        os.unlink(beside)
        raise


class Arguments(argparse.ArgumentParser):
    """Arguments whose faults are told in one line."""

    def __init__(self, about: str | None) -> None:
        super().__init__(description=about, formatter_class=argparse.RawDescriptionHelpFormatter, allow_abbrev=False)

    def error(self, message: str) -> NoReturn:
        """Ends the program with what is wrong, in one line."""
        self.exit(2, f"{self.prog}: {one_line(message)}; --help says what is taken\n")

    def add_output(self) -> None:
        """The option -o."""
        self.add_argument("-o", "--output", metavar="FILE", help="write this file, whole or not at all, in place of standard output")


def as_tool(work: Callable[[], None]) -> int:
    """Does the work of a tool, and gives its status: a fault is told in one line on standard error, and gives 1."""
    try:
        work()
    except Fault as fault:
        print(f"{pathlib.Path(sys.argv[0]).name}: {fault}", file=sys.stderr)
        return 1
    return 0


def numeral(text: str) -> int:
    """A number of the command line: decimal, or hexadecimal behind 0x."""
    try:
        return number_of(text)
    except LineFault:
        raise argparse.ArgumentTypeError(f"`{text}` is no number") from None
