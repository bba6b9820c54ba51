"""Runs of the program. `program` is what is started: by default the launcher `./sb` of this repository, which proves and builds
the program where that wasn't done yet (some minutes, of which standard error tells); a path such as "crates/sb_cli/out/sb_cli"
starts the built program itself, which is quicker where many runs follow one another."""
from __future__ import annotations

import os
import pathlib
import subprocess
from collections.abc import Mapping
from typing import Any, Union

from .bundles import Bundle
from .explaining import of_bundle, told
from .faults import BundleFault, FileFault, NotAvailable, NotLawful, ProgramFault, Refused
from .reports import Report
from .scripts import LINE_FAULTS
from .tooling import of_file

ROOT = pathlib.Path(__file__).resolve().parents[2]
LAUNCHER = str(ROOT / "sb")
Source = Union[Bundle, str, "os.PathLike[str]"]

BUNDLE_FAULTS = {
    "json": "the bytes are no JSON",
    "field": "a value is missing or of the wrong kind, or there is no such field",
    "count": "a number or a list is out of its range",
    "name": "a name isn't one, is taken, or names nothing",
    "hostid": "an earlier host has the same id",
    "range": "it doesn't begin with a page, or ends above 2^56",
    "overlap": "an earlier device has the same address",
    "image": "the image is longer than the device",
    "width": "the program doesn't take this width",
    "end": "it can't join what it joins",
    "backward": "it leads to the same router or to an earlier one",
    "unlinked": "it has no link",
    "route": "a route is missing or leads astray",
    "budget": "all scripts together have too many words",
}
# of what the numbers behind a fault are the places
PLACES = {
    "hostid": ("host",), "range": ("device",), "overlap": ("device", "device"), "image": ("device",), "width": ("link",),
    "end": ("link",), "backward": ("link",), "route": ("router", "device"), "script": ("host",),
}  # fmt: skip


def run(bundle: Source, workers: int = 4, history: bool = True, program: str | os.PathLike[str] = LAUNCHER) -> Report:
    """Runs a bundle, or the bundle of a file, on so many threads; raises Refused or another ProgramFault."""
    return _ran(bundle, ["run", "--workers", str(workers)], history, program)


def replay(bundle: Source, order: int = 0, history: bool = True, program: str | os.PathLike[str] = LAUNCHER) -> Report:
    """Runs a bundle on one thread, in the order of turns that a number names: the same each time."""
    return _ran(bundle, ["replay", "--order", str(order)], history, program)


def check(bundle: Source, report: Report | str, program: str | os.PathLike[str] = LAUNCHER) -> None:
    """Asks the program whether a report with a history is one that this bundle may have; raises NotLawful where it isn't."""
    text = _bytes_of(bundle)
    evidence = report if isinstance(report, str) else report.text
    end = b"" if text.endswith(b"\n") else b"\n"
    _call(program, ["check"], text + end + b"%report\n" + evidence.encode("latin-1", "replace"), bundle)


def _bytes_of(bundle: Source) -> bytes:
    """The text of a bundle, or of its file as it is."""
    if isinstance(bundle, Bundle):
        return bundle.text().encode()
    return of_file(bundle, lambda data: data)


def _names_of(bundle: Source) -> Bundle | None:
    """The bundle, so that places can be named; None where this package can't read it."""
    if isinstance(bundle, Bundle):
        return bundle
    try:
        return Bundle.parse(_bytes_of(bundle))
    except BundleFault:
        return None


def _ran(bundle: Source, words: list[str], history: bool, program: str | os.PathLike[str]) -> Report:
    """Runs a bundle by these words, and reads the report."""
    text = _call(program, words + ["--history"] * history, _bytes_of(bundle), bundle)
    return Report.parse(text, _names_of(bundle))


def _call(program: str | os.PathLike[str], words: list[str], given: bytes, bundle: Source) -> str:
    """The output of the program. What the launcher says while it builds goes to standard error, as ever."""
    try:
        ran = subprocess.run([program, *words], input=given, stdout=subprocess.PIPE)
    except OSError as fault:
        raise FileFault(f"{os.fspath(program)}: {fault.strerror or fault}") from None
    text = ran.stdout.decode("utf-8", "replace")
    if ran.returncode:
        raise _fault_for(ran.returncode, words[0], text, bundle)
    return text


def _fault_for(status: int, command: str, text: str, bundle: Source) -> ProgramFault:
    """The exception for a status other than 0."""
    line = text.removesuffix("\n")
    said = line.split(" ")
    if status == 2:
        return NotAvailable(status, text, f"the program has no command `{command}` with these words; it says usage")
    if status == 3 and len(said) > 1:
        return _refused(line, said[1], said[2:], bundle)
    if status == 8 and len(said) == 3 and said[1].isdigit():
        return NotLawful(line, int(said[1]), said[2])
    what = {1: "it couldn't be built", 4: "it couldn't read its input", 5: "it couldn't write", 6: "out of memory", 7: "the bundle is too long"}
    return ProgramFault(status, text, f"the program ended with status {status}: {what.get(status, line)}")


def _refused(line: str, fault: str, rest: list[str], bundle: Source) -> Refused:
    """The exception for a refusal, explained where this package finds the same fault."""
    names = _names_of(bundle)
    at = int(rest[1]) if fault == "script" and len(rest) == 3 and rest[1].isdigit() else None
    place = _place_of(fault, rest, names)
    found = of_bundle(_bytes_of(bundle))
    for finding in found.findings:
        if f"refused {finding.said}" == line:
            name = "" if isinstance(bundle, Bundle) else os.fspath(bundle)
            return Refused(line, fault, place, at, finding.line(), told(found, name))
    why = LINE_FAULTS.get(rest[-1], rest[-1]) if at else BUNDLE_FAULTS.get(fault, fault)
    where = ", ".join(part for part in (place, f"line {at}" if at else "") if part)
    return Refused(line, fault, place, at, f"{where}: {why}" if where else why)


def _place_of(fault: str, rest: list[str], names: Bundle | None) -> str:
    """The object that a fault is about, by name where that is known, or the path of a field."""
    if fault in ("field", "count", "name"):
        return " ".join(rest)
    if fault == "unlinked" and len(rest) == 2:
        return _place(rest[0], rest[1], names)
    return " and ".join(_place(kind, number, names) for kind, number in zip(PLACES.get(fault, ()), rest))


def _place(kind: str, number: str, names: Bundle | None) -> str:
    """An object by its kind and its place in the list, by name where that is known."""
    objects: Mapping[str, list[Any]] = vars(names) if names else {}
    found = objects.get(f"{kind}s", [])
    return f"{kind} {found[int(number)].name}" if number.isdigit() and int(number) < len(found) else f"{kind}s[{number}]"
