"""Says why the program refuses an input, as it would itself: its first fault, with the place in the text, the names of what is
meant, and what would be right. tools/explain prints this, and `Refused` carries it."""
from __future__ import annotations

import itertools
from collections.abc import Iterable, Iterator
from dataclasses import dataclass, replace

from .bundles import Bundle
from .checks import Known, findings, line_finding
from .faults import BundleFault, Finding, printable
from .json_text import kind_of, text_of
from .limits import MOST_BYTES, MOST_LINES, MOST_WORDS
from .nodes import Device
from .places import place_of
from .scripts import Access, LineFault, access_of
from .warnings import nearest, warning_of, warnings

# so many characters of a line are shown, and so many warnings
ROOM = 100
MOST_WARNINGS = 20
SEPARATOR = "%report"
MEMORY = Device("mem", 0, 16)


@dataclass(frozen=True)
class Explanation:
    """What is found in one input. `status` is 1 where the program refuses it, and `notes` is what is to be said besides."""

    text: str
    findings: tuple[Finding, ...]
    notes: tuple[str, ...] = ()
    more: int = 0

    @property
    def status(self) -> int:
        """1 where the program refuses the input, else 0."""
        return int(any(finding.said for finding in self.findings))


# what is found


def of_bundle(data: bytes) -> Explanation:
    """What `replay` and `run` say of a bundle."""
    if len(data) > MOST_BYTES:
        return Explanation("", (_too_long(data),))
    try:
        known = Known(Bundle.parse(data))
    except BundleFault as fault:
        return Explanation(text_of(data), (fault.finding,) if fault.finding else ())
    first = next(findings(known), None)
    return Explanation(text_of(data), (first,)) if first else _with_warnings(text_of(data), warnings(known))


def of_script(data: bytes) -> Explanation:
    """What `solo` says of a script."""
    if len(data) > MOST_BYTES:
        return Explanation("", (_too_long(data),))
    text = text_of(data)
    if kind_of(text) == "bundle":
        hint = "this looks like a bundle: `sb replay` and `sb run` take it"
        return Explanation(text, tuple(replace(finding, hints=(hint,)) for finding in _of_lines(text).findings))
    return _of_lines(text)


def of_evidence(data: bytes) -> Explanation:
    """What `check` says of a bundle, a line `%report` and a report, before it judges the report."""
    if len(data) > MOST_BYTES:
        return Explanation("", (_too_long(data),))
    bundle, found, _ = (b"\n" + data + b"\n").partition(f"\n{SEPARATOR}\n".encode())
    return of_bundle(bundle[1:] + b"\n") if found else Explanation(text_of(data), (_no_report(text_of(data)),))


def _too_long(data: bytes) -> Finding:
    """The finding for an input of too many bytes."""
    return Finding("too long", "", f"the input has {len(data)} bytes, more than {MOST_BYTES}", path=())


def _no_report(text: str) -> Finding:
    """The finding where the line is missing that stands between a bundle and a report."""
    at = max(text.find(SEPARATOR), 0)
    line = text[text.rfind("\n", 0, at) + 1 :].split("\n", 1)[0]
    if SEPARATOR in line:
        hint = f"the line is `{printable(line[:60])}`: it has to be `{SEPARATOR}` alone; write an end of line in front of it, as by `echo`"
    elif kind_of(text) == "report":
        hint = "this looks like a report: its bundle and the line have to stand before it"
    else:
        hint = f"(cat BUNDLE; echo; echo {SEPARATOR}; cat REPORT) | ./sb check"
    return Finding("noreport", "", f"no line is `{SEPARATOR}`, which stands between the bundle and the report", (hint,), at=at)


def _of_lines(text: str) -> Explanation:
    """What is found in a script."""
    lines = text.split("\n")
    lines = lines if lines[-1] else lines[:-1]
    if len(lines) > MOST_LINES:
        return Explanation(text, (Finding(f"lines {len(lines)}", "", f"the script has {len(lines)} lines, more than {MOST_LINES}", at=0),))
    found: list[tuple[int, str, int, Access]] = []
    for finding in _line_faults(lines, found):
        return Explanation(text, (finding,))
    words = sum(access.count for *_, access in found)
    if words > MOST_WORDS:
        return Explanation(text, (Finding(f"words {words}", "", f"the script has {words} words, more than {MOST_WORDS}", at=0),))
    return _with_warnings(text, _warnings_of_lines(found))


def _line_faults(lines: list[str], found: list[tuple[int, str, int, Access]]) -> Iterator[Finding]:
    """The lines with a fault; the others are found: number, line, place, and what they ask for."""
    at = 0
    for number, line in enumerate(lines, 1):
        try:
            access = access_of(line)
        except LineFault as fault:
            yield line_finding(f"line {number} {fault}", f"line {number}", line, str(fault), at=at)
        else:
            found += [(number, line, at, access)] if access else []
        at += len(line) + 1


def _warnings_of_lines(found: list[tuple[int, str, int, Access]]) -> Iterator[Finding]:
    """What is most likely a mistake in a script without a fault."""
    for number, line, at, access in found:
        if not MEMORY.has(access.address):
            yield Finding("", f"line {number}", warning_of(access, None), (nearest([MEMORY], access.address),), at=at, quote=line)


def _with_warnings(text: str, found: Iterable[Finding]) -> Explanation:
    """The first of the warnings, and how many more there are."""
    told = iter(found)
    first = tuple(itertools.islice(told, MOST_WARNINGS))
    return Explanation(text, first, more=sum(1 for _ in told))


# how it is told


@dataclass(frozen=True)
class Style:
    """What is written before a place, a refusal and a quote, and behind them: colours of a terminal, or nothing."""

    place: str = ""
    refused: str = ""
    quote: str = ""
    end: str = ""


PLAIN = Style()
COLOURED = Style("\033[1m", "\033[31m", "\033[2m", "\033[0m")


def told(explanation: Explanation, name: str, style: Style = PLAIN) -> str:
    """An explanation as lines of text; the name of the input stands in front of the places, where it has one."""
    parts = [line for finding in explanation.findings for line in _lines_of(finding, explanation.text, name, style)]
    parts += [f"and {explanation.more} more warning{'s' * (explanation.more > 1)}"] * (explanation.more > 0)
    return "".join(line + "\n" for line in (*parts, *explanation.notes))


def _lines_of(finding: Finding, text: str, name: str, style: Style) -> Iterator[str]:
    """A finding: what it is in one line, the text with its place, and what would be right."""
    at = _place(finding, text)
    number, start = text.count("\n", 0, at) + 1, text.rfind("\n", 0, at) + 1
    line = text[start:].split("\n", 1)[0]
    place = f"{style.place}{name}:{number}:{at - start + 1}:{style.end} " if name else ""
    about = f"{finding.subject}: " if finding.subject and finding.said != "json" else ""
    what = printable(about + finding.what)
    yield place + (f"{what} ({style.refused}{_answer(finding)}{style.end})" if finding.said else f"warning: {what}")
    if text:
        quote, caret = quoted(line, at - start)
        yield f"{style.quote}{number:5} | {quote}{style.end}"
        yield f"{style.quote}      | {' ' * caret}^{style.end}"
    yield from (f"  {printable(hint)}" for hint in finding.hints)


def _answer(finding: Finding) -> str:
    """What the program prints."""
    return finding.said if finding.said == "too long" else printable(f"refused {finding.said}")


def _place(finding: Finding, text: str) -> int:
    """Where a finding is in the text."""
    if finding.at is not None:
        return min(finding.at, len(text))
    return place_of(text, finding.path)[0 if finding.of_key else 1] if text else 0


def quoted(line: str, column: int) -> tuple[str, int]:
    """As much of a line round a column as is shown, and where the column is in it."""
    first = max(0, min(column - ROOM // 2, len(line) - ROOM))
    before, behind = printable(line[first:column].replace("\t", " ")), printable(line[column : first + ROOM].replace("\t", " "))
    head, tail = "..." * (first > 0), "..." * (len(line) > first + ROOM)
    return head + before + behind + tail, len(head) + len(before)
