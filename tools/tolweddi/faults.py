"""What can be wrong: the exceptions of this package, and the findings that they tell."""
from __future__ import annotations

from dataclasses import dataclass
from typing import Union

# so much of a message is shown
MOST_TOLD = 1000
MOST_QUOTED = 60

Path = tuple[Union[str, int], ...]


def one_line(text: str) -> str:
    """A text without ends of lines and other characters that don't print, cut where it is very long."""
    return printable(text if len(text) <= MOST_TOLD else text[:MOST_TOLD] + "...")


def printable(text: str) -> str:
    """A text with escapes in the place of what doesn't print."""
    return "".join(c if c.isprintable() else c.encode("unicode_escape").decode() for c in text)


def shown(text: str) -> str:
    """A line of a script, or a value, as it is shown in a message."""
    return f"`{text if len(text) < MOST_QUOTED else text[: MOST_QUOTED - 3] + '...'}`"


def spelt(path: Path) -> str:
    """A path as the program spells it, `hosts[0].id`; that of the whole bundle is `-`."""
    text = "".join(f"[{part}]" if isinstance(part, int) else f".{part}" for part in path)
    return text[1:] if path else "-"


@dataclass(frozen=True)
class Finding:
    """One thing that is wrong with an input: what the program says of it behind `refused` (nothing, where it is no fault and only
    most often a mistake), what it is about, what is wrong, and what would be right. `path` leads to the value in the bundle, and
    with `of_key` to its name; `at` is the place in the text where there is no path; `quote` is a line of a script."""

    said: str
    subject: str
    what: str
    hints: tuple[str, ...] = ()
    path: Path = ()
    of_key: bool = False
    at: int | None = None
    quote: str = ""

    def line(self) -> str:
        """All but the hints, in one line."""
        about = ", ".join(part for part in (self.subject, shown(self.quote) if self.quote else "") if part)
        return f"{about}: {self.what}" if about else self.what


class Fault(Exception):
    """What is wrong, and where, in one line. All that this package raises on purpose is one of these."""

    def __str__(self) -> str:
        return one_line(super().__str__())


class BundleFault(Fault):
    """A bundle has a fault; the text names the object. `finding` has the fault in parts, where it is one of a whole bundle."""

    def __init__(self, what: str, finding: Finding | None = None) -> None:
        super().__init__(what)
        self.finding = finding

    @staticmethod
    def of(finding: Finding) -> BundleFault:
        """The exception that tells this."""
        return BundleFault(finding.line(), finding)


class ReportFault(Fault):
    """A report isn't in the form of reports, or isn't one of the bundle; `line` counts from 1."""

    def __init__(self, line: int, what: str) -> None:
        super().__init__(f"line {line}: {what}")
        self.line = line


class FileFault(Fault):
    """A file can't be read as what it should be."""


class ProgramFault(Fault):
    """The program ended with a status other than 0; `status` is that, `text` its output."""

    def __init__(self, status: int, text: str, what: str) -> None:
        super().__init__(what)
        self.status, self.text = status, text


class Refused(ProgramFault):
    """The program refused the bundle. `fault` is the fault's name, as `script`; `place` names the object, as `host cpu0`, or is
    the path of a field, or empty; `line` is the line of a script, or None. `explanation` has several lines: what is wrong, the
    text in which it is, and what would be right, as tools/explain prints it."""

    def __init__(self, text: str, fault: str, place: str, line: int | None, what: str, explanation: str = "") -> None:
        super().__init__(3, text, f"{what} ({text})")
        self.fault, self.place, self.line, self.explanation = fault, place, line, explanation or str(self)


class NotLawful(ProgramFault):
    """`sb check` said no: `line` is the first bad line of the report, counted from 1, `reason` one of form, entry, short, text."""

    def __init__(self, text: str, line: int, reason: str) -> None:
        super().__init__(8, text, f"the report isn't one of this bundle: line {line}: {reason}")
        self.line, self.reason = line, reason


class NotAvailable(ProgramFault):
    """The program answered `usage`: it doesn't have this command, or not with these numbers."""
