"""Reads the manual of sb, docs/manual.toml, and the version, which stands in pyproject.toml."""
from __future__ import annotations

import dataclasses
import pathlib
import sys
import tomllib
from typing import Any, NoReturn

ROOT = pathlib.Path(__file__).resolve().parent.parent
MANUAL = ROOT / "docs/manual.toml"
PROJECT = ROOT / "pyproject.toml"
HELP = ROOT / "docs/help.txt"


@dataclasses.dataclass(frozen=True)
class Number:
    """The range of a number, and what it is where it isn't given."""

    least: int
    most: int
    default: int | None = None

    def range(self) -> str:
        return f"{self.least} to {self.most}"

    def told(self) -> str:
        return self.range() if self.default is None else f"{self.range()}; {self.default} where it isn't given"


@dataclasses.dataclass(frozen=True)
class Command:
    name: str
    brief: str
    does: str
    files: list[str] = dataclasses.field(default_factory=list)
    number: Number | None = None

    def operands(self) -> str:
        """What stands behind the command and its options."""
        return " ".join(["N"] * (self.number is not None) + [f"[{' '.join(self.files)}]"] * bool(self.files))


@dataclasses.dataclass(frozen=True)
class Option:
    """An option of commands, or, where it has none, what stands in the place of a command."""

    name: str
    commands: list[str]
    does: str
    also: list[str] = dataclasses.field(default_factory=list)
    number: Number | None = None

    def words(self) -> str:
        return self.name + " N" * (self.number is not None)

    def all_words(self) -> str:
        return ", ".join([*self.also, self.words()])

    def told(self) -> str:
        """What it does, with the range of its number."""
        return self.does + (f", {self.number.told()}" if self.number else "")


@dataclasses.dataclass(frozen=True)
class Status:
    status: int
    prints: str
    means: str


@dataclasses.dataclass(frozen=True)
class Named:
    """A variable of the environment or a file, and what it does."""

    name: str
    does: str


@dataclasses.dataclass(frozen=True)
class Example:
    command: str
    does: str


@dataclasses.dataclass(frozen=True)
class Manual:
    name: str
    title: str
    about: list[str]
    input: list[str]
    diagnostics: list[str]
    more: list[str]
    commands: list[Command]
    options: list[Option]
    statuses: list[Status]
    variables: list[Named]
    files: list[Named]
    examples: list[Example]

    def options_of(self, command: Command) -> list[Option]:
        return [option for option in self.options if command.name in option.commands]

    def alone(self) -> list[Option]:
        """The options that stand in the place of a command."""
        return [option for option in self.options if not option.commands]

    def forms(self) -> list[str]:
        """How sb is called: a line a command, and one for what stands in its place."""
        made = []
        for command in self.commands:
            options = [f"[{option.words()}]" for option in self.options_of(command)]
            made.append(" ".join([self.name, command.name, *options, command.operands()]))
        return [*made, " | ".join(f"{self.name} {option.name}" for option in self.alone())]


def stop(what: str) -> NoReturn:
    sys.exit(f"{pathlib.Path(sys.argv[0]).name}: {what}")


def read_toml(path: pathlib.Path) -> dict[str, Any]:
    try:
        return tomllib.loads(path.read_text())
    except (OSError, ValueError) as fault:
        stop(f"{path}: {fault}")


def version() -> str:
    """The version of all of this."""
    return read_toml(PROJECT)["project"]["version"]


def with_number(entry: dict[str, Any]) -> dict[str, Any]:
    return {**entry, "number": Number(**entry["number"])} if "number" in entry else entry


def one_line(value: Any) -> Any:
    """The same with each run of blanks and ends of lines as one blank, so that the file may break lines anywhere."""
    if isinstance(value, str):
        return " ".join(value.split())
    if isinstance(value, list):
        return [one_line(part) for part in value]
    if isinstance(value, dict):
        return {key: one_line(part) for key, part in value.items()}
    return value


def made(text: dict[str, Any]) -> Manual:
    """The manual of these tables. A field that is missing or that nobody knows is a TypeError."""
    kinds = {"statuses": Status, "variables": Named, "files": Named, "examples": Example}
    lists: dict[str, Any] = {key: [kind(**entry) for entry in text.pop(key)] for key, kind in kinds.items()}
    lists["commands"] = [Command(**with_number(entry)) for entry in text.pop("commands")]
    lists["options"] = [Option(**with_number(entry)) for entry in text.pop("options")]
    return Manual(**text, **lists)


def faults(manual: Manual) -> list[str]:
    """What contradicts itself."""
    known = {command.name for command in manual.commands}
    names = [command.name for command in manual.commands] + [option.name for option in manual.options]
    found = [f"{name} is there twice" for name in sorted(set(names)) if names.count(name) > 1]
    for option in manual.options:
        found += [f"{option.name} is said to be of {name}, which is no command" for name in option.commands if name not in known]
        if option.number and not option.number.least <= (option.number.default or 0) <= option.number.most:
            found.append(f"{option.name}: {option.number.default} isn't {option.number.range()}")
    numbers = [status.status for status in manual.statuses]
    return found + ["the statuses don't rise"] * (numbers != sorted(set(numbers)))


def read(path: pathlib.Path = MANUAL) -> Manual:
    try:
        manual = made(one_line(read_toml(path)))
    except (KeyError, TypeError) as fault:
        stop(f"{path}: {fault}")
    for fault in faults(manual):
        stop(f"{path}: {fault}")
    return manual
