"""Reports: the answers, the memories in the end, and the entries of a history."""
from __future__ import annotations

import os
import re
from collections.abc import Mapping
from dataclasses import dataclass, field

from .bundles import Bundle
from .faults import Fault, ReportFault
from .limits import ATOMIC, ATOMICS, MOST_BODY, MOST_PAGES, PAGE, POSTED, READ, ROW, WRITE
from .nodes import Transaction
from .tooling import of_file


@dataclass(frozen=True)
class Entry:
    """One entry of a history: a request that a device served. `line` is its line in the report."""

    line: int
    round: int
    device: str
    command: int
    address: int
    source: int
    body: bytes

    @property
    def opcode(self) -> int:
        """READ, WRITE, POSTED or ATOMIC."""
        return self.command & 31

    @property
    def verb(self) -> str:
        """The verb of scripts that asks for it."""
        return {READ: "rd", WRITE: "wr", POSTED: "wp"}.get(self.opcode) or ATOMICS[self.command >> 8 & 255]

    @property
    def size(self) -> int:
        """A word has 2^size bytes."""
        return self.command >> 5 & 3

    @property
    def count(self) -> int:
        """How many words it speaks of."""
        return 1 if self.opcode == ATOMIC else (self.command >> 8 & 255) + 1

    @property
    def bytes(self) -> int:
        """How many bytes it speaks of."""
        return self.count << self.size

    @property
    def is_last(self) -> bool:
        """Whether it ends its transaction."""
        return bool(self.command >> 22 & 1)

    @property
    def host_id(self) -> int:
        """The id of the host that asks."""
        return self.command >> 27

    @property
    def transaction(self) -> int:
        """The number of the host's transaction: a reply address is id * 2^40 + transaction * 2^11 + offset."""
        return self.source % (1 << 40) >> 11

    @property
    def offset(self) -> int:
        """How many bytes of the transaction come before it."""
        return self.source % (1 << 11)


@dataclass(frozen=True)
class Answer:
    """What a transaction was answered: ok, exok, deverr, neterr or posted, and the bytes of a read or an atomic."""

    code: str
    data: bytes

    @property
    def number(self) -> int:
        """The bytes as a number, the byte of the lowest address lowest."""
        return int.from_bytes(self.data, "little")


@dataclass(repr=False)
class Report:
    """What a run came to: by host its answers, by device the bytes of its memory in the end, and the entries of the history, in
    order, or None in a report without one. `text` is the report itself."""

    text: str
    side: int | None = None
    entries: list[Entry] | None = None
    answers: dict[str, list[Answer]] = field(default_factory=dict)
    images: dict[str, bytes] = field(default_factory=dict)

    def __repr__(self) -> str:
        history = "no history" if self.entries is None else f"{len(self.entries)} entries"
        transactions = sum(map(len, self.answers.values()))
        return f"<Report: {len(self.answers)} hosts, {transactions} transactions, {history}, {len(self.images)} memories>"

    def __getitem__(self, transaction: Transaction) -> Answer:
        return self.answer(transaction.host, transaction.index)

    def answer(self, host: str, index: int) -> Answer:
        """The answer to a transaction by its host's name and its number from 0."""
        if host not in self.answers or not 0 <= index < len(self.answers[host]):
            raise Fault(f"the report has no transaction {index} of a host {host}")
        return self.answers[host][index]

    def image(self, device: str) -> bytes:
        """All bytes of a memory in the end."""
        if device not in self.images:
            raise Fault(f"the report has no device {device}")
        return self.images[device]

    def history(self) -> list[Entry]:
        """The entries; raises ReportFault in a report without a history."""
        if self.entries is None:
            raise ReportFault(2, "this report has no history; run with --history")
        return self.entries

    @staticmethod
    def read(path: str | os.PathLike[str], bundle: Bundle | None = None, history: bool = False) -> Report:
        """The report of a file; with the bundle, one that can be of this bundle; where it is asked for, one with a history."""

        def read(data: bytes) -> Report:
            report = Report.parse(data, bundle)
            if history:
                report.history()
            return report

        return of_file(path, read)

    @staticmethod
    def parse(data: bytes | str, bundle: Bundle | None = None) -> Report:
        """The report of a text; raises ReportFault. With the bundle, its names, counts and addresses have to be the bundle's.
        Whether the run is a lawful one isn't asked here: `check` asks the program."""
        report = _Lines(data.decode("latin-1") if isinstance(data, bytes) else data).report()
        if bundle is not None:
            _compare(report, bundle)
        return report


_HOST = re.compile(r"host ([a-z][a-z0-9_]{0,15}) (0|[1-9][0-9]{0,9})")
_DEVICE = re.compile(r"device ([a-z][a-z0-9_]{0,15}) ([1-9][0-9]{0,2})")
_ANSWER = re.compile(r"t (0|[1-9][0-9]{0,9}) (ok|exok|deverr|neterr|posted) (-|(?:[0-9a-f]{2})+)")
_ENTRY = re.compile(r"e (0|[1-9][0-9]{0,9}) ([a-z][a-z0-9_]{0,15}) ([0-9a-f]{8}) ([0-9a-f]{14}) ([0-9a-f]{14}) (-|(?:[0-9a-f]{2}){1,32})")
_ROW = re.compile(r"m ([0-9a-f]{5}) ([0-9a-f]{64})")


def _bytes(word: str) -> bytes:
    """The bytes of a BODY of a report."""
    return b"" if word == "-" else bytes.fromhex(word)


class _Lines:
    """Reads the lines of a report one after another."""

    def __init__(self, text: str) -> None:
        self.text, self.lines, self.at = text, text.split("\n"), 0

    def fault(self, what: str) -> ReportFault:
        """What is wrong in the next line."""
        return ReportFault(self.at + 1, what)

    def match(self, pattern: re.Pattern[str]) -> re.Match[str] | None:
        """Takes the next line where it has the pattern."""
        found = pattern.fullmatch(self.lines[self.at]) if self.at < len(self.lines) else None
        self.at += found is not None
        return found

    def report(self) -> Report:
        """All of a report."""
        first = self.match(re.compile(r"sb 1(?: side ([01]))?"))
        if not first:
            raise self.fault("a report begins with `sb 1`")
        report = Report(self.text, int(first[1]) if first[1] else None)
        history = self.match(re.compile(r"history (0|[1-9][0-9]{0,9})"))
        if history:
            report.entries = [self.entry() for _ in range(int(history[1]))]
        while host := self.match(_HOST):
            self.known(report.answers, host[1])
            report.answers[host[1]] = [self.answer(number) for number in range(int(host[2]))]
        while device := self.match(_DEVICE):
            self.known(report.images, device[1])
            report.images[device[1]] = self.image(int(device[2]))
        if not self.match(re.compile("end")) or self.lines[self.at :] != [""]:
            raise self.fault("this isn't the line that a report has here, and `end` is its last one")
        return report

    def known(self, names: Mapping[str, object], name: str) -> None:
        """Refuses a name that comes twice."""
        if name in names:
            self.at -= 1
            raise self.fault(f"{name} comes twice")

    def entry(self) -> Entry:
        """The next line, as an entry."""
        found = self.match(_ENTRY)
        if not found:
            raise self.fault("an entry of the history is missing or hasn't the form `e ROUND DEVICE CMD DST SRC BODY`")
        command, address, source = (int(found[at], 16) for at in (3, 4, 5))
        entry = Entry(self.at, int(found[1]), found[2], command, address, source, _bytes(found[6]))
        if not _is_request(entry):
            self.at -= 1
            raise self.fault(f"command {entry.command:08x} is no request that speaks of this body")
        return entry

    def answer(self, number: int) -> Answer:
        """The next line, as the answer to the transaction of this number."""
        found = self.match(_ANSWER)
        if not found or int(found[1]) != number:
            self.at -= found is not None
            raise self.fault(f"the answer to transaction {number} is missing or hasn't the form `t I CODE BODY`")
        return Answer(found[2], _bytes(found[3]))

    def image(self, pages: int) -> bytes:
        """The rows of a device, as all its bytes."""
        if pages > MOST_PAGES:
            self.at -= 1
            raise self.fault(f"a device has at most {MOST_PAGES} pages")
        image, least = bytearray(pages * PAGE), 0
        while row := self.match(_ROW):
            place = int(row[1], 16)
            if place % ROW or not least <= place < len(image):
                self.at -= 1
                raise self.fault("this row isn't behind the one before and within the device")
            image[place : place + ROW] = bytes.fromhex(row[2])
            least = place + ROW
        return bytes(image)


def _is_request(entry: Entry) -> bool:
    """Whether the command is that of a request that carries just as many bytes as the entry has."""
    if entry.opcode not in (READ, WRITE, POSTED, ATOMIC) or entry.command >> 5 & 7 > 3:
        return False
    if entry.opcode == ATOMIC and entry.command >> 8 & 255 >= len(ATOMICS) or entry.bytes > MOST_BODY:
        return False
    return len(entry.body) == (0 if entry.opcode == READ else entry.bytes)


def _compare(report: Report, bundle: Bundle) -> None:
    """Raises ReportFault where the report can't be one of the bundle by its names, counts and addresses."""
    devices = {device.name: device for device in bundle.devices}
    round_ = 0
    for entry in report.entries or []:
        if entry.round < round_:
            raise ReportFault(entry.line, f"round {entry.round} comes behind round {round_}")
        round_ = entry.round
        device, host = devices.get(entry.device), bundle.host_of_id(entry.host_id)
        if device is None or not device.has(entry.address) or entry.address + entry.bytes > device.end:
            raise ReportFault(entry.line, f"the bundle has no device {entry.device} with the address {entry.address:#x}")
        if host is None or entry.source >> 40 != host.id or entry.transaction >= host.transactions:
            raise ReportFault(entry.line, f"the bundle has no transaction with the reply address {entry.source:#x} of a host with id {entry.host_id}")
    if report.side is None:
        hosts = [(host.name, host.transactions) for host in bundle.hosts]
        _compare_lists(report, "host", hosts, [(name, len(answers)) for name, answers in report.answers.items()])
        memories = [(device.name, device.pages) for device in bundle.devices]
        _compare_lists(report, "device", memories, [(name, len(image) // PAGE) for name, image in report.images.items()])


def _compare_lists(report: Report, kind: str, due: list[tuple[str, int]], told: list[tuple[str, int]]) -> None:
    """Raises ReportFault at the first host or device that isn't the bundle's."""
    if due == told:
        return
    at = next((at for at, (a, b) in enumerate(zip(due, told)) if a != b), min(len(due), len(told)))
    lines = report.text.split("\n")
    places = [number for number, line in enumerate(lines, 1) if line.startswith(kind + " ")]
    line = places[at] if at < len(places) else len(lines) - 1
    wanted = "no more of them" if at >= len(due) else f"`{kind} {due[at][0]} {due[at][1]}`"
    raise ReportFault(line, f"the bundle has {wanted} here")
