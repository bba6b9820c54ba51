"""The parts of a network: hosts with their scripts, routers, devices, links."""
from __future__ import annotations

from collections.abc import Iterator
from dataclasses import dataclass, field
from typing import Union

from .faults import BundleFault, shown
from .limits import PAGE
from .scripts import LINE_FAULTS, Access, LineFault, access_of, is_transaction


@dataclass(frozen=True)
class Transaction:
    """One transaction of a host; a report is asked for its answer by `report[transaction]`."""

    host: str
    index: int


@dataclass(repr=False)
class Host:
    """A host with its script. Lines are added by its methods, each of which gives the transaction; addresses and data are those
    of the script: words of 2^size bytes, the byte of the lowest address first."""

    name: str
    id: int
    qos: int = 0
    prot: int = 0
    script: list[str] = field(default_factory=list)

    def __post_init__(self) -> None:
        self.transactions = sum(map(is_transaction, self.script))

    def __repr__(self) -> str:
        return f"<Host {self.name}: id {self.id}, {self.transactions} transactions>"

    def line(self, text: str) -> Transaction:
        """Adds a line as it is. (The transaction of a comment is the one that comes next.)"""
        try:
            access_of(text)
        except LineFault as fault:
            raise BundleFault(f"host {self.name}, line {len(self.script) + 1} of the script, {shown(text)}: {LINE_FAULTS[str(fault)]}") from None
        self.script.append(text)
        made = Transaction(self.name, self.transactions)
        self.transactions += is_transaction(text)
        return made

    def accesses(self) -> Iterator[Access]:
        """What the transactions of the script ask for, in order."""
        return (access for access in map(access_of, self.script) if access is not None)

    def comment(self, text: str) -> None:
        """Adds a comment, which is no transaction."""
        self.line(f"# {text}")

    def read(self, address: int, size: int = 3, count: int = 1) -> Transaction:
        """Reads `count` words."""
        return self.line(f"rd {address:#x} {size} {count}")

    def write(self, address: int, size: int, data: bytes) -> Transaction:
        """Writes, and is answered."""
        return self.line(f"wr {address:#x} {size} {data.hex()}")

    def post(self, address: int, size: int, data: bytes) -> Transaction:
        """Writes without an answer: a posted write."""
        return self.line(f"wp {address:#x} {size} {data.hex()}")

    def atomic(self, verb: str, address: int, size: int, operand: int | bytes) -> Transaction:
        """An atomic on one word by its name in scripts. A number below 0 stands for itself in two's complement."""
        if isinstance(operand, int):
            if not 0 <= size <= 3 or not -(1 << 8 * (1 << size) - 1) <= operand < 1 << 8 * (1 << size):
                raise BundleFault(f"host {self.name}, line {len(self.script) + 1} of the script: {operand} is no word of SIZE {size}")
            operand = operand.to_bytes(1 << size, "little", signed=operand < 0)
        return self.line(f"{verb} {address:#x} {size} {operand.hex()}")

    def add(self, address: int, size: int, operand: int | bytes) -> Transaction:
        """Atomic: the sum, without the carry out of the word."""
        return self.atomic("add", address, size, operand)

    def and_(self, address: int, size: int, operand: int | bytes) -> Transaction:
        """Atomic: bit by bit, and."""
        return self.atomic("and", address, size, operand)

    def or_(self, address: int, size: int, operand: int | bytes) -> Transaction:
        """Atomic: bit by bit, or."""
        return self.atomic("or", address, size, operand)

    def xor(self, address: int, size: int, operand: int | bytes) -> Transaction:
        """Atomic: bit by bit, exclusive or."""
        return self.atomic("xor", address, size, operand)

    def max(self, address: int, size: int, operand: int | bytes) -> Transaction:
        """Atomic: the greater in two's complement."""
        return self.atomic("max", address, size, operand)

    def min(self, address: int, size: int, operand: int | bytes) -> Transaction:
        """Atomic: the smaller in two's complement."""
        return self.atomic("min", address, size, operand)

    def maxu(self, address: int, size: int, operand: int | bytes) -> Transaction:
        """Atomic: the greater without sign."""
        return self.atomic("maxu", address, size, operand)

    def minu(self, address: int, size: int, operand: int | bytes) -> Transaction:
        """Atomic: the smaller without sign."""
        return self.atomic("minu", address, size, operand)

    def swap(self, address: int, size: int, operand: int | bytes) -> Transaction:
        """Atomic: the operand takes the word's place."""
        return self.atomic("swap", address, size, operand)


@dataclass
class Router:
    """A router; `routes` names the link by which it sends on what is for a device."""

    name: str
    side: int = 0
    routes: dict[str, str] = field(default_factory=dict)


@dataclass(repr=False)
class Device:
    """A memory of `pages` pages from the address `base` on; `image` has its first bytes, and the others are 0."""

    name: str
    base: int
    pages: int = 1
    readonly: bool = False
    image: bytes = b""

    def __repr__(self) -> str:
        more = ", read-only" * self.readonly + f", an image of {len(self.image)} bytes" * bool(self.image)
        return f"<Device {self.name}: {self.pages} pages from {self.base:#x} on{more}>"

    @property
    def end(self) -> int:
        """The address behind its last byte."""
        return self.base + self.pages * PAGE

    def has(self, address: int) -> bool:
        """Whether it has this address."""
        return self.base <= address < self.end


@dataclass
class Link:
    """A link in the direction of requests, between things by their names; answers come back over it."""

    name: str
    source: str
    target: str
    width: int = 32
    capacity: int = 8


Node = Union[Host, Router, Device]
