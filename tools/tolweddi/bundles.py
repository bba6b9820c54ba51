"""Bundles: making a network, looking into one, checking it, its text."""
from __future__ import annotations

import os
from collections.abc import Mapping
from dataclasses import dataclass, field
from typing import TypeVar

from .checks import Known, findings
from .faults import BundleFault
from .limits import NAME, NAME_RULE, PAGE
from .loading import parts_of
from .nodes import Device, Host, Link, Node, Router
from .tooling import of_file
from .writing import text_of_bundle

T = TypeVar("T", Host, Router, Device, Link)


@dataclass(repr=False)
class Bundle:
    """A network: hosts, routers, devices, the links between them, and the name of the wire where it has one."""

    hosts: list[Host] = field(default_factory=list)
    routers: list[Router] = field(default_factory=list)
    devices: list[Device] = field(default_factory=list)
    links: list[Link] = field(default_factory=list)
    wire: str | None = None

    def __repr__(self) -> str:
        lists = {"hosts": self.hosts, "routers": self.routers, "devices": self.devices, "links": self.links}
        counts = ", ".join(f"{len(found)} {name}" for name, found in lists.items())
        return f"<Bundle: {counts}, {sum(host.transactions for host in self.hosts)} transactions>"

    # making one

    def add_host(self, name: str, id: int | None = None, qos: int = 0, prot: int = 0) -> Host:
        """Adds a host; without an id it has the least that is free."""
        self._new_node("host", name)
        taken = {host.id for host in self.hosts}
        free = next(number for number in range(len(taken) + 1) if number not in taken)
        self.hosts.append(Host(name, free if id is None else id, qos, prot))
        return self.hosts[-1]

    def add_router(self, name: str, side: int = 0) -> Router:
        """Adds a router; requests pass routers in the order in which they are added."""
        self._new_node("router", name)
        self.routers.append(Router(name, side))
        return self.routers[-1]

    def add_device(self, name: str, base: int, pages: int = 1, readonly: bool = False, image: bytes = b"") -> Device:
        """Adds a memory, whose first byte has the address `base`, a multiple of 4,096."""
        self._new_node("device", name)
        if not isinstance(base, int) or base < 0 or base % PAGE:
            raise BundleFault(f"device {name}: base {base!r} isn't a number that is a multiple of {PAGE}")
        self.devices.append(Device(name, base, pages, readonly, image))
        return self.devices[-1]

    def add_link(self, source: Node | str, target: Node | str, width: int = 32, capacity: int = 8, name: str = "") -> Link:
        """Adds a link, named by its number (l0, l1, ..) where no name is given."""
        first, last = (end if isinstance(end, str) else end.name for end in (source, target))
        name = name or f"l{len(self.links)}"
        _new_name("link", name, {link.name: "link" for link in self.links})
        self.links.append(Link(name, first, last, width, capacity))
        return self.links[-1]

    def _new_node(self, kind: str, name: str) -> None:
        """Raises BundleFault where a host, router or device can't have the name."""
        _new_name(kind, name, {node.name: type(node).__name__.lower() for node in self.nodes()})

    def add_routes(self) -> None:
        """Adds each route that is missing and can be had: by the link from which the fewest links lead to the device, and the
        first of these."""
        for device in self.devices:
            far = {device.name: 0}
            for router in reversed(self.routers):
                ways = [link for link in self.links if link.source == router.name and link.target in far]
                if ways:
                    way = min(ways, key=lambda link: far[link.target])
                    far[router.name] = far[way.target] + 1
                    router.routes.setdefault(device.name, way.name)

    # looking into one

    def nodes(self) -> list[Node]:
        """The hosts, then the routers, then the devices."""
        return [*self.hosts, *self.routers, *self.devices]

    def host(self, name: str) -> Host:
        """The host of that name."""
        return self._named(self.hosts, "host", name)

    def router(self, name: str) -> Router:
        """The router of that name."""
        return self._named(self.routers, "router", name)

    def device(self, name: str) -> Device:
        """The device of that name."""
        return self._named(self.devices, "device", name)

    def link(self, name: str) -> Link:
        """The link of that name."""
        return self._named(self.links, "link", name)

    @staticmethod
    def _named(objects: list[T], kind: str, name: str) -> T:
        """The object of that name."""
        for found in objects:
            if found.name == name:
                return found
        raise BundleFault(f"the bundle has no {kind} {name}")

    def host_of_id(self, id: int) -> Host | None:
        """The host with this id, or None."""
        return next((host for host in self.hosts if host.id == id), None)

    def device_at(self, address: int) -> Device | None:
        """The device that has this address, or None."""
        return next((device for device in self.devices if device.has(address)), None)

    # checking one

    def check(self) -> None:
        """Raises BundleFault with the first fault, by the name of the object. The program has the last word: it makes all these
        checks itself."""
        for finding in findings(Known(self)):
            raise BundleFault.of(finding)

    # texts

    def text(self) -> str:
        """The bundle as JSON, an object a line, the lines of a script each on its own."""
        return text_of_bundle(self)

    @staticmethod
    def read(path: str | os.PathLike[str]) -> Bundle:
        """The bundle of a file, checked."""
        return of_file(path, lambda data: Bundle.parse(data, check=True))

    @staticmethod
    def parse(data: bytes | str, check: bool = False) -> Bundle:
        """The bundle of a text; raises BundleFault with the path of the field that isn't as it must be."""
        bundle = Bundle(**parts_of(data))
        if check:
            bundle.check()
        return bundle


def _new_name(kind: str, name: str, taken: Mapping[str, str]) -> None:
    """Raises BundleFault where a name is none, or is taken."""
    if not isinstance(name, str) or not NAME.fullmatch(name):
        raise BundleFault(f"{kind} {name!r}: that is no name: {NAME_RULE}")
    if name in taken:
        raise BundleFault(f"{kind} {name}: a {taken[name]} has this name already")
