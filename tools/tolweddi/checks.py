"""The faults of a bundle whose fields are as they must be, in the order in which the program tells them, and what is no fault but
nearly always a mistake. A help, since it names the objects: the program makes all these checks itself."""
from __future__ import annotations

from collections.abc import Callable, Iterator, Sequence
from typing import TYPE_CHECKING, Union

from .faults import Finding, Path, spelt
from .limits import (
    MOST_CAPACITY, MOST_LINES, MOST_LINKS, MOST_NODES, MOST_PAGES, MOST_PAGES_OF_ALL, MOST_WORDS, NAME, NAME_RULE, PAGE, TOP, WIDTHS,
)  # fmt: skip
from .line_hints import close_to, line_hints
from .nodes import Device, Host, Link, Router
from .scripts import LINE_FAULTS, Access, LineFault, access_of

if TYPE_CHECKING:
    from .bundles import Bundle


class Known:
    """A bundle, with what several of the tests ask of it. `accesses` has, host by host, the lines of the script that are
    transactions, each with its number from 0, once the scripts were tested."""

    def __init__(self, net: Bundle) -> None:
        self.net = net
        self.kinds = {node.name: kind for kind, nodes in (("device", net.devices), ("router", net.routers), ("host", net.hosts)) for node in nodes}
        self.ranks = {router.name: at for at, router in enumerate(net.routers)}
        self.links = {link.name: link for link in reversed(net.links)}
        self.devices = {device.name: device for device in reversed(net.devices)}
        self.accesses: list[list[tuple[int, Access]]] = []

    def kind(self, name: str) -> str:
        """`host`, `router` or `device`."""
        return self.kinds[name]


def findings(known: Known) -> Iterator[Finding]:
    """The faults of a bundle; the first one is the program's."""
    return (finding for test in _TESTS for finding in test(known))


# numbers and lists


def _count(path: Path, subject: str, what: str, value: int, least: int, most: int) -> Iterator[Finding]:
    """A finding where a number is out of its range."""
    if not least <= value <= most:
        yield Finding(f"count {spelt(path)}", subject, f"{what} {value} isn't {least} to {most}", path=path)


def _counts(known: Known) -> Iterator[Finding]:
    """Numbers and lists out of their range."""
    net = known.net
    yield from _count(("hosts",), "", "the number of hosts,", len(net.hosts), 1, MOST_NODES)
    for at, host in enumerate(net.hosts):
        yield from _counts_of_host(("hosts", at), host, f"host {host.name}")
    yield from _count(("routers",), "", "the number of routers,", len(net.routers), 1, MOST_NODES)
    for at, router in enumerate(net.routers):
        yield from _count(("routers", at, "side"), f"router {router.name}", "side", router.side, 0, 1)
    yield from _count(("devices",), "", "the number of devices,", len(net.devices), 1, MOST_NODES)
    yield from _count(("devices",), "", "the pages of all devices,", sum(device.pages for device in net.devices), 0, MOST_PAGES_OF_ALL)
    for at, device in enumerate(net.devices):
        yield from _count(("devices", at, "pages"), f"device {device.name}", "pages", device.pages, 1, MOST_PAGES)
    yield from _count(("links",), "", "the number of links,", len(net.links), 1, MOST_LINKS)
    for at, link in enumerate(net.links):
        yield from _count(("links", at, "capacity"), f"link {link.name}", "capacity", link.capacity, 1, MOST_CAPACITY)


def _counts_of_host(path: Path, host: Host, subject: str) -> Iterator[Finding]:
    """Numbers of a host out of their range."""
    yield from _count((*path, "id"), subject, "id", host.id, 0, 31)
    yield from _count((*path, "qos"), subject, "qos", host.qos, 0, 15)
    yield from _count((*path, "prot"), subject, "prot", host.prot, 0, 3)
    yield from _count((*path, "script"), subject, "the number of lines of the script,", len(host.script), 0, MOST_LINES)


# names


def _named(nodes: Sequence[Union[Host, Router, Device, Link]], at: int, kind: str, taken: dict[str, str]) -> Iterator[Finding]:
    """A finding where a name is none, or is taken."""
    name = nodes[at].name
    path: Path = (f"{kind}s", at, "name")
    if not NAME.fullmatch(name):
        better = "".join(c if c.isascii() and (c.isalnum() or c == "_") else "_" for c in name.lower())
        hint = f"; `{better}` is one" if NAME.fullmatch(better) else ""
        yield Finding(f"name {spelt(path)}", f"{kind} {name}", "that is no name", (NAME_RULE + hint,), path)
    elif name in taken:
        hint = "each link has a name of its own" if kind == "link" else "hosts, routers and devices share one space of names"
        yield Finding(f"name {spelt(path)}", f"{kind} {name}", f"a {taken[name]} has this name too", (hint,), path)
    taken[name] = kind


def _unknown(path: Path, subject: str, what: str, name: str, names: Sequence[str], of_key: bool = False) -> Finding:
    """The finding for a name that names nothing."""
    meant = close_to(name, list(names))
    known = ", ".join(sorted(names)[:16]) + ", .." * (len(names) > 16)
    return Finding(f"name {spelt(path)}", subject, what, (f"did you mean {meant}?" if meant else f"there are {known}",), path, of_key)


def _names(known: Known) -> Iterator[Finding]:
    """Names that are none, that are taken, or that name nothing."""
    nodes: dict[str, str] = {}
    links: dict[str, str] = {}
    for at in range(len(known.net.hosts)):
        yield from _named(known.net.hosts, at, "host", nodes)
    for at in range(len(known.net.routers)):
        yield from _named(known.net.routers, at, "router", nodes)
        yield from _names_of_routes(known, at)
    for at in range(len(known.net.devices)):
        yield from _named(known.net.devices, at, "device", nodes)
    for at in range(len(known.net.links)):
        yield from _named(known.net.links, at, "link", links)
        yield from _names_of_ends(known, at)
    if known.net.wire is not None and known.net.wire not in known.links:
        yield _unknown(("wire",), f"the wire {known.net.wire}", "no link has this name", known.net.wire, list(known.links))


def _names_of_routes(known: Known, at: int) -> Iterator[Finding]:
    """Routes for no device, or by no link."""
    router = known.net.routers[at]
    for name, way in sorted(router.routes.items(), key=lambda route: route[0].encode("utf-8", "surrogatepass")):
        path: Path = ("routers", at, "routes", name)
        if name not in known.devices:
            what = f"the route to {name} by {way}: no device is called {name}"
            yield _unknown(path, f"router {router.name}", what, name, list(known.devices), of_key=True)
        elif way not in known.links:
            what = f"the route to {name} by {way}: no link is called {way}"
            yield _unknown(path, f"router {router.name}", what, way, list(known.links))


def _names_of_ends(known: Known, at: int) -> Iterator[Finding]:
    """Links from or to what there isn't."""
    link = known.net.links[at]
    for field, name in (("from", link.source), ("to", link.target)):
        if name not in known.kinds:
            yield _unknown(("links", at, field), f"link {link.name}", f"there is no host, router or device {name}", name, list(known.kinds))


# hosts and devices


def _ids(known: Known) -> Iterator[Finding]:
    """Hosts with the id of an earlier one."""
    taken: dict[int, str] = {}
    free = next(number for number in range(33) if number not in {host.id for host in known.net.hosts})
    for at, host in enumerate(known.net.hosts):
        if host.id in taken:
            hint = (f"the least id that is free is {free}",) if free < 32 else ()
            yield Finding(f"hostid {at}", f"host {host.name}", f"host {taken[host.id]} has the id {host.id} too", hint, ("hosts", at, "id"))
        taken.setdefault(host.id, host.name)


def _ranges(known: Known) -> Iterator[Finding]:
    """Devices that aren't whole pages."""
    for at, device in enumerate(known.net.devices):
        if device.base % PAGE or device.base < 0 or device.end > TOP:
            below = max(0, device.base - device.base % PAGE)
            near = f'base is a multiple of {PAGE:#x}, such as "{below:#x}" or "{below + PAGE:#x}"'
            hint = near if device.base % PAGE else f"the last address that there is is {TOP - 1:#x}"
            what = f"from {device.base:#x} to {device.end:#x} isn't whole pages below 2^56"
            yield Finding(f"range {at}", f"device {device.name}", what, (hint,), ("devices", at, "base"))


def _overlaps(known: Known) -> Iterator[Finding]:
    """Devices with an address that an earlier one has."""
    for at, device in enumerate(known.net.devices):
        for number, other in enumerate(known.net.devices[:at]):
            if device.base < other.end and other.base < device.end:
                has = (f"{one.name} has {one.base:#x} to {one.end - 1:#x}" for one in (device, other))
                hint = f'{", ".join(has)}; from "{other.end:#x}" on it is behind {other.name}'
                what = f"it overlaps device {other.name}"
                yield Finding(f"overlap {at} {number}", f"device {device.name}", what, (hint,), ("devices", at, "base"))


def _images(known: Known) -> Iterator[Finding]:
    """Images that are longer than their device."""
    for at, device in enumerate(known.net.devices):
        size, pages = len(device.image), -(-len(device.image) // PAGE)
        if size > device.pages * PAGE:
            what = f"the image has {size} bytes, more than the {device.pages * PAGE} of the device"
            hint = f'"pages": {pages} has room for it' if pages <= MOST_PAGES else f"a device has at most {MOST_PAGES} pages"
            yield Finding(f"image {at} {size}", f"device {device.name}", what, (hint,), ("devices", at, "image"))


# links


def _widths(known: Known) -> Iterator[Finding]:
    """Links of another width."""
    for at, link in enumerate(known.net.links):
        if link.width not in WIDTHS:
            hint = ("width counts bytes, not bits",) if link.width in (64, 128, 256) else ()
            yield Finding(f"width {at}", f"link {link.name}", f"width {link.width} isn't 8, 16 or 32", hint, ("links", at, "width"))


def _ends(known: Known) -> Iterator[Finding]:
    """Links that join what they can't."""
    left: dict[str, str] = {}
    reached: dict[str, str] = {}
    for at, link in enumerate(known.net.links):
        source, target = known.kind(link.source), known.kind(link.target)
        bad = _end(known, link, source, target) or _second(link, source, target, left, reached)
        if bad:
            what, hint = bad
            yield Finding(f"end {at}", f"link {link.name}", what, (hint,), ("links", at))
        left.setdefault(link.source, link.name)
        reached.setdefault(link.target, link.name)


def _end(known: Known, link: Link, source: str, target: str) -> tuple[str, str] | None:
    """Why a link can't join these, and what would be right."""
    if source == "device" or target == "host" or source == "host" and target == "device":
        what = f"it leads from {source} {link.source} to {target} {link.target}, and not from a host or router to a router or on to a device"
        back = "links lead in the direction of requests: answers come back over the same"
        return what, back if source == "device" or target == "host" else "a router stands between a host and a device"
    is_wire = link.name == known.net.wire
    if source != "router" or target != "router":
        return ("the wire joins two routers, and this one doesn't", "name a link between routers of both sides") if is_wire else None
    first, last = (known.net.routers[known.ranks[name]].side for name in (link.source, link.target))
    if is_wire and (first, last) != (0, 1):
        what = f"the wire leads from a router of side 0 to one of side 1, and this one from side {first} to side {last}"
        return what, "`side` of a router is 0 where it is left out"
    if not is_wire and first != last:
        hint = f'one link leads to the other side, and the bundle names it: "wire": "{link.name}"'
        return "it joins routers of both sides, and isn't the wire", hint
    return None


def _second(link: Link, source: str, target: str, left: dict[str, str], reached: dict[str, str]) -> tuple[str, str] | None:
    """Whether it is the second link of a host or device, and what would be right."""
    if source == "host" and link.source in left:
        return f"an earlier link, {left[link.source]}, leaves host {link.source} too", "a host has just one link; a router can have several"
    if target == "device" and link.target in reached:
        what = f"an earlier link, {reached[link.target]}, leads to device {link.target} too"
        return what, "just one link leads to a device; routers before it can have several"
    return None


def _backward(known: Known) -> Iterator[Finding]:
    """Links between routers that go back."""
    for at, link in enumerate(known.net.links):
        first, last = known.ranks.get(link.source), known.ranks.get(link.target)
        if first is not None and last is not None and last <= first:
            what = f"it leads from router {link.source} back to {link.target}, which isn't behind it in the list"
            hint = "routers stand in the list in the order in which requests pass them; answers come back over the same links"
            yield Finding(f"backward {at}", f"link {link.name}", what, (hint,), ("links", at))


def _unlinked(known: Known) -> Iterator[Finding]:
    """Hosts and devices without a link."""
    joined = {end for link in known.net.links for end in (link.source, link.target)}
    for at, host in enumerate(known.net.hosts):
        if host.name not in joined:
            hint = f'a link from it leads to a router: "from": "{host.name}"'
            yield Finding(f"unlinked host {at}", f"host {host.name}", "it has no link", (hint,), ("hosts", at))
    for at, device in enumerate(known.net.devices):
        if device.name not in joined:
            hint = f'a link from a router leads to it: "to": "{device.name}"'
            yield Finding(f"unlinked device {at}", f"device {device.name}", "it has no link", (hint,), ("devices", at))


# scripts and routes


def _scripts(known: Known) -> Iterator[Finding]:
    """Lines of scripts with a fault."""
    for at, host in enumerate(known.net.hosts):
        known.accesses.append([])
        yield from _lines(known.accesses[-1], at, host)


def _lines(found: list[tuple[int, Access]], host_at: int, host: Host) -> Iterator[Finding]:
    """Lines of a script with a fault; the others are found."""
    for at, line in enumerate(host.script):
        try:
            access = access_of(line)
        except LineFault as fault:
            subject, path = f"host {host.name}, line {at + 1} of the script", ("hosts", host_at, "script", at)
            yield line_finding(f"script {host_at} {at + 1} {fault}", subject, line, str(fault), path)
        else:
            found += [(at, access)] if access else []


def line_finding(said: str, subject: str, line: str, fault: str, path: Path = (), at: int | None = None) -> Finding:
    """The finding for a line of a script with this fault."""
    return Finding(said, subject, LINE_FAULTS[fault], line_hints(line, fault), path, at=at, quote=line)


def _stray(known: Known) -> Iterator[Finding]:
    """Routes that lead astray."""
    for at, router in enumerate(known.net.routers):
        for number, device in enumerate(known.net.devices):
            way = known.links.get(router.routes.get(device.name, ""))
            if way and (way.source != router.name or way.target in known.devices and way.target != device.name):
                what = f"the route to {device.name} by {way.name} leads from {way.source} to {way.target}"
                path: Path = ("routers", at, "routes", device.name)
                yield Finding(f"route {at} {number}", f"router {router.name}", what, tuple(_way_hints(known, router, device)), path)


def _needed(known: Known) -> Iterator[Finding]:
    """Routes that are missing where a host needs them."""
    first = {link.source: link.target for link in known.net.links}
    for at, host in enumerate(known.net.hosts):
        pages = {access.address // PAGE for _, access in known.accesses[at]}
        for number, device in enumerate(known.net.devices):
            if any(device.has(page * PAGE) for page in pages):
                yield from _missing(known, first[host.name], number, f"which host {host.name} needs")


def _missing(known: Known, start: str, number: int, why: str) -> Iterator[Finding]:
    """A finding where the way from a router to a device ends before it is there."""
    here, device = start, known.net.devices[number]
    while here in known.ranks and device.name in known.net.routers[known.ranks[here]].routes:
        here = known.links[known.net.routers[known.ranks[here]].routes[device.name]].target
    if here in known.ranks:
        at = known.ranks[here]
        hints = tuple(_way_hints(known, known.net.routers[at], device))
        what = f"it has no route to device {device.name}, {why}"
        yield Finding(f"route {at} {number}", f"router {here}", what, hints, ("routers", at, "routes"))


def _way_hints(known: Known, router: Router, device: Device) -> Iterator[str]:
    """By which links of a router a device can be reached."""
    near = {device.name}
    for other in reversed(known.net.routers):
        if any(link.source == other.name and link.target in near for link in known.net.links):
            near.add(other.name)
    ways = [link for link in known.net.links if link.source == router.name and link.target in near]
    for way in ways[:3]:
        further = "" if way.target == device.name else f", from where {device.name} can be reached"
        yield f'"{device.name}": "{way.name}" leads to {way.target}{further}'
    if not ways:
        yield f"no link of {router.name} leads there: add one"


def _budget(known: Known) -> Iterator[Finding]:
    """Too many words in all scripts together."""
    words = sum(access.count for found in known.accesses for _, access in found)
    if words > MOST_WORDS:
        yield Finding(f"budget {words}", "", f"the scripts of all hosts have {words} words, more than {MOST_WORDS}", path=("hosts",))


_TESTS: tuple[Callable[[Known], Iterator[Finding]], ...] = (
    _counts, _names, _ids, _ranges, _overlaps, _images, _widths, _ends, _backward, _unlinked, _scripts, _stray, _needed, _budget,
)  # fmt: skip
