"""Reads a bundle out of its JSON, and tells the first field that isn't as it must be, in the order in which the program does."""
from __future__ import annotations

import re
from collections.abc import Callable, Iterator, Mapping
from typing import Any, NoReturn

from .faults import BundleFault, Finding, Path, shown, spelt
from .json_text import OddNumber, json_value
from .limits import DIGITS
from .line_hints import close_to, same_name
from .nodes import Device, Host, Link, Router
from .scripts import LineFault, number_of

_KINDS: Mapping[type, str] = {str: "a text", int: "a whole number without sign", bool: "true or false", list: "a list", dict: "an object"}
_FIELDS: Mapping[str, tuple[str, ...]] = {
    "": ("version", "hosts", "routers", "devices", "links", "wire"),
    "hosts": ("name", "id", "qos", "prot", "script"),
    "routers": ("name", "side", "routes"),
    "devices": ("name", "base", "pages", "readonly", "image"),
    "links": ("name", "from", "to", "width", "capacity"),
}


def _refuse(path: Path, what: str, hints: tuple[str, ...], place: Path | None = None, of_key: bool = False) -> NoReturn:
    """Raises BundleFault for a field."""
    raise BundleFault.of(Finding(f"field {spelt(path)}", "", what, hints, path if place is None else place, of_key))


def _refuse_kind(path: Path, value: object, kind: type) -> NoReturn:
    """Raises BundleFault for a value of another kind."""
    _refuse(path, f"{spelt(path) if path else 'the bundle'} isn't {_KINDS[kind]}", tuple(_kind_hints(path, value, kind)))


def _kind_hints(path: Path, value: object, kind: type) -> Iterator[str]:
    """What would be right in the place of a value of another kind."""
    if value is None:
        yield "`null` stands for nothing: where a field may be missing, leave it out"
    elif kind is str and type(value) is int:
        yield f'write it in quotes: "{value:#x}"' if path[-1] == "base" else f'write it in quotes: "{value}"'
    elif kind is int and isinstance(value, str):
        yield f"write it without quotes: {value}" if value.isdigit() else "a number is written with digits alone, and without quotes"
    elif kind is int and isinstance(value, OddNumber):
        yield "a number is written with digits alone: no sign, no point, no exponent; and is below 2^64"
    elif kind is bool:
        yield "write true or false, without quotes"
    elif path[-1:] == ("script",):
        yield 'a script is a list with one text a line: ["wr 0x10 2 01020304", "rd 0x10 2 1"]'
    elif path[-1:] == ("routes",):
        yield 'routes is an object, of links by devices: {"ram": "down"}'


class _Fields:
    """The fields of an object of JSON, each of which has to be taken."""

    def __init__(self, value: object, path: Path) -> None:
        if type(value) is not dict:
            _refuse_kind(path, value, dict)
        self.left, self.path = dict(value), path
        self.known = _FIELDS[str(path[0]) if path else ""]

    def place(self, name: str) -> Path:
        """The path of a field."""
        return (*self.path, name)

    def take(self, name: str, kind: type, default: object = None) -> Any:
        """The value of a field of this kind; the default where there is none, but None has to be there."""
        if name not in self.left:
            if default is None:
                self.miss(name)
            return default
        value = self.left.pop(name)
        if type(value) is not kind:
            _refuse_kind(self.place(name), value, kind)
        return value

    def miss(self, name: str) -> NoReturn:
        """Raises BundleFault for a field that isn't there."""
        strange = [key for key in self.left if key not in self.known and close_to(key, list(self.known)) == name]
        hints = [f"{self.owner()} has a field {shown(key)}: did you mean `{name}`?" for key in strange]
        place = self.place(strange[0]) if strange else self.path
        _refuse(self.place(name), f"{spelt(self.place(name))} is missing", tuple(hints), place, bool(strange))

    def owner(self) -> str:
        """The object, as it is called in a hint."""
        return spelt(self.path) if self.path else "the bundle"

    def parts(self, name: str) -> Iterator[tuple[object, Path]]:
        """The items of a list, each with its path."""
        return ((item, (*self.place(name), at)) for at, item in enumerate(self.take(name, list)))

    def end(self) -> None:
        """Raises BundleFault where a field was not taken."""
        for name in sorted(self.left, key=str.encode):
            meant = close_to(name, list(self.known))
            hints = (f"the field is `{meant}`" if same_name(meant, name) else f"did you mean `{meant}`?",) if meant else ()
            known = f"{self.owner()} can have {', '.join(self.known)}"
            _refuse(self.place(name), f"{spelt(self.place(name))} is no field of a bundle", (*hints, known), of_key=True)


def _text(value: object, path: Path) -> str:
    """A text; raises BundleFault where the value is none."""
    if not isinstance(value, str):
        _refuse_kind(path, value, str)
    return value


def _host_of(value: object, path: Path) -> Host:
    """A host out of its object."""
    take = _Fields(value, path)
    name, id, qos, prot = take.take("name", str), take.take("id", int), take.take("qos", int, 0), take.take("prot", int, 0)
    lines = [_text(item, place) for item, place in take.parts("script")]
    take.end()
    return Host(name, id, qos, prot, lines)


def _router_of(value: object, path: Path) -> Router:
    """A router out of its object."""
    take = _Fields(value, path)
    router = Router(take.take("name", str), take.take("side", int, 0))
    routes = take.take("routes", dict)
    router.routes = {name: _text(routes[name], (*path, "routes", name)) for name in sorted(routes, key=str.encode)}
    take.end()
    return router


def _device_of(value: object, path: Path) -> Device:
    """A device out of its object."""
    take = _Fields(value, path)
    name, base = take.take("name", str), _base(take.take("base", str), take.place("base"))
    pages, readonly = take.take("pages", int), take.take("readonly", bool, False)
    image = _image(take.take("image", str, ""), take.place("image"))
    take.end()
    return Device(name, base, pages, readonly, image)


def _base(text: str, path: Path) -> int:
    """The address that a base spells."""
    try:
        return number_of(text)
    except LineFault:
        hint = f'no `_` stands in it: "{text.replace("_", "")}"' if "_" in text else 'write it as "65536" or "0x10000"'
        _refuse(path, f"{spelt(path)} isn't a text of a number", (hint,))


def _image(text: str, path: Path) -> bytes:
    """The bytes that an image spells."""
    if not len(text) % 2 and DIGITS.fullmatch(text):
        return bytes.fromhex(text)
    strange = re.search("[^0-9a-fA-F]", text)
    if re.match("0[xX]", text):
        hint = "an image has no `0x`: two digits a byte, in the order of the addresses"
    elif strange:
        hint = f"{shown(strange[0])}, its character {strange.start() + 1}, is no hexadecimal digit"
    else:
        hint = f"it has {len(text)} digits, and a byte has two"
    _refuse(path, f"{spelt(path)} isn't an even number of hexadecimal digits", (hint,))


def _link_of(value: object, path: Path) -> Link:
    """A link out of its object."""
    take = _Fields(value, path)
    ends = take.take("name", str), take.take("from", str), take.take("to", str)
    link = Link(*ends, take.take("width", int), take.take("capacity", int))
    take.end()
    return link


def _list_of(take: _Fields, name: str, read: Callable[[object, Path], Any]) -> list[Any]:
    """The objects of a list."""
    return [read(item, path) for item, path in take.parts(name)]


def parts_of(data: bytes | str) -> dict[str, Any]:
    """The parts of the bundle that a text spells; raises BundleFault with the first place that isn't JSON, the path of the first
    field that isn't as it must be, or another version."""
    take = _Fields(json_value(data), ())
    version = take.take("version", int)
    parts = {
        "hosts": _list_of(take, "hosts", _host_of),
        "routers": _list_of(take, "routers", _router_of),
        "devices": _list_of(take, "devices", _device_of),
        "links": _list_of(take, "links", _link_of),
        "wire": take.take("wire", str) if "wire" in take.left else None,
    }
    take.end()
    if version != 1:
        raise BundleFault.of(Finding("count version", "", f"version is {version}, and not 1", ("the one version there is is 1",), ("version",)))
    return parts
