"""Writes a bundle as JSON: an object a line, the lines of a script each on its own."""
from __future__ import annotations

import json
from typing import TYPE_CHECKING

from .nodes import Device, Host, Link, Router

if TYPE_CHECKING:
    from .bundles import Bundle


def text_of_bundle(net: Bundle) -> str:
    """The bundle as JSON."""
    lists = [
        ("hosts", [_json_of_host(host) for host in net.hosts]),
        ("routers", [_json(_fields_of_router(router)) for router in net.routers]),
        ("devices", [_json_of_device(device) for device in net.devices]),
        ("links", [_json(_fields_of_link(link)) for link in net.links]),
    ]
    parts = ['"version": 1', *(f'"{name}": {_json_list(items, 2)}' for name, items in lists)]
    parts += [f'"wire": {_json(net.wire)}'] if net.wire is not None else []
    return "{\n  " + ",\n  ".join(parts) + "\n}\n"


def _json(value: object) -> str:
    """A value as JSON in one line."""
    return json.dumps(value, ensure_ascii=False)


def _unless(fields: dict[str, object], *defaults: object) -> dict[str, object]:
    """The fields that don't have these values."""
    return {name: value for name, value in fields.items() if value not in defaults}


def _json_list(items: list[str], indent: int) -> str:
    """A list, each item of which is JSON on a line of its own."""
    blank = " " * indent
    return "[" + ",".join(f"\n{blank}  {item}" for item in items) + (f"\n{blank}]" if items else "]")


def _json_of_host(host: Host) -> str:
    """A host, with each line of its script on its own."""
    fields: dict[str, object] = {"name": host.name, "id": host.id}
    head = _json({**fields, **_unless({"qos": host.qos, "prot": host.prot}, 0)})
    return f'{head[:-1]}, "script": {_json_list([_json(line) for line in host.script], 4)}}}'


def _fields_of_router(router: Router) -> dict[str, object]:
    """The fields of a router, without those that have their default."""
    return _unless({"name": router.name, "side": router.side, "routes": router.routes}, 0)


def _json_of_device(device: Device) -> str:
    """A device, without the fields that have their default."""
    fields: dict[str, object] = {"name": device.name, "base": f"{device.base:#x}", "pages": device.pages}
    return _json({**fields, **_unless({"readonly": device.readonly, "image": device.image.hex()}, False, "")})


def _fields_of_link(link: Link) -> dict[str, object]:
    """The fields of a link."""
    return {"name": link.name, "from": link.source, "to": link.target, "width": link.width, "capacity": link.capacity}
