"""What no command refuses, and is nearly always a mistake: of a bundle or a script without a fault."""
from __future__ import annotations

from collections.abc import Iterator

from .checks import Known
from .faults import Finding
from .nodes import Device, Host
from .scripts import Access


def warnings(known: Known) -> Iterator[Finding]:
    """What is most likely a mistake, once the faults were looked for and there are none."""
    for at, host in enumerate(known.net.hosts):
        if not known.accesses[at]:
            yield Finding("", f"host {host.name}", "its script has no transaction", path=("hosts", at))
        yield from _of_host(known, at, host)
    used = {device.name for found in known.accesses for page in _pages(found) if (device := known.net.device_at(page))}
    for at, device in enumerate(known.net.devices):
        if device.name not in used:
            yield Finding("", f"device {device.name}", "no script aims at it", path=("devices", at))


def _pages(found: list[tuple[int, Access]]) -> set[int]:
    """The addresses of the pages that transactions aim at."""
    return {access.address & ~0xFFF for _, access in found}


def _of_host(known: Known, host_at: int, host: Host) -> Iterator[Finding]:
    """Lines of a host that aim at no device, or would change one that is read-only."""
    for at, access in known.accesses[host_at]:
        device = known.net.device_at(access.address)
        what = warning_of(access, device)
        if what:
            hint = (nearest(known.net.devices, access.address),) if device is None else ()
            subject = f"host {host.name}, line {at + 1} of the script"
            yield Finding("", subject, what, hint, ("hosts", host_at, "script", at), quote=host.script[at])


def warning_of(access: Access, device: Device | None) -> str:
    """What is most likely wrong with a transaction at this device or at none, or an empty text."""
    if device is None:
        told = "nobody tells: it is posted" if access.verb == "wp" else "it is answered `neterr`"
        return f"no device has the address {access.address:#x}, so {told}"
    if device.readonly and access.verb != "rd":
        told = "nobody tells: it is posted" if access.verb == "wp" else "it is answered `deverr`"
        return f"device {device.name} is read-only, so this changes nothing, and {told}"
    return ""


def nearest(devices: list[Device], address: int) -> str:
    """Where the device is that is nearest to an address."""
    near = min(devices, key=lambda device: max(device.base - address, address - device.end + 1))
    return f"the nearest is {near.name}, with {near.base:#x} to {near.end - 1:#x}"
