#!/usr/bin/env python3
"""A model of the loader of bundles: plain, slow, and written from docs/formats.md alone, not from the loader.

    tools/bundle_model.py <BUNDLE

prints `refused` and the text of the first fault, and ends with status 3; or prints the accepted network, every field of it, and
ends with status 0. The text of a network is this file's own: no command of `sb` prints it, and tools/compare_bundles reads the
same from the loader. The model knows no want of memory.
"""
import re
import sys

sys.dont_write_bytecode = True
import model
from bundle_fields import BUNDLE, Refused, json_of

MOST_PLACES = 32
MOST_LINKS = 128
MOST_PAGES = 256
MOST_PAGES_OF_ALL = 4096
MOST_CAPACITY = 1024
WIDTHS = (8, 16, 32)
TOP = 1 << 56
NAME = re.compile(b"[a-z][a-z0-9_]{0,15}")


# Each test gives the texts of its faults, in their order.


def counts(bundle):
    def count(value, least, most, path):
        if not least <= value <= most:
            yield f"count {path}"

    yield from count(bundle["version"], 1, 1, "version")
    yield from count(len(bundle["hosts"]), 1, MOST_PLACES, "hosts")
    for at, host in enumerate(bundle["hosts"]):
        yield from count(host["id"], 0, 31, f"hosts[{at}].id")
        yield from count(host["qos"], 0, 15, f"hosts[{at}].qos")
        yield from count(host["prot"], 0, 3, f"hosts[{at}].prot")
        yield from count(len(host["script"]), 0, model.MOST_LINES, f"hosts[{at}].script")
    yield from count(len(bundle["routers"]), 1, MOST_PLACES, "routers")
    for at, router in enumerate(bundle["routers"]):
        yield from count(router["side"], 0, 1, f"routers[{at}].side")
    yield from count(len(bundle["devices"]), 1, MOST_PLACES, "devices")
    yield from count(sum(device["pages"] for device in bundle["devices"]), 0, MOST_PAGES_OF_ALL, "devices")
    for at, device in enumerate(bundle["devices"]):
        yield from count(device["pages"], 1, MOST_PAGES, f"devices[{at}].pages")
    yield from count(len(bundle["links"]), 1, MOST_LINKS, "links")
    for at, link in enumerate(bundle["links"]):
        yield from count(link["capacity"], 1, MOST_CAPACITY, f"links[{at}].capacity")


def place_of(bundle, name):
    """The host, router or device of that name, as its kind and number; or None."""
    for one in "host", "router", "device":
        for at, found in enumerate(bundle[one + "s"]):
            if found["name"] == name:
                return one, at
    return None


def number_of(objects, name):
    """The first of the objects that has the name, as its number; or None."""
    return next((at for at, found in enumerate(objects) if found["name"] == name), None)


def names(bundle):
    def named(objects, at, taken, path):
        name = objects[at]["name"]
        if not NAME.fullmatch(name.encode()) or name in taken:
            yield f"name {path}[{at}].name"
        taken.add(name)

    nodes, links = set(), set()
    for at in range(len(bundle["hosts"])):
        yield from named(bundle["hosts"], at, nodes, "hosts")
    for at, router in enumerate(bundle["routers"]):
        yield from named(bundle["routers"], at, nodes, "routers")
        for device, link in router["routes"].items():
            if number_of(bundle["devices"], device) is None or number_of(bundle["links"], link) is None:
                yield f"name routers[{at}].routes.{device}"
    for at in range(len(bundle["devices"])):
        yield from named(bundle["devices"], at, nodes, "devices")
    for at, link in enumerate(bundle["links"]):
        yield from named(bundle["links"], at, links, "links")
        for end in "from", "to":
            if place_of(bundle, link[end]) is None:
                yield f"name links[{at}].{end}"
    if bundle["wire"] is not None and number_of(bundle["links"], bundle["wire"]) is None:
        yield "name wire"


def ids(bundle):
    taken = set()
    for at, host in enumerate(bundle["hosts"]):
        if host["id"] in taken:
            yield f"hostid {at}"
        taken.add(host["id"])


def size_of(device):
    return device["pages"] * model.PAGE


def ranges(bundle):
    for at, device in enumerate(bundle["devices"]):
        if device["base"] % model.PAGE or device["base"] + size_of(device) > TOP:
            yield f"range {at}"


def overlaps(bundle):
    devices = bundle["devices"]
    for at, device in enumerate(devices):
        for other, earlier in enumerate(devices[:at]):
            if device["base"] < earlier["base"] + size_of(earlier) and earlier["base"] < device["base"] + size_of(device):
                yield f"overlap {at} {other}"


def images(bundle):
    for at, device in enumerate(bundle["devices"]):
        if len(device["image"]) > size_of(device):
            yield f"image {at} {len(device['image'])}"


def widths(bundle):
    for at, link in enumerate(bundle["links"]):
        if link["width"] not in WIDTHS:
            yield f"width {at}"


def ends_of(bundle, link):
    return place_of(bundle, link["from"]), place_of(bundle, link["to"])


def ends(bundle):
    left, reached = set(), set()
    for at, link in enumerate(bundle["links"]):
        source, target = ends_of(bundle, link)
        is_wire = link["name"] == bundle["wire"]
        bad = source[0] == "device" or target[0] == "host"
        bad |= source[0] == "host" and target[0] != "router"
        bad |= source[0] == "host" and source in left
        bad |= target[0] == "device" and target in reached
        joins_routers = source[0] == target[0] == "router"
        sides = tuple(bundle["routers"][end[1]]["side"] for end in (source, target)) if joins_routers else None
        if is_wire:
            bad |= sides != (0, 1)
        elif joins_routers:
            bad |= sides[0] != sides[1]
        if bad:
            yield f"end {at}"
        left.add(source)
        reached.add(target)


def backward(bundle):
    for at, link in enumerate(bundle["links"]):
        source, target = ends_of(bundle, link)
        if source[0] == target[0] == "router" and target[1] <= source[1]:
            yield f"backward {at}"


def unlinked(bundle):
    joined = [end for link in bundle["links"] for end in ends_of(bundle, link)]
    for one in "host", "device":
        for at in range(len(bundle[one + "s"])):
            if (one, at) not in joined:
                yield f"unlinked {one} {at}"


def line_of(line):
    """The transaction of a text of a script, whose end is the end of the line."""
    data = line.encode()
    return model.transaction_of(data[:-1] if data.endswith(b"\r") else data)


def scripts(bundle):
    """Also puts the transactions into the hosts."""
    for at, host in enumerate(bundle["hosts"]):
        host["transactions"] = []
        for number_from_one, line in enumerate(host["script"], 1):
            try:
                transaction = line_of(line)
            except model.Refused as fault:
                yield f"script {at} {number_from_one} {fault}"
            else:
                host["transactions"] += [transaction] if transaction else []


def aims(host, device):
    return any(device["base"] <= t.address < device["base"] + size_of(device) for t in host["transactions"])


def lost_at(bundle, host_at, device_at):
    """The first router on a host's way to a device that has no route for it; or None."""
    links = bundle["links"]
    here = next(place_of(bundle, link["to"]) for link in links if place_of(bundle, link["from"]) == ("host", host_at))
    while here[0] == "router":
        link = bundle["routers"][here[1]]["routes"].get(bundle["devices"][device_at]["name"])
        if link is None:
            return here[1]
        here = place_of(bundle, links[number_of(links, link)]["to"])
    return None


def stray(bundle):
    for at, router in enumerate(bundle["routers"]):
        for device_at, device in enumerate(bundle["devices"]):
            route = router["routes"].get(device["name"])
            if route is None:
                continue
            source, target = ends_of(bundle, bundle["links"][number_of(bundle["links"], route)])
            if source != ("router", at) or target[0] == "device" and target[1] != device_at:
                yield f"route {at} {device_at}"


def needed(bundle):
    for host_at, host in enumerate(bundle["hosts"]):
        for device_at, device in enumerate(bundle["devices"]):
            router = lost_at(bundle, host_at, device_at) if aims(host, device) else None
            if router is not None:
                yield f"route {router} {device_at}"


def budget(bundle):
    words = sum(t.count for host in bundle["hosts"] for t in host["transactions"])
    if words > model.MOST_WORDS:
        yield f"budget {words}"


TESTS = (counts, names, ids, ranges, overlaps, images, widths, ends, backward, unlinked, scripts, stray, needed, budget)


def accepted(data):
    """The bundle that the bytes spell, where it has no fault; raises Refused with the text of its first fault."""
    bundle = BUNDLE(json_of(data), "")
    for test in TESTS:
        for fault in test(bundle):
            raise Refused(fault)
    return bundle


def network_lines(bundle):
    """Every field of an accepted network, in the order of the table of fields, with numbers in the place of names."""
    devices, links = bundle["devices"], bundle["links"]
    for host in bundle["hosts"]:
        yield f"host {host['name']} {host['id']} {host['qos']} {host['prot']} {len(host['transactions'])}"
        for t in host["transactions"]:
            yield f"t {t.verb.decode()} {t.word.bit_length() - 1} {t.address} {t.count} {t.body.hex() or '-'}"
    for router in bundle["routers"]:
        yield f"router {router['name']} {router['side']}"
        for at, device in enumerate(devices):
            if device["name"] in router["routes"]:
                yield f"route {at} {number_of(links, router['routes'][device['name']])}"
    for device in devices:
        yield f"device {device['name']} {device['base']} {device['pages']} {str(device['readonly']).lower()} {device['image'].hex() or '-'}"
    for link in links:
        source, target = (" ".join(map(str, end)) for end in ends_of(bundle, link))
        yield f"link {link['name']} {source} {target} {link['width']} {link['capacity']}"
    if bundle["wire"] is not None:
        yield f"wire {number_of(links, bundle['wire'])}"


def answer(data):
    """The fault or the network of a bundle, as the bytes of a text."""
    try:
        lines = list(network_lines(accepted(data)))
    except Refused as fault:
        lines = [f"refused {fault}"]
    return "".join(line + "\n" for line in lines).encode()


if __name__ == "__main__":
    told = answer(sys.stdin.buffer.read())
    sys.stdout.buffer.write(told)
    sys.stdout.flush()
    sys.exit(3 if told.startswith(b"refused") else 0)
