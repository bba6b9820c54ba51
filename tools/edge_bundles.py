"""Bundles at the edges of the rules, each with what it must be answered: `accepted`, or its fault. The answers were worked out
by hand from docs/formats.md."""
import copy
import json
import pathlib

EXAMPLES = pathlib.Path(__file__).resolve().parent.parent / "examples/bundles"
SMALL = json.loads((EXAMPLES / "one_memory.json").read_text())
WIDE = json.loads((EXAMPLES / "two_chips.json").read_text())
SMALL_TEXT = json.dumps(SMALL)
GONE = object()
ACCEPTED = "accepted"
TOP = 1 << 64


def changed(bundle, *changes):
    """A copy of a bundle with other values at some places, each a list of keys such as "hosts 0 id"."""
    made = copy.deepcopy(bundle)
    for place, value in changes:
        *outer, last = [int(key) if key.isdigit() else key for key in place.split(" ")]
        holder = made
        for key in outer:
            holder = holder[key]
        if value is GONE:
            del holder[last]
        elif isinstance(holder, list) and last == len(holder):
            holder.append(value)
        else:
            holder[last] = value
    return made


def link(name, source, target):
    return {"name": name, "from": source, "to": target, "width": 32, "capacity": 1}


def host(name, number, script):
    return {"name": name, "id": number, "script": script}


def router(name, side=0):
    return {"name": name, "side": side, "routes": {}}


def device(name, base, pages):
    return {"name": name, "base": hex(base), "pages": pages}


# One fault of each kind but Json, in the order of the faults, each in a place of its own in the example of two chips.
FAULTS = (
    ("field hosts[0].qos", [("hosts 0 qos", "3")]),
    ("count links[7].capacity", [("links 7 capacity", 0)]),
    ("name wire", [("wire", "zz")]),
    ("hostid 1", [("hosts 1 id", 0)]),
    ("range 0", [("devices 0 base", "0x10001")]),
    ("overlap 3 2", [("devices 3 base", "0x30000")]),
    ("image 3 4097", [("devices 3 image", "00" * 4097)]),
    ("width 4", [("links 4 width", 64)]),
    ("end 8", [("links 8", link("l8", "r0", "cpu0"))]),
    ("backward 9", [("links 9", link("l9", "r1", "r0"))]),
    ("unlinked host 2", [("hosts 2", host("cpu2", 2, []))]),
    ("script 1 3 size", [("hosts 1 script 2", "rd 0 4 1")]),
    ("route 0 2", [("routers 0 routes m2", GONE)]),
    ("budget 262420", [("hosts 0 script", WIDE["hosts"][0]["script"] + ["rd 0x50000 0 256"] * 1025)]),
)
# A ninth link that is as it should be, so that the one that leads back is always number 9.
FILLER = ("links 8", link("l8", "r1", "r1x")), ("routers 3", router("r1x"))


def all_pairs():
    """Each fault alone and with each later one: the earlier is answered."""
    for at, (fault, changes) in enumerate(FAULTS):
        filled = WIDE if fault.startswith("end") else changed(WIDE, *FILLER)
        alone = changed(filled, *changes)
        yield json.dumps(alone).encode(), fault
        yield json.dumps(alone).encode() + b"]", "json"
        for later, more in FAULTS[at + 1 :]:
            if not (fault.startswith("end") and later.startswith("backward")):
                yield json.dumps(changed(alone, *more)).encode(), fault
    yield json.dumps(changed(WIDE, ("links 8", link("l8", "r0", "cpu0")), ("links 9", link("l9", "r1", "r0")))).encode(), "end 8"


def with_id(text):
    return SMALL_TEXT.replace('"id": 0', f'"id": {text}', 1)


JSON = (
    ("", "json"), (" ", "json"), ("{", "json"), ("[]", "field -"), ("7", "field -"), ("null", "field -"), ("{}", "field version"),
    (SMALL_TEXT + " \t\r\n", ACCEPTED), (" \t\r\n" + SMALL_TEXT, ACCEPTED), (SMALL_TEXT + "{}", "json"), (SMALL_TEXT + "\0", "json"), ("\ufeff" + SMALL_TEXT, "json"),
    (SMALL_TEXT.replace("cpu", "cp\x01"), "json"), (SMALL_TEXT.replace("cpu", "cp\\u0001"), "name hosts[0].name"), (SMALL_TEXT.replace('"id"', '"i\\u0064"'), ACCEPTED),
    ("[" * 127 + "]" * 127, "field -"), ("[" * 128 + "]" * 128, "json"), ("[" * 100000, "json"), ('{"a":' * 127 + "1" + "}" * 127, "field version"), ('{"a":' * 128 + "1" + "}" * 128, "json"),
    (SMALL_TEXT.replace('"id": 0', '"id": ' + "[" * 124 + "]" * 124), "field hosts[0].id"), (SMALL_TEXT.replace('"id": 0', '"id": ' + "[" * 125 + "]" * 125), "json"),
    *((with_id(text), "field hosts[0].id") for text in ("1.0", "1e0", "-0", "-1", "0.0", "18446744073709551616", "1e308", "-1e308", "0e999", "1" + "0" * 308, "17976931348623158e292", "null", '"0"', "[]", "{}", "true")),
    *((with_id(text), "json") for text in ("1e999", "-1e999", "1" + "0" * 309, "17976931348623159e292", "01", "+1", ".5", "1.", "1e", "-", "0x1", "NaN", "Infinity", "-Infinity", "nul", "True")),
    *((with_id(text + ', "id": 0'), "json") for text in ("1e999", '"\\ud800"', '["\\udc00\\ud800"]', "[1,]")),
    *((with_id(text + ', "id": 0'), ACCEPTED) for text in ("99", "null", '"\\ud83d\\ude00"', "[" * 124 + "]" * 124)),
    (with_id("18446744073709551615"), "count hosts[0].id"), (with_id("256"), "count hosts[0].id"), (with_id("0, \"id\": 32"), "count hosts[0].id"), (with_id('0, "\\u0069d": 31'), ACCEPTED),
    (SMALL_TEXT.replace('"ram": "down"', '"ram": "zz", "ram": "down"'), ACCEPTED), (SMALL_TEXT.replace('"ram": "down"', '"ram": "down", "ram": "zz"'), "name routers[0].routes.ram"),
    (SMALL_TEXT.replace('"ram": "down"', '"": "down", "ram": "down"'), "name routers[0].routes."), (SMALL_TEXT.replace('"ram": "down"', '"ram": 1, "Ram": 1'), "field routers[0].routes.Ram"), (SMALL_TEXT.replace('"ram": "down"', '"\U0001f600": 1, "\uff5e": 1'), "field routers[0].routes.\uff5e"),
)
MANY = changed(
    SMALL,
    *((f"hosts {at}", host(f"h{at}", at, [])) for at in range(1, 32)),
    *((f"routers {at}", router(f"r{at}", at % 2)) for at in range(1, 32)),
    *((f"devices {at}", device(f"d{at}", at << 20, 128)) for at in range(1, 32)),
    ("devices 0 pages", 128),
    *((f"links {at + 1}", link(f"a{at}", f"h{at}", f"r{at}")) for at in range(1, 32)),
    *((f"links {at + 32}", link(f"b{at}", f"r{at}", f"d{at}")) for at in range(1, 32)),
    *((f"links {at}", link(f"c{at}", "r1", "r3")) for at in range(64, 128)),
)
NUMBERS = tuple(
    (changed(SMALL, (place, value)), ACCEPTED if least <= value <= most else f"{fault} {path}")
    for place, path, fault, least, most, values in (
        ("version", "version", "count", 1, 1, (0, 1, 2, 257, TOP - 1)),
        ("hosts 0 id", "hosts[0].id", "count", 0, 31, (0, 31, 32, 256, (1 << 32) + 1, TOP - 1)),
        ("hosts 0 qos", "hosts[0].qos", "count", 0, 15, (0, 15, 16, 256, TOP - 1)),
        ("hosts 0 prot", "hosts[0].prot", "count", 0, 3, (0, 3, 4, 256, TOP - 1)),
        ("routers 0 side", "routers[0].side", "count", 0, 1, (0, 1, 2, 256, TOP - 1)),
        ("devices 0 pages", "devices[0].pages", "count", 1, 256, (0, 1, 256, 257, 4096)),
        ("devices 0 pages", "devices", "count", 1, 256, (4097, 65536, (1 << 32) + 1, TOP - 1)),
        ("links 1 capacity", "links[1].capacity", "count", 1, 1024, (0, 1, 1024, 1025, 65537, TOP - 1)),
    )
    for value in values
)
WIDTHS = (
    *((changed(SMALL, ("links 1 width", value)), ACCEPTED) for value in (8, 16, 32)),
    *((changed(SMALL, ("links 1 width", value)), "width 1") for value in (0, 1, 4, 7, 9, 12, 15, 17, 24, 31, 33, 64, 128, 255, 256, 264, 272, 288, 65544, (1 << 32) + 16, TOP - 1)),
    (changed(SMALL, ("links 0 width", 64), ("links 1 width", 12)), "width 0"),
)
SHAPES = (
    # missing and unknown fields
    *((changed(SMALL, (place, GONE)), f"field {place}") for place in ("version", "hosts", "routers", "devices", "links")),
    *((changed(SMALL, (place, GONE)), f"field {path}") for place, path in (("hosts 0 script", "hosts[0].script"), ("routers 0 routes", "routers[0].routes"), ("devices 0 base", "devices[0].base"), ("links 1 width", "links[1].width"))),
    (changed(SMALL, ("zz", 0), ("Zz", 0)), "field Zz"), (changed(SMALL, ("\U0001f600", 0), ("\uff5e", 0)), "field \uff5e"), (changed(SMALL, ("", 0)), "field "), (changed(SMALL, ("hosts 0 ", 0)), "field hosts[0]."), (changed(SMALL, ("links 0 zz", 0), ("links 0 to", GONE)), "field links[0].to"),
    (changed(SMALL, ("zz", 0), ("wire", None)), "field wire"), (changed(SMALL, ("hosts 0", [])), "field hosts[0]"), (changed(SMALL, ("hosts 0 script 1", 7)), "field hosts[0].script[1]"), (changed(SMALL, ("routers 0 routes", [])), "field routers[0].routes"),
    (changed(SMALL, ("devices 0 readonly", 0)), "field devices[0].readonly"), (changed(SMALL, ("devices 0 readonly", True)), ACCEPTED), (changed(SMALL, ("hosts 0 name", ["cpu"])), "field hosts[0].name"),
    *((changed(SMALL, ("devices 0 base", text)), "field devices[0].base") for text in ("", "0x", "0X10000", "-1", " 1", "1_0", "0" * 21, "0x" + "0" * 17, "18446744073709551616", 65536)),
    *((changed(SMALL, ("devices 0 base", text)), ACCEPTED) for text in ("65536", "00000000000000065536", "0x0000000000010000", "0xfffffffff0000", "0xFFFFFFFFF0000", "0xffffffffff0000", "0")),
    *((changed(SMALL, ("devices 0 base", text)), "range 0") for text in ("1", "0x800", "0xffffffffff1000", "0x100000000000000", "18446744073709551615", "0xfffffffffffff000")),
    *((changed(SMALL, ("devices 0 image", text)), "field devices[0].image") for text in ("0", "0g", "0x00", "00 ", "é0", "000")),
    *((changed(SMALL, ("devices 0 image", text)), ACCEPTED) for text in ("", "aAfF", "5a" * 65536)), (changed(SMALL, ("devices 0 image", "5a" * 65537)), "image 0 65537"),
    # lists
    *((changed(SMALL, (name, [])), f"count {name}") for name in ("hosts", "routers", "devices", "links")), (MANY, ACCEPTED),
    (changed(MANY, ("hosts 32", host("h32", 0, []))), "count hosts"), (changed(MANY, ("routers 32", router("r32"))), "count routers"), (changed(MANY, ("devices 31", GONE), ("devices 31", device("d32", 32 << 20, 129))), "count devices"),
    (changed(MANY, ("devices 0 pages", 127), ("devices 32", device("d32", 32 << 20, 1))), "count devices"), (changed(MANY, ("links 128", link("c128", "r1", "r3"))), "count links"), (changed(MANY, ("hosts 32", host("h32", 99, []))), "count hosts"),
    (changed(SMALL, ("hosts 0 script", [])), ACCEPTED), (changed(SMALL, ("hosts 0 script", [""] * 65536)), ACCEPTED), (changed(SMALL, ("hosts 0 script", ["?"] * 65537)), "count hosts[0].script"), (changed(SMALL, ("hosts 0 script", ["?"] * 65536)), "script 0 1 verb"),
    (changed(SMALL, ("hosts 0 script", ["rd 0x10000 0 256"] * 1024)), ACCEPTED), (changed(SMALL, ("hosts 0 script", ["rd 0x10000 0 256"] * 1024 + ["rd 0 0 1"])), "budget 262145"),
    # names
    *((changed(SMALL, ("hosts 0 name", name), ("links 0 from", name)), fault) for name, fault in (("a" * 16, ACCEPTED), ("z_9", ACCEPTED), ("up", ACCEPTED), ("a" * 17, "name hosts[0].name"), ("", "name hosts[0].name"), ("Cpu", "name hosts[0].name"), ("0a", "name hosts[0].name"), ("_a", "name hosts[0].name"), ("a-b", "name hosts[0].name"), ("é", "name hosts[0].name"), ("hub", "name routers[0].name"), ("ram", "name devices[0].name"))),
    (changed(SMALL, ("devices 0 name", "RAM"), ("links 1 to", "RAM")), "name routers[0].routes.ram"), (changed(SMALL, ("devices 0 name", "RAM"), ("links 1 to", "RAM"), ("routers 0 routes", {"RAM": "down"})), "name devices[0].name"),
    (changed(SMALL, ("links 1 name", "up")), "name routers[0].routes.ram"), (changed(SMALL, ("links 1 name", "up"), ("routers 0 routes ram", "up")), "name links[1].name"), (changed(SMALL, ("links 1 from", "up")), "name links[1].from"), (changed(SMALL, ("links 0 to", "")), "name links[0].to"),
    (changed(SMALL, ("routers 0 routes hub", "down")), "name routers[0].routes.hub"), (changed(SMALL, ("routers 0 routes a\nb", "down")), "name routers[0].routes.a\nb"), (changed(SMALL, ("wire", "cpu")), "name wire"),
    # devices
    (changed(WIDE, ("devices 1 base", "0x11000")), ACCEPTED), (changed(WIDE, ("devices 2 base", "0x10000"), ("devices 1 base", "0x10000")), "overlap 1 0"), (changed(WIDE, ("devices 3 base", "0x2f000"), ("devices 3 pages", 3)), "overlap 3 2"), (changed(WIDE, ("devices 0 pages", 256)), "overlap 1 0"),
    (changed(WIDE, ("devices 3 base", "0x10000"), ("devices 3 pages", 64)), "overlap 3 0"), (changed(WIDE, ("devices 3 base", "0x20000"), ("devices 3 pages", 64)), "overlap 3 1"),
    # links
    *((changed(SMALL, ("links 2", link("l2", source, target))), "end 2") for source, target in (("ram", "hub"), ("hub", "cpu"), ("cpu", "cpu"), ("cpu", "ram"), ("cpu", "hub"), ("hub", "ram"), ("ram", "ram"), ("ram", "cpu"))),
    (changed(SMALL, ("links 0 to", "ram")), "end 0"), (changed(SMALL, ("links 0 to", "cpu")), "end 0"), (changed(SMALL, ("links 2", link("l2", "hub", "hub"))), "backward 2"), (changed(SMALL, ("wire", "up")), "end 0"), (changed(SMALL, ("wire", "down")), "end 1"), (changed(WIDE, ("wire", GONE)), "end 3"), (changed(WIDE, ("wire", "l2")), "end 2"),
    (changed(WIDE, ("routers 2 side", 0)), "end 3"), (changed(WIDE, ("routers 0 side", 1)), "end 2"), (changed(WIDE, ("routers 0 side", 1), ("routers 1 side", 1), ("routers 2 side", 0)), "end 3"), (changed(WIDE, ("links 8", link("l8", "r0", "r2"))), "end 8"), (changed(WIDE, ("links 8", link("l8", "r0", "r1"))), ACCEPTED),
    (changed(SMALL, ("hosts 1", host("dma", 1, [])), ("devices 1", device("rom", 0, 1))), "unlinked host 1"), (changed(SMALL, ("devices 1", device("rom", 0, 1))), "unlinked device 1"),
    # scripts
    *((changed(SMALL, ("hosts 0 script", lines)), fault) for lines, fault in ((["#", "", " \t", "\r", "?"], "script 0 5 verb"), (["rd 0 0 1\n"], "script 0 1 number"), (["rd 0 0\n1"], "script 0 1 number"), (["rd 0 0 1\r"], ACCEPTED), (["rd 0 0 1\r\r"], "script 0 1 number"), (["#\n?"], ACCEPTED), (["rd\u00a00 0 1"], "script 0 1 verb"), (["rd 0 0 1", "wr 0 0 0"], "script 0 2 data"), (["rd 0 4 0"], "script 0 1 size"), (["rd 0 0 0"], "script 0 1 length"), (["rd 1 1 1"], "script 0 1 aligned"), (["rd 0xfff 0 2"], "script 0 1 page"), (["rd 0x100000000000000 0 1"], "script 0 1 range"))),
    # routes
    (changed(SMALL, ("routers 0 routes ram", "up")), "route 0 0"), (changed(SMALL, ("routers 0 routes", {})), "route 0 0"), (changed(SMALL, ("routers 0 routes", {}), ("hosts 0 script", ["rd 0 0 1", "rd 0x20000 0 1"])), ACCEPTED), (changed(SMALL, ("routers 0 routes", {}), ("hosts 0 script", ["rd 0x1ffff 0 1"])), "route 0 0"),
    (changed(WIDE, ("routers 1 routes m1", "l4")), "route 1 1"), (changed(WIDE, ("routers 1 routes m1", GONE)), "route 1 1"), (changed(WIDE, ("routers 2 routes m0", "l6")), "route 2 0"), (changed(WIDE, ("routers 0 routes m0", "l3")), "route 2 0"), (changed(WIDE, ("routers 1 routes rom", "l4")), "route 1 3"), (changed(WIDE, ("routers 2 routes m2", GONE), ("routers 1 routes m0", GONE)), "route 1 0"),
)


def rows():
    """The bytes of each bundle, and what it must be answered."""
    for text, wanted in JSON:
        yield text.encode(), wanted
    yield SMALL_TEXT.encode().replace(b"cpu", b"cp\xff"), "json"
    yield SMALL_TEXT.encode().replace(b"cpu", b"cp\xed\xa0\x80"), "json"
    for bundle, wanted in NUMBERS + WIDTHS + SHAPES:
        yield json.dumps(bundle).encode(), wanted
    yield from all_pairs()
