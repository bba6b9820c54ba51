"""Bundles to try the loader on, as bytes: random ones (tools/random_bundles.py) with up to three faults planted in them, small
odd JSON, and a list of bundles at the edges of the rules. The same seed makes the same bytes."""
import copy
import json

import model
import random_bundles

TOP = 1 << 64
KEYS = "version hosts routers devices links wire name id qos prot script side routes base pages readonly image from to width capacity".split()
NUMBERS = (0, 1, 2, 3, 4, 8, 15, 16, 31, 32, 33, 64, 255, 256, 257, 288, 1024, 1025, 4096, 4097, 65537, 1 << 32, (1 << 32) + 32, TOP - 1)
MARKS = "1.0 1e0 -0 -1 0.5 18446744073709551616 1e308 -0.0 0e999".split()
WORDS = ("", "Up", "0a", "a" * 17, "a-b", "é", "\n", "_a", "a.b", "hosts[0]", "\u007f", "\U0001f600", "m0", "cpu")
NUMERALS = ("", "0x", "0X10000", "-1", " 1", "1_0", "0" * 21, "0x" + "0" * 17, "18446744073709551616", "0xffffffffffffffff", "0x10001", "0x1000", "72057594037927936", "0xfffffffffff000")
LINES = ("?", "rd", "rd 0 0", "rd 0 4 1", "wr 0 0 0g", "rd 0 0 0", "rd 0 0 257", "rd 1 1 1", "rd 0xfff 0 2", "rd 0x100000000000000 0 1", "rd 0 0 1\n", "rd 0 0 1\r\r", "RD 0 0 1", "\u00e9", "swap 0 0 0102")


class Literal(str):
    """A piece of JSON that is written as it stands."""


class Spoilt(random_bundles.Maker):
    def number(self, old=0):
        pick = self.random.random()
        if pick < 0.3:
            # a number that is the old one again in fewer bits
            return old + self.random.choice((1 << 8, 1 << 16, 1 << 32))
        return self.random.choice(NUMBERS) if pick < 0.8 else max(0, old + self.random.choice((-1, 1)))

    def odd(self):
        """A value of some kind."""
        r = self.random
        pick = r.randrange(8)
        return [None, True, r.choice(NUMBERS), Literal(r.choice(MARKS)), r.choice(WORDS), [], {}, [r.choice(WORDS)]][pick]

    def places(self, value):
        """All containers of a value, with their keys."""
        keys = list(value) if isinstance(value, dict) else range(len(value)) if isinstance(value, list) else []
        for key in keys:
            yield value, key
            yield from self.places(value[key])

    # Each of these plants a fault, or at times none.

    def spoil_field(self, bundle):
        holder, key = self.random.choice(list(self.places(bundle)))
        pick = self.random.randrange(4)
        if pick == 0:
            del holder[key]
        elif pick == 1 and isinstance(holder, dict):
            holder[self.random.choice(KEYS + list(WORDS))] = self.odd()
        else:
            holder[key] = self.odd()

    def spoil_texts(self, bundle):
        device = self.random.choice(bundle["devices"])
        if self.maybe(0.5):
            device["base"] = self.random.choice(NUMERALS)
        else:
            device["image"] = self.random.choice(("0", "0g", "0x00", " 00", "00 ", "é0", "aA"))

    def spoil_count(self, bundle):
        numbers = [(holder, key) for holder, key in self.places(bundle) if type(holder[key]) is int and key != "width"]
        holder, key = self.random.choice(numbers)
        holder[key] = self.number(holder[key])

    def spoil_lists(self, bundle):
        listed = self.random.choice(("hosts", "routers", "devices", "links"))
        if self.maybe(0.3):
            bundle[listed] = []
        else:
            bundle[listed] += [copy.deepcopy(self.random.choice(bundle[listed])) for _ in range(self.random.choice((1, 30, 33, 129)))]
        if self.maybe(0.2):
            self.random.choice(bundle["hosts"])["script"] = [""] * self.random.choice((65536, 65537))

    def spoil_name(self, bundle):
        named = [(holder, key) for holder, key in self.places(bundle) if key in ("name", "from", "to", "wire") or holder in [router.get("routes") for router in bundle["routers"]]]
        holder, key = self.random.choice(named)
        if self.maybe(0.3):
            holder[key] = self.random.choice(WORDS)
        elif self.maybe(0.3) and key not in ("name", "from", "to", "wire"):
            holder[self.random.choice(WORDS + (bundle["links"][0]["name"],))] = holder.pop(key)
        else:
            other, its_key = self.random.choice(named)
            holder[key] = other[its_key]

    def spoil_renamed(self, bundle):
        """A new name, good or not, wherever the old one stands."""
        one = self.random.choice(bundle["hosts"] + bundle["routers"] + bundle["devices"] + bundle["links"])
        old, new = one["name"], self.random.choice(WORDS)
        for holder, key in list(self.places(bundle)):
            if holder.get(key) == old if isinstance(holder, dict) else False:
                holder[key] = new
        for router in bundle["routers"]:
            if old in router["routes"]:
                router["routes"][new] = router["routes"].pop(old)

    def spoil_hostid(self, bundle):
        self.random.choice(bundle["hosts"])["id"] = self.random.choice(bundle["hosts"])["id"]

    def spoil_range(self, bundle):
        device = self.random.choice(bundle["devices"])
        most = (1 << 56) - device["pages"] * model.PAGE
        device["base"] = self.numeral(self.random.choice((1, 0x800, 0x10800, most, most + model.PAGE, most + 1, 1 << 56, TOP - 1, TOP - model.PAGE)))

    def spoil_overlap(self, bundle):
        one, other = self.random.choice(bundle["devices"]), self.random.choice(bundle["devices"])
        shift = self.random.choice((0, 0, 1, -1, other["pages"], other["pages"] - 1, -one["pages"], 1 - one["pages"]))
        one["base"] = self.numeral(max(0, model.number_of(other["base"].encode()) + shift * model.PAGE))

    def spoil_image(self, bundle):
        device = self.random.choice(bundle["devices"])
        device["pages"] = min(device["pages"], 2)
        device["image"] = "00" * (device["pages"] * model.PAGE + self.random.choice((0, 1, 4096)))

    def spoil_width(self, bundle):
        self.random.choice(bundle["links"])["width"] = self.random.choice((0, 4, 12, 24, 31, 33, 64, 264, 272, 288, 65568, (1 << 32) + 32, TOP - 1))

    def spoil_end(self, bundle):
        link = self.random.choice(bundle["links"])
        nodes = [one["name"] for one in bundle["hosts"] + bundle["routers"] + bundle["devices"]]
        link[self.random.choice(("from", "to"))] = self.random.choice(nodes)

    def spoil_side(self, bundle):
        if self.maybe(0.5):
            self.random.choice(bundle["routers"])["side"] = self.random.randrange(2)
        elif self.maybe(0.5):
            bundle["wire"] = self.random.choice(bundle["links"])["name"]
        else:
            bundle.pop("wire", None)

    def spoil_backward(self, bundle):
        link = self.random.choice(bundle["links"])
        link["from"], link["to"] = link["to"], link["from"]
        if self.maybe(0.5):
            one, other = self.random.choice(bundle["routers"]), self.random.choice(bundle["routers"])
            bundle["links"].append({"name": "zz", "from": one["name"], "to": other["name"], "width": 32, "capacity": 1})

    def spoil_unlinked(self, bundle):
        bundle["links"].remove(self.random.choice(bundle["links"]))

    def spoil_script(self, bundle):
        host = self.random.choice(bundle["hosts"])
        lines = random_bundles.Lines(self.random, [(0, 1 << 20)], [(0, 1 << 20)])
        line = self.random.choice((self.random.choice(LINES), b" ".join(lines.spoilt(lines.transaction())).decode("latin-1")))
        host["script"].insert(self.random.randint(0, len(host["script"])), line)

    def spoil_route(self, bundle):
        routes = self.random.choice(bundle["routers"])["routes"]
        device = self.random.choice(bundle["devices"])["name"]
        if self.maybe(0.5):
            routes.pop(device, None)
        else:
            routes[device] = self.random.choice(bundle["links"])["name"]

    def spoil_aim(self, bundle):
        place = model.number_of(self.random.choice(bundle["devices"])["base"].encode())
        self.random.choice(bundle["hosts"])["script"].append(f"rd {place} 0 1")

    def spoil_budget(self, bundle):
        words = 0
        while words <= model.MOST_WORDS + 256:
            self.random.choice(bundle["hosts"])["script"].append("rd 0xf0000000000000 0 256")
            words += 256 + 3 * self.maybe(0.1)

    def plant(self, bundle):
        # those that make long bundles come seldom, and those whose faults many others hide come often
        seldom = self.spoil_lists, self.spoil_image, self.spoil_budget
        often = self.spoil_overlap, self.spoil_backward, self.spoil_unlinked, self.spoil_script, self.spoil_route, self.spoil_aim
        usual = self.spoil_field, self.spoil_texts, self.spoil_count, self.spoil_name, self.spoil_renamed, self.spoil_hostid, self.spoil_range, self.spoil_width, self.spoil_end, self.spoil_side
        spoil = self.random.choice(seldom if self.maybe(0.07) else often + often + usual)
        try:
            spoil(bundle)
        except (AttributeError, IndexError, KeyError, TypeError, ValueError, model.Refused):
            # an earlier fault has taken away what this one needs
            pass

    # Bytes.

    def spelt_text(self, value):
        if self.maybe(0.97):
            return json.dumps(value, ensure_ascii=self.maybe(0.5))
        return '"' + "".join(f"\\u{ord(c):04x}" if ord(c) < 0x10000 and self.maybe(0.5) else json.dumps(c)[1:-1] for c in value) + '"'

    def spelt(self, value):
        """A value as JSON, with spaces and order as they come, and some keys twice."""
        gap = self.random.choice(("", "", "", " ", "\n\t", "\r\n"))
        if isinstance(value, Literal) or not isinstance(value, (dict, list, str)):
            return value if isinstance(value, Literal) else json.dumps(value)
        if isinstance(value, str):
            return self.spelt_text(value)
        if isinstance(value, list):
            return "[" + ("," + gap).join(map(self.spelt, value)) + "]"
        members = [self.spelt_text(key) + gap + ":" + self.spelt(item) for key, item in value.items()]
        if self.maybe(0.3):
            self.random.shuffle(members)
        if self.maybe(0.01) and value:
            members.insert(0, self.spelt_text(self.random.choice(list(value))) + ":" + self.spelt(self.odd()))
        return "{" + gap + ("," + gap).join(members) + "}"

    def broken(self, data):
        """Bytes with a change that most often makes them no JSON."""
        r = self.random
        at = r.randrange(len(data))
        piece = r.choice((b"\xff", b"\xed\xa0\x80", b'"', b"\\", b",", b"]", b"}", b"0", b"1e999", b"\\ud800", b"\0", b"\n", b" ", b"\xef\xbb\xbf", b"null"))
        return r.choice((data[:at], data[at:], data[:at] + data[at + 1 :], data[:at] + piece + data[at:], data + piece, piece + data))

    def tree(self, depth):
        r = self.random
        if depth == 0 or self.maybe(0.4):
            return self.odd()
        if self.maybe(0.3):
            return [self.tree(depth - 1) for _ in range(r.randrange(3))]
        return {r.choice(KEYS): self.tree(depth - 1) for _ in range(r.randrange(4))}

    def data(self):
        if self.maybe(0.03):
            return self.spelt(self.tree(4)).encode()
        bundle = self.network()
        for _ in range(self.random.choice((0, 1, 1, 1, 2, 2, 3))):
            self.plant(bundle)
        data = self.spelt(bundle).encode()
        return self.broken(data) if self.maybe(0.04) else data
