"""Random bundles without a fault, as the dictionaries and lists that JSON spells. tools/spoilt_bundles.py plants faults in
them, and writes them as bytes. The same seed makes the same bundle."""
import random
import string

import model
from scripts import Maker as ScriptMaker

LETTERS = string.ascii_lowercase
NAME_REST = LETTERS + string.digits + "_"
TOP = 1 << 56


class Lines(ScriptMaker):
    """Makes lines of scripts at some devices, and a few at none."""

    def __init__(self, source, devices, everywhere):
        self.random, self.faults, self.blanks = source, 0, b" "
        self.devices, self.everywhere = devices, everywhere

    def address(self, word, length):
        place = self.random.choice(places_in(self.random, self.devices)) if self.devices else 0
        if not self.devices or self.maybe(0.05):
            place = self.random.randrange(TOP // model.PAGE) * model.PAGE
            if any(start <= place < end for start, end in self.everywhere):
                place = TOP - model.PAGE
        place -= place % word
        return min(place, place - place % model.PAGE + model.PAGE - length)


def places_in(source, devices):
    """The edges of a device, and some place within it."""
    start, end = source.choice(devices)
    return start, end - 1, source.randrange(start, end)


class Maker:
    def __init__(self, seed):
        self.random = random.Random(seed)

    def maybe(self, chance):
        return self.random.random() < chance

    def name(self, taken):
        while True:
            length = self.random.choice((1, 2, 4, 15, 16))
            made = self.random.choice(LETTERS) + "".join(self.random.choices(NAME_REST, k=length - 1))
            if made not in taken:
                taken.add(made)
                return made

    def numeral(self, value):
        """A text that spells a value below 2^64."""
        text = str(value) if self.maybe(0.4) else "0x" + format(value, self.random.choice("xX"))
        if self.maybe(0.1):
            text = text.rjust(20, "0") if "x" not in text else "0x" + text[2:].rjust(16, "0")
        return text

    def devices(self, count, taken):
        """Devices apart from each other, in mixed order; 4,096 pages in all at most, and now and then just so many."""
        if count >= 16 and self.maybe(0.3):
            pages = [4096 // count] * count
            pages[0] += 4096 - sum(pages)
        else:
            pages = [self.random.choice((1, 1, 2, 16, 4096 // count if count >= 16 else 256)) for _ in range(count)]
        base = self.random.choice((0, 0x10000, 0x10000, TOP - sum(pages) * model.PAGE))
        made = []
        for number in pages:
            device = {"name": self.name(taken), "base": self.numeral(base), "pages": number}
            made.append((device, (base, base + number * model.PAGE)))
            base += number * model.PAGE
            if base + sum(pages) * model.PAGE < TOP // 2:
                base += self.random.choice((0, 0, model.PAGE, 1 << 30, 1 << 45))
        for device, _ in made:
            if self.maybe(0.3):
                device["readonly"] = self.maybe(0.7)
            if self.maybe(0.3):
                whole = device["pages"] * model.PAGE
                device["image"] = self.digits(self.random.choice((0, 1, 4, 33, whole if whole <= 4 * model.PAGE and self.maybe(0.1) else 7)))
        self.random.shuffle(made)
        return [device for device, _ in made], [span for _, span in made]

    def digits(self, length):
        text = self.random.randbytes(length).hex()
        return text.upper() if self.maybe(0.3) else text

    def network(self):
        """A bundle without a fault."""
        r = self.random
        most = r.choice((1, 2, 4, 4, 8, 8, 32))
        nodes = set()
        host_names = [self.name(nodes) for _ in range(r.randint(1, most))]
        router_names = [self.name(nodes) for _ in range(r.randint(1, most))]
        devices, spans = self.devices(r.randint(1, most), nodes)
        sides, wire = self.sides(len(router_names))
        homes = [r.randrange(len(router_names)) for _ in host_names]
        shelves = [r.randrange(len(router_names)) for _ in devices]
        joints = self.joints(sides, wire)
        links = self.links(host_names, router_names, [device["name"] for device in devices], homes, shelves, joints)
        wire_name = next((link["name"] for link in links if wire and (link["from"], link["to"]) == tuple(router_names[at] for at in wire)), None)
        ways = self.ways(len(router_names), shelves, joints)
        scripts, aimed = self.scripts(homes, spans, ways)
        routes = self.routes(router_names, devices, links, ways, aimed, shelves)
        bundle = {
            "version": 1,
            "hosts": [self.host(name, script) for name, script in zip(host_names, scripts)],
            "routers": [{"name": name, "side": side, "routes": found} for name, side, found in zip(router_names, sides, routes)],
            "devices": devices,
            "links": links,
        }
        for at, host in zip(r.sample(range(32), len(host_names)), bundle["hosts"]):
            host["id"] = at
        for router in bundle["routers"]:
            if router["side"] == 0 and self.maybe(0.5):
                del router["side"]
        if wire:
            bundle["wire"] = wire_name
        return bundle

    def host(self, name, script):
        made = {"name": name, "id": 0, "script": script}
        if self.maybe(0.3):
            made["qos"] = self.random.choice((0, 1, 15))
        if self.maybe(0.3):
            made["prot"] = self.random.choice((0, 1, 3))
        return made

    def sides(self, count):
        """The side of each router, and the ends of the wire or None."""
        sides = [self.random.choice((0, 1, self.random.randrange(2)))] * count
        if count < 2 or self.maybe(0.5):
            return sides, None
        sides = [self.random.randrange(2) for _ in range(count)]
        low, high = sorted(self.random.sample(range(count), 2))
        sides[low], sides[high] = 0, 1
        return sides, (low, high)

    def joints(self, sides, wire):
        """The links between routers, forward and within a side, and the wire last."""
        r = self.random
        pairs = [(low, high) for high in range(len(sides)) for low in range(high) if sides[low] == sides[high]]
        chain = [pair for pair in pairs if pair[1] == pair[0] + 1] if self.maybe(0.6) else []
        # a wire's pair stands in no other link, as those stay within a side
        return chain + r.choices(pairs, k=r.randint(0, min(20, len(pairs)))) + ([wire] if wire else [])

    def links(self, hosts, routers, devices, homes, shelves, joints):
        r = self.random
        ends = [(host, routers[home]) for host, home in zip(hosts, homes)]
        ends += [(routers[shelf], device) for device, shelf in zip(devices, shelves)]
        ends += [(routers[low], routers[high]) for low, high in joints]
        r.shuffle(ends)
        taken = set()
        return [{"name": self.name(taken), "from": one, "to": other, "width": r.choice((8, 16, 32)), "capacity": r.choice((1, 2, 8, 1024))} for one, other in ends]

    def ways(self, count, shelves, joints):
        """For each device the routers from which a way leads to it, each with the routers next on such ways."""
        found = []
        for shelf in shelves:
            nexts = {shelf: []}
            for router in range(shelf - 1, -1, -1):
                onward = [high for low, high in joints if low == router and high in nexts]
                if onward:
                    nexts[router] = onward
            found.append(nexts)
        return found

    def scripts(self, homes, spans, ways):
        """The scripts of all hosts, and for each host the devices that it may aim at."""
        r = self.random
        scripts, aimed = [], []
        for home in homes:
            near = [at for at, nexts in enumerate(ways) if home in nexts]
            near = r.sample(near, min(len(near), r.choice((0, 1, 2, 32))))
            lines = Lines(r, [spans[at] for at in near], spans)
            scripts.append([lines.line().decode("latin-1") + ("\r" if self.maybe(0.05) else "") for _ in range(r.choice((0, 1, 3, 10)))])
            aimed.append((home, near))
        return scripts, aimed

    def routes(self, routers, devices, links, ways, aimed, shelves):
        """Routes along some way for each device; now and then only those that are needed."""
        found = [{} for _ in routers]
        frugal = self.maybe(0.3)
        for at, nexts in enumerate(ways):
            chosen = {router: self.random.choice(onward) if onward else None for router, onward in nexts.items()}
            wanted = set()
            for home, near in aimed:
                while at in near and home is not None and home not in wanted:
                    wanted.add(home)
                    home = chosen[home]
            for router in wanted if frugal else nexts:
                goal = devices[at]["name"] if router == shelves[at] else routers[chosen[router]]
                names = [link["name"] for link in links if (link["from"], link["to"]) == (routers[router], goal)]
                found[router][devices[at]["name"]] = self.random.choice(names)
        return found
