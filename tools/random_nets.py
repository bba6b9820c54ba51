"""Networks to be run: random ones without a fault, and some that are made to stall if anything can, as the dictionaries and lists
that JSON spells. The random ones have links of each width that there is, the others 32 bytes. The same seed makes the same network."""
import sys

sys.dont_write_bytecode = True
import bundle_model
import model
from random_bundles import Lines, Maker

MOST_CAPACITY = 8
NOWHERE = 1 << 40


class Net(Maker):
    """A random network of chains, trees and meshes of routers, with small devices and hosts that meet at a few places of them."""

    def devices(self, count, taken):
        r, made, base = self.random, [], self.random.choice((0, 0x10000))
        for _ in range(count):
            pages = r.choice((1, 1, 1, 2))
            device = {"name": self.name(taken), "base": self.numeral(base), "pages": pages}
            if self.maybe(0.2):
                device["readonly"] = True
            if self.maybe(0.4):
                device["image"] = self.digits(r.choice((1, 4, 33, 64, 4096)))
            made.append((device, (base, base + pages * model.PAGE)))
            base += pages * model.PAGE + r.choice((0, 0, model.PAGE, 1 << 30))
        r.shuffle(made)
        return [device for device, _ in made], [span for _, span in made]

    def joints(self, sides, wire):
        count, shape = len(sides), self.random.choice(("chain", "tree", "funnel", "mesh"))
        if wire or shape == "mesh":
            return super().joints(sides, wire)
        if shape == "chain":
            return [(at, at + 1) for at in range(count - 1)]
        if shape == "tree":
            return [(self.random.randrange(at), at) for at in range(1, count)]
        return [(at, self.random.randrange(at + 1, count)) for at in range(count - 1)]

    def links(self, *ends):
        made, most = super().links(*ends), self.random.choice((1, 2, MOST_CAPACITY))
        for link in made:
            link["capacity"] = self.random.randint(1, most)
            if len(bundle_model.WIDTHS) > 1:
                link["width"] = self.random.choice(bundle_model.WIDTHS)
        return made

    def scripts(self, homes, spans, ways):
        r, scripts, aimed = self.random, [], []
        hot = [start + r.choice((0, 8, 4096 - 64)) for start, _ in spans]
        for home in homes:
            near = [at for at, nexts in enumerate(ways) if home in nexts]
            near = r.sample(near, min(len(near), r.choice((0, 1, 1, 2, 3, 32))))
            wide = Lines(r, [spans[at] for at in near], spans)
            scripts.append([])
            for _ in range(r.choice((0, 1, 3, 10, 30))):
                meets = near and self.maybe(0.7)
                scripts[-1].append(self.meeting(hot[r.choice(near)]) if meets else wide.line().decode("latin-1"))
            aimed.append((home, near))
        return scripts, aimed

    def meeting(self, place):
        """A line at one of few places, which other hosts aim at too."""
        r, size = self.random, self.random.randrange(4)
        verb, word = r.choice(model.VERBS[:3] * 3 + model.VERBS[3:]), 1 << size
        count = 1 if verb in model.ATOMICS else r.choice((1, 2, 5, 8, 40))
        count = min(count, (model.PAGE - place % model.PAGE) // word)
        return f"{verb.decode()} {place:#x} {size} {count if verb == b'rd' else r.randbytes(count << size).hex()}"


def random_net(seed):
    return Net(seed).network()


def network(scripts, joints, homes, shelves, capacity=1, count=None):
    """Hosts with these scripts at their homes, devices of one page at their shelves, and routers that are joined so."""
    count = count or 1 + max([*homes, *shelves, *(high for _, high in joints)])
    ends = [(f"h{at}", f"r{home}") for at, home in enumerate(homes)]
    ends += [(f"r{low}", f"r{high}") for low, high in joints]
    ends += [(f"r{shelf}", f"m{at}") for at, shelf in enumerate(shelves)]
    name = {pair: f"l{at}" for at, pair in enumerate(ends)}
    routes = [{} for _ in range(count)]
    for at, shelf in enumerate(shelves):
        routes[shelf][f"m{at}"] = name[f"r{shelf}", f"m{at}"]
        reaching = {shelf}
        for low, high in sorted(joints, reverse=True):
            if high in reaching and low not in reaching:
                reaching.add(low)
                routes[low][f"m{at}"] = name[f"r{low}", f"r{high}"]
    return {
        "version": 1,
        "hosts": [{"name": f"h{at}", "id": at, "script": script} for at, script in enumerate(scripts)],
        "routers": [{"name": f"r{at}", "routes": found} for at, found in enumerate(routes)],
        "devices": [{"name": f"m{at}", "base": hex(at * 2 * model.PAGE), "pages": 1} for at in range(len(shelves))],
        "links": [{"name": name[pair], "from": pair[0], "to": pair[1], "width": 32, "capacity": capacity} for pair in ends],
    }


def place_of(device, offset=0):
    return hex(device * 2 * model.PAGE + offset)


def additions(count, device=0):
    return [f"add {place_of(device)} 3 0100000000000000"] * count


def mixed(host, devices, count=12):
    """Reads and writes of several packets, posted writes and atomics by turns, at each device in turn, and a read at none."""
    lines = []
    for number in range(count):
        place = place_of((host + number) % devices)
        lines += (f"rd {place} 3 256", f"wr {place} 2 {'01020304' * 40}", f"wp {place} 0 {host:02x}", f"swap {place} 3 {host:016x}")[number % 4 :][:1]
    return lines + [f"rd {NOWHERE:#x} 3 4"] * (host % 2)


def fixed_nets():
    """Networks by what they are: rows of the counter and of the chain, and those in which something could stand still."""
    line = [(at, at + 1) for at in range(31)]
    yield "two hosts at one counter", network([additions(50), additions(50)], [], [0, 0], [0])
    yield "a chain of three routers", network([mixed(0, 3)], line[:2], [0], [0, 1, 2], 2)
    yield "32 hosts at one device, all of capacity 1", network([mixed(at, 1) for at in range(32)], [], [0] * 32, [0])
    yield "32 hosts at one device behind a chain", network([mixed(at, 1) for at in range(32)], line, [0] * 32, [31])
    yield "a chain of 32 routers, a host and a device at each", network([mixed(at, 1, 4) for at in range(32)], line, [*range(32)], [31])
    yield "a chain of 32 routers, from one end to the other", network([mixed(0, 1)], line, [0], [31])
    yield "32 hosts, 32 devices, each to each", network([mixed(at, 32, 32) for at in range(32)], [(0, 1)], [0] * 32, [1] * 32)
    yield "routers without a link", network([mixed(0, 1)], [], [0], [0], 1, 5)
    yield "a router that nothing comes to", network([mixed(0, 1)], [(0, 1)], [1], [1])
    yield "a router from which nothing leads on", network([mixed(0, 1)], [(0, 1)], [0], [0])
    yield "a host at a router that leads nowhere", network([mixed(0, 1), [f"rd {NOWHERE:#x} 0 1"], []], [(0, 1)], [0, 1, 1], [0])
    yield "hosts without a script", network([[] for _ in range(32)], line, [0] * 32, [31])
    yield "one host with a script among those without", network([mixed(at, 2) if at == 7 else [] for at in range(32)], line[:4], [0] * 32, [2, 4])
    yield "hosts that aim at nothing", network([[f"rd {NOWHERE:#x} 3 256", f"wp {NOWHERE:#x} 0 00"]] * 4, [(0, 1)], [0, 0, 1, 1], [1])
    yield "posted writes alone", network([[f"wp {place_of(0)} 3 {'%016x' % at * 256}"] * 8 for at in range(8)], line[:3], [0] * 8, [3])
    yield "comments alone", network([["# nothing", "", " "]], [], [0], [0])
    yield "two ways that meet again", network([mixed(at, 2) for at in range(4)], [(0, 1), (0, 2), (1, 3), (2, 3)], [0, 0, 1, 2], [3, 3])
