#!/usr/bin/env python3
"""A mesh of 4 by 4 routers, with two hosts at each router of its first column and two memories at each of its last row. Requests
go right and then down, so each has one way. Every host writes a word of its own to each memory, reads it back, and adds 1 to a
counter that all share. `mesh.py PROGRAM` runs this program in place of ./sb."""
import itertools
import pathlib
import sys

sys.path.append(str(pathlib.Path(__file__).resolve().parents[2] / "tools"))
import tolweddi

SIDE = 4
net = tolweddi.Bundle()
mesh = [[net.add_router(f"r{y}{x}") for x in range(SIDE)] for y in range(SIDE)]
hosts = [net.add_host(f"cpu{n}") for n in range(2 * SIDE)]
memories = [net.add_device(f"ram{n}", base=0x100000 * (n + 1)) for n in range(2 * SIDE)]
for n, (host, memory) in enumerate(zip(hosts, memories)):
    net.add_link(host, mesh[n // 2][0])
    net.add_link(mesh[-1][n // 2], memory, capacity=2)
for y, x in itertools.product(range(SIDE), range(SIDE - 1)):
    net.add_link(mesh[y][x], mesh[y][x + 1], capacity=4)
for y, x in itertools.product(range(SIDE - 1), range(SIDE)):
    net.add_link(mesh[y][x], mesh[y + 1][x], capacity=4)
net.add_routes()

for host in hosts:
    for memory in memories:
        host.write(memory.base + 8 * host.id, size=3, data=host.name.ljust(8).encode())
reads = [(host, host.read(memory.base + 8 * host.id, size=3)) for host in hosts for memory in memories]
counts = [host.add(memories[0].base + 0x100, size=3, operand=1) for host in hosts]
program = sys.argv[1] if len(sys.argv) > 1 else tolweddi.LAUNCHER
report = tolweddi.run(net, workers=4, history=True, program=program)
assert all(report[read].data == host.name.ljust(8).encode() for host, read in reads)
assert sorted(report[count].number for count in counts) == list(range(len(hosts)))
assert report.image("ram0")[0x100] == len(hosts) and len(report.history()) == sum(host.transactions for host in hosts)
try:
    tolweddi.check(net, report, program=program)
except tolweddi.NotAvailable:
    print("this program has no command `check` yet", file=sys.stderr)
print(f"{len(hosts)} hosts, {len(report.history())} requests served, all answers as they must be")
