#!/usr/bin/env python3
"""A first network in Python: one host, one router, one memory. `first.py PROGRAM` runs this program in place of ./sb."""
import pathlib
import sys

sys.path.append(str(pathlib.Path(__file__).resolve().parents[2] / "tools"))
import tolweddi

net = tolweddi.Bundle()
cpu = net.add_host("cpu")
hub = net.add_router("hub")
ram = net.add_device("ram", base=0x10000, pages=16)
net.add_link(cpu, hub)
net.add_link(hub, ram)
net.add_routes()

cpu.write(ram.base + 0x10, size=2, data=bytes([1, 2, 3, 4, 5, 6, 7, 8]))
back = cpu.read(ram.base + 0x10, size=2, count=2)
old = cpu.add(ram.base + 0x10, size=0, operand=5)

program = sys.argv[1] if len(sys.argv) > 1 else tolweddi.LAUNCHER
report = tolweddi.run(net, workers=2, history=True, program=program)
print(report[back].code, report[back].data.hex())
print("the byte was", report[old].number, "and is", report.image("ram")[0x10])
for entry in report.history():
    print(f"round {entry.round}: {entry.device} served {entry.verb} {entry.address:#x} of transaction {entry.transaction}")
