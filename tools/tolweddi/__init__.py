"""Tolweddi from Python: makes bundles, runs them with the proved program, and reads its reports.

    import tolweddi
    net = tolweddi.Bundle()
    cpu, hub, ram = net.add_host("cpu"), net.add_router("hub"), net.add_device("ram", base=0x10000)
    net.add_link(cpu, hub)
    net.add_link(hub, ram)
    net.add_routes()
    cpu.write(0x10010, size=2, data=b"hello---")
    back = cpu.read(0x10010, size=2, count=2)
    report = tolweddi.run(net)
    print(report[back].data)

`run`, `replay` and `check` start the launcher `./sb` of this repository, which first proves and builds the program where that
wasn't done yet. `program="crates/sb_cli/out/sb_cli"` starts the program that was built, and any other path what is there.

This package, and the tools that stand on it, are no part of what is proved. It judges nothing: the program does, and what this
package tells of a run is what stands in the program's report. Its own checks of bundles are a help, as they name the objects;
the program makes all of them again. docs/guide.md shows how it is used, and docs/formats.md has the rules of all texts.
"""
from __future__ import annotations

from .bundles import Bundle, T
from .explaining import Explanation, of_bundle, of_evidence, of_script, told
from .faults import (
    BundleFault, Fault, FileFault, Finding, NotAvailable, NotLawful, ProgramFault, Refused, ReportFault, one_line, printable,
)  # fmt: skip
from .images import FORMATS, ImageForm, read_image
from .limits import (
    ATOMIC, ATOMICS, DIGITS, MOST_BODY, MOST_BYTES, MOST_CAPACITY, MOST_LINES, MOST_LINKS, MOST_NODES, MOST_PAGES, MOST_PAGES_OF_ALL,
    MOST_WORDS, MOST_WORDS_OF_ONE, NAME, NUMERAL, PAGE, POSTED, READ, ROW, TOP, VERBS, WIDTHS, WRITE,
)  # fmt: skip
from .nodes import Device, Host, Link, Node, Router, Transaction
from .reports import Answer, Entry, Report
from .runs import BUNDLE_FAULTS, LAUNCHER, ROOT, Source, check, replay, run
from .scripts import LINE_FAULTS, Access, LineFault, access_of, number_of
from .tooling import Arguments, as_tool, numeral, of_file, put

__all__ = [
    "Access", "Answer", "Bundle", "BundleFault", "Device", "Entry", "Explanation", "FORMATS", "Fault", "FileFault", "Finding", "Host",
    "ImageForm", "LAUNCHER", "Link", "Node", "NotAvailable", "NotLawful", "ProgramFault", "Refused", "Report", "ReportFault", "Router",
    "Transaction", "access_of", "check", "of_bundle", "of_evidence", "of_script", "read_image", "replay", "run", "told",
]  # fmt: skip
