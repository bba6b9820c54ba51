#!/usr/bin/env python3
"""A model of `sb check`: plain, slow, and written from docs/formats.md alone, not from the checker.

    tools/check_model.py <EVIDENCE

reads what `sb check` reads, a bundle, a line `%report` and a report, and prints what it prints. The model knows no want of memory."""
import re
import sys

sys.dont_write_bytecode = True
import bundle_model
import net_model
from bundle_fields import Refused

MARK = b"%report"
DONE, REFUSED, REJECTED = 0, 3, 8
FIRST = b"sb 1\n"
HISTORY = re.compile(rb"history (0|[1-9][0-9]*)\n")
ENTRY = re.compile(rb"e (0|[1-9][0-9]*) ([a-z0-9_]+) ([0-9a-f]{8}) ([0-9a-f]{14}) ([0-9a-f]{14}) (-|(?:[0-9a-f]{2})+)\n")
READ, READ_ANSWER, WRITE, WRITE_ANSWER, POSTED, ATOMIC = 1, 2, 3, 4, 5, 9
CARRIES = {READ: False, READ_ANSWER: True, WRITE: True, WRITE_ANSWER: False, POSTED: True, ATOMIC: True}
ATOMICS = 9
ROUNDS = 1 << 32


def lines_of(text):
    """The lines of a text, each with its line feed; the last one may have none."""
    *whole, last = text.split(b"\n")
    return [line + b"\n" for line in whole] + ([last] if last else [])


def is_packet(command, dst, src, body):
    """Whether there is a packet with this command word and these addresses that carries these bytes."""
    opcode, size, length = command & 31, command >> 5 & 7, command >> 8 & 255
    if opcode not in CARRIES or size > 3 or opcode == ATOMIC and length >= ATOMICS:
        return False
    spoken = (1 if opcode == ATOMIC else length + 1) << size
    aligned = dst % (1 << size) == 0 and src % (1 << size) == 0
    in_range = max(dst, src) + spoken <= bundle_model.TOP
    return spoken <= net_model.MOST_BYTES and aligned and in_range and len(body) == (spoken if CARRIES[opcode] else 0)


def entry_of(numbers, line):
    """The entry that a line spells, or None; `numbers` has the number of each device by its name."""
    found = ENTRY.fullmatch(line)
    if not found or int(found[1]) >= ROUNDS or found[2].decode() not in numbers:
        return None
    command, dst, src = (int(word, 16) for word in found.group(3, 4, 5))
    body = b"" if found[6] == b"-" else bytes.fromhex(found[6].decode())
    return (int(found[1]), numbers[found[2].decode()], command, dst, src, body) if is_packet(command, dst, src, body) else None


def history_of(bundle, lines):
    """The entries of the history; or the number of the first line, from 1, that is missing or hasn't its form."""
    if lines[:1] != [FIRST]:
        return 1, None
    counted = HISTORY.fullmatch(lines[1]) if len(lines) > 1 else None
    if not counted or int(counted[1]) >= ROUNDS:
        return 2, None
    numbers, entries = {device["name"]: at for at, device in enumerate(bundle["devices"])}, []
    for at in range(2, 2 + int(counted[1])):
        entry = entry_of(numbers, lines[at]) if at < len(lines) else None
        if not entry:
            return at + 1, None
        entries.append(entry)
    return None, entries


def first_other(lines, due):
    """The number of the first line, from 1, in which two lists of lines differ, or None."""
    if lines == due:
        return None
    return next((at for at, (one, other) in enumerate(zip(lines, due), 1) if one != other), min(len(lines), len(due)) + 1)


def wrong(bundle, report):
    """The line in which a report goes wrong first and why; or None where it is that of a lawful run."""
    lines = lines_of(report)
    line, entries = history_of(bundle, lines)
    if line:
        return line, "form"
    replay = net_model.Replay(bundle)
    for at, entry in enumerate(entries, 3):
        try:
            replay.take(*entry)
        except net_model.Unlawful:
            return at, "entry"
    try:
        replay.end()
    except net_model.Unlawful:
        return 2 + len(entries), "short"
    told = net_model.result_lines(bundle, replay.answers, replay.memories)
    due = net_model.text_of(["sb 1", *net_model.history_lines(bundle, entries), *told, "end"])
    line = first_other(lines, lines_of(due))
    return (line, "text") if line else None


def parted(data):
    """The bundle's text and the report, or None where there is no line between them."""
    lines = lines_of(data)
    at = next((at for at, line in enumerate(lines) if line in (MARK, MARK + b"\n")), None)
    return None if at is None else (b"".join(lines[:at]), b"".join(lines[at + 1 :]))


def answer(data):
    """The status and the output of `sb check` on an input that isn't too long."""
    parts = parted(data)
    if not parts:
        return REFUSED, b"refused noreport\n"
    try:
        found = wrong(bundle_model.accepted(parts[0]), parts[1])
    except Refused as fault:
        return REFUSED, f"refused {fault}\n".encode()
    return (REJECTED, b"no %d %s\n" % (found[0], found[1].encode())) if found else (DONE, b"yes\n")


def main():
    status, output = answer(sys.stdin.buffer.read())
    sys.stdout.buffer.write(output)
    return status


if __name__ == "__main__":
    sys.exit(main())
