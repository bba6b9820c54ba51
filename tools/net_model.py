#!/usr/bin/env python3
"""A judge of runs of networks: plain, slow, and written from docs/formats.md and the definition of a lawful journal alone, not
from the nodes. It tells whether a report with its history is one that the network may have, byte by byte.

    tools/net_model.py BUNDLE REPORT

judges a report that `replay --history` or `run --history` printed of the bundle, and says `lawful`, or what is wrong with it.

    tools/net_model.py BUNDLE

prints the report, without its history, of a run in which the hosts' scripts are carried out one after another. Where the report
of a bundle doesn't depend on the schedule, this is what each run has to print.

A journal, which is what the entries of a history say, is lawful where
1. at each device the words of each host that are aimed at it stand in it once, in the order of the script, as the script has them;
2. each entry is of a host of the network, each of its words lies in the entry's device, and all of them together are no more bytes
   than the device's link is wide;
3. the rounds of its entries don't fall, within a round the devices don't, and each round is below a bound.

Which of the lawful journals a run has is left open. All else in a report follows from the journal: the answers, the codes and the
memories are those of a replay of its entries, word by word."""
import pathlib
import re
import sys

sys.dont_write_bytecode = True
import bundle_model
import model
from bundle_fields import Refused

MOST_BYTES = 32
READ, WRITE, POSTED, ATOMIC = 1, 3, 5, 9
OPCODES = {b"rd": READ, b"wr": WRITE, b"wp": POSTED}
# from the least to the greatest: of the codes of a transaction's words the greatest is told
CODES = "ok", "exok", "deverr", "neterr"
ENTRY = re.compile("e (0|[1-9][0-9]*) ([a-z0-9_]+) ([0-9a-f]{8}) ([0-9a-f]{14}) ([0-9a-f]{14}) (-|(?:[0-9a-f]{2})+)")
# a node moves at most so often for each word that may go over a ring, and for the ring's end: 4 times at each of the ring's ends
MOVES = 8


class Unlawful(Exception):
    """What a run did that it may not do."""


class Word:
    """One word of a transaction, as a request."""

    def __init__(self, host, source, address, size, opcode, atomic, body, qos, prot, last):
        self.fields = host, source, address, size, opcode, atomic, body, qos, prot, last
        self.host, self.source, self.address, self.opcode, self.atomic, self.body = host, source, address, opcode, atomic, body
        self.length = 1 << size


def transaction_words(host, index, t):
    """The words of a transaction; the last one ends the message."""
    opcode = OPCODES.get(t.verb, ATOMIC)
    atomic = model.ATOMICS.index(t.verb) if opcode == ATOMIC else 0
    for at in range(t.count):
        body = t.body[at * t.word : (at + 1) * t.word]
        source = (host["id"] << 40) + (index << 11) + at * t.word
        yield Word(host["id"], source, t.address + at * t.word, t.word.bit_length() - 1, opcode, atomic, body, host["qos"], host["prot"], at == t.count - 1)


def device_of(bundle, address):
    """The device that has an address, as its number; or None."""
    for at, device in enumerate(bundle["devices"]):
        if device["base"] <= address < device["base"] + bundle_model.size_of(device):
            return at
    return None


def way(bundle, host_at, device_at):
    """The numbers of the links from a host to a device."""
    links, device = bundle["links"], bundle["devices"][device_at]["name"]
    at = next(at for at, link in enumerate(links) if bundle_model.place_of(bundle, link["from"]) == ("host", host_at))
    found = [at]
    while (here := bundle_model.place_of(bundle, links[at]["to"]))[0] == "router":
        at = bundle_model.number_of(links, bundle["routers"][here[1]]["routes"][device])
        found.append(at)
    return found


def budgets(bundle):
    """For each link how many words of requests go over it, and how many of answers."""
    found = [[0, 0] for _ in bundle["links"]]
    for host_at, host in enumerate(bundle["hosts"]):
        for t in host["transactions"]:
            target = device_of(bundle, t.address)
            for at in way(bundle, host_at, target) if target is not None else ():
                found[at][0] += t.count
                found[at][1] += t.count if t.verb != b"wp" else 0
    return found


def round_bound(bundle):
    """The number that each entry's round stays below."""
    return sum(MOVES * (words + 1) for ring in budgets(bundle) for words in ring)


def packet_words(command, dst, src, body):
    """The words of a request by its command word, its addresses and the bytes that it carries; raises Unlawful where it is none."""
    opcode, size, length = command & 31, command >> 5 & 7, command >> 8 & 255
    if opcode not in (READ, WRITE, POSTED, ATOMIC) or size > 3:
        raise Unlawful(f"command {command:08x} is no request")
    if command >> 23 & 15:
        raise Unlawful(f"command {command:08x} has EOF, EX or user bits")
    atomic, count = (length, 1) if opcode == ATOMIC else (0, length + 1)
    if count << size > MOST_BYTES:
        raise Unlawful(f"command {command:08x} speaks of more than {MOST_BYTES} bytes")
    if len(body) != (0 if opcode == READ else count << size):
        raise Unlawful(f"command {command:08x} has {len(body)} bytes")
    for at in range(count):
        here = at << size
        last = at == count - 1 and bool(command >> 22 & 1)
        yield Word(command >> 27, src + here, dst + here, size, opcode, atomic, body[here : here + (1 << size)], command >> 16 & 15, command >> 20 & 3, last)


class Memory:
    """A device's memory, which serves a word at a time."""

    def __init__(self, device):
        self.base, self.readonly = device["base"], device["readonly"]
        self.bytes = bytearray(device["image"]) + bytearray(bundle_model.size_of(device) - len(device["image"]))

    def serve(self, word):
        """The code and the bytes that a word is answered with."""
        here = slice(word.address - self.base, word.address - self.base + word.length)
        old = bytes(self.bytes[here])
        carries = word.opcode in (READ, ATOMIC)
        if word.opcode == READ:
            return "ok", old
        if self.readonly:
            return "deverr", bytes(word.length) if carries else b""
        self.bytes[here] = word.body if word.opcode != ATOMIC else model.combined(model.ATOMICS[word.atomic], old, word.body)
        return "ok", old if carries else b""

    def rows(self):
        found = ((at, self.bytes[at : at + model.ROW]) for at in range(0, len(self.bytes), model.ROW))
        return [(at, row.hex()) for at, row in found if any(row)]


def wanted_words(bundle):
    """By device and host's id: the words of the script that are aimed at the device, in order."""
    wanted = {}
    for host in bundle["hosts"]:
        for index, t in enumerate(host["transactions"]):
            target = device_of(bundle, t.address)
            if target is not None:
                wanted.setdefault((target, host["id"]), []).extend(transaction_words(host, index, t))
    return wanted


def kept(bundle, made):
    """What is made of a bundle, made once."""
    if made not in bundle:
        bundle[made] = made(bundle)
    return bundle[made]


class Replay:
    """A replay of a journal, entry by entry: the memories, the answer of each word by its source, and the words that are due."""

    def __init__(self, bundle):
        self.bundle, self.memories, self.answers, self.before = bundle, [Memory(device) for device in bundle["devices"]], {}, (0, 0)
        self.widths = {link["to"]: link["width"] for link in bundle["links"]}
        self.left = {key: iter(words) for key, words in kept(bundle, wanted_words).items()}

    def take(self, when, device, command, dst, src, body):
        """Serves an entry; raises Unlawful where it can't follow those before it."""
        if (when, device) < self.before:
            raise Unlawful(f"it is of round {when}, device {device}, and stands behind one of {self.before}")
        self.before, spoken = (when, device), 0
        for word in packet_words(command, dst, src, body):
            if device_of(self.bundle, word.address) != device:
                raise Unlawful(f"it is at device {device}, and has a word at {word.address:#x}")
            due = next(self.left.get((device, word.host), iter(())), None)
            if due is None or due.fields != word.fields:
                raise Unlawful(f"it has the word {word.fields}, where {due and due.fields} is due")
            self.answers[word.source] = self.memories[device].serve(word)
            spoken += word.length
        if spoken > self.widths[self.bundle["devices"][device]["name"]]:
            raise Unlawful(f"it speaks of {spoken} bytes, more than its device's link is wide")

    def end(self):
        """Raises Unlawful where a word was never served."""
        for (device, host), words in self.left.items():
            missing = next(words, None)
            if missing is not None:
                raise Unlawful(f"device {device} never served the word {missing.fields} of host id {host}")


def replayed(bundle, entries):
    """Replays a journal. Gives the answer of each word by its source, and the memories; raises Unlawful where it isn't lawful."""
    replay, bound = Replay(bundle), kept(bundle, round_bound)
    for number, entry in enumerate(entries):
        if entry[0] >= bound:
            raise Unlawful(f"entry {number} is of round {entry[0]}, where {bound} is the bound")
        try:
            replay.take(*entry)
        except Unlawful as fault:
            raise Unlawful(f"entry {number}: {fault}") from fault
    replay.end()
    return replay.answers, replay.memories


def outcome(host, index, t, answers):
    """The code and the body that a report tells of a transaction."""
    if t.verb == b"wp":
        return "posted", "-"
    zeros = b"" if t.verb == b"wr" else bytes(t.word)
    found = [answers.get(word.source, ("neterr", zeros)) for word in transaction_words(host, index, t)]
    return max((code for code, _ in found), key=CODES.index), b"".join(data for _, data in found).hex() or "-"


def history_lines(bundle, entries):
    yield f"history {len(entries)}"
    for when, device, command, dst, src, body in entries:
        yield f"e {when} {bundle['devices'][device]['name']} {command:08x} {dst:014x} {src:014x} {body.hex() or '-'}"


def result_lines(bundle, answers, memories):
    for host in bundle["hosts"]:
        yield f"host {host['name']} {len(host['transactions'])}"
        for index, t in enumerate(host["transactions"]):
            yield " ".join(("t", str(index), *outcome(host, index, t, answers)))
    for device, memory in zip(bundle["devices"], memories):
        yield f"device {device['name']} {device['pages']}"
        for offset, row in memory.rows():
            yield f"m {offset:05x} {row}"


def text_of(lines):
    return "".join(line + "\n" for line in lines).encode()


def report(bundle, entries, history):
    """The report of the run that has this journal; raises Unlawful where it is no lawful one."""
    told = result_lines(bundle, *replayed(bundle, entries))
    return text_of(["sb 1", *(history_lines(bundle, entries) if history else ()), *told, "end"])


def entries_in(bundle, text):
    """The journal that the history of a report spells; raises Unlawful where its lines haven't their form."""
    lines = text.decode("latin-1").split("\n")
    counted = re.fullmatch("history (0|[1-9][0-9]*)", lines[1]) if len(lines) > 1 else None
    if not counted:
        raise Unlawful("line 2 is no `history N`")
    numbers = {device["name"]: at for at, device in enumerate(bundle["devices"])}
    entries = []
    for number, line in enumerate(lines[2 : 2 + int(counted[1])], 3):
        found = ENTRY.fullmatch(line)
        if not found or found[2] not in numbers:
            raise Unlawful(f"line {number} is no entry: {line[:80]!r}")
        command, dst, src = (int(word, 16) for word in found.group(3, 4, 5))
        entries.append((int(found[1]), numbers[found[2]], command, dst, src, b"" if found[6] == "-" else bytes.fromhex(found[6])))
    return entries


def first_difference(got, due):
    got, due = got.split(b"\n"), due.split(b"\n")
    at = next((at for at, (one, other) in enumerate(zip(got, due)) if one != other), min(len(got), len(due)))
    return f"line {at + 1} is {got[at : at + 1]}, where {due[at : at + 1]} is due"


def judge(bundle, text):
    """Raises Unlawful where a report with its history isn't one that the accepted bundle may have; else gives its journal's entries."""
    entries = entries_in(bundle, text)
    due = report(bundle, entries, history=True)
    if text != due:
        raise Unlawful(first_difference(text, due))
    return entries


def in_turn(bundle):
    """The answers and the memories of a run in which the hosts' scripts are carried out one after another, each word at once."""
    answers, memories = {}, [Memory(device) for device in bundle["devices"]]
    for host in bundle["hosts"]:
        for index, t in enumerate(host["transactions"]):
            target = device_of(bundle, t.address)
            for word in transaction_words(host, index, t) if target is not None else ():
                answers[word.source] = memories[target].serve(word)
    return answers, memories


def report_in_turn(bundle):
    return text_of(["sb 1", *result_lines(bundle, *in_turn(bundle)), "end"])


def main():
    if len(sys.argv) not in (2, 3):
        sys.exit("usage: net_model.py BUNDLE [REPORT]")
    data, *texts = (pathlib.Path(name).read_bytes() for name in sys.argv[1:])
    try:
        bundle = bundle_model.accepted(data)
        if texts:
            print(f"lawful, with {len(judge(bundle, texts[0]))} entries")
        else:
            sys.stdout.write(report_in_turn(bundle).decode())
    except Refused as fault:
        print(f"refused {fault}")
        return 3
    except Unlawful as fault:
        print(f"unlawful: {fault}")
        return 1
    return 0


if __name__ == "__main__":
    sys.exit(main())
