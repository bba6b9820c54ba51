#!/usr/bin/env python3
"""A model of `sb solo`: plain, slow, and written from docs/formats.md alone, not from the program.

    tools/model.py solo <SCRIPT

prints what `sb solo` has to print, and ends with the status that it has to end with. The model knows no failing stream and
no want of memory. tools/compare_with_model runs it beside the program, and the expected texts of examples/ are its own.
"""
import re
import sys

MOST_BYTES = 1 << 26
MOST_LINES = 65536
MOST_WORDS = 262144
MOST_WORDS_OF_ONE = 256
PAGE = 4096
PAGES = 16
MEMORY = PAGE * PAGES
ROW = 32

ATOMICS = (b"add", b"and", b"or", b"xor", b"max", b"min", b"maxu", b"minu", b"swap")
VERBS = (b"rd", b"wr", b"wp") + ATOMICS


class Refused(Exception):
    """A line's fault, by its word."""


class Transaction:
    def __init__(self, verb, address, word, count, body):
        self.verb = verb  # the first word of the line
        self.address = address
        self.word = word  # bytes of one word: 1, 2, 4 or 8
        self.count = count  # how many words
        self.body = body  # the bytes of a write, or the operand of an atomic


def lines_of(text):
    """The lines of a script, without their ends."""
    pieces = text.split(b"\n")
    if pieces[-1] == b"":
        pieces.pop()
    return [piece[:-1] if piece.endswith(b"\r") else piece for piece in pieces]


def words_of(line):
    return [word for word in re.split(b"[ \t]", line) if word]


def number_of(word):
    if re.fullmatch(b"[0-9]{1,20}", word):
        value = int(word, 10)
    elif re.fullmatch(b"0x[0-9a-fA-F]{1,16}", word):
        value = int(word[2:], 16)
    else:
        raise Refused("number")
    if value >= 1 << 64:
        raise Refused("number")
    return value


def transaction_of(line):
    """The transaction of a line, or None where it has none."""
    words = words_of(line)
    if not words or words[0].startswith(b"#"):
        return None
    verb = words[0]
    if verb not in VERBS:
        raise Refused("verb")
    if len(words) != 4:
        raise Refused("number")
    address = number_of(words[1])
    size = number_of(words[2])
    count = number_of(words[3]) if verb == b"rd" else None
    if size > 3:
        raise Refused("size")
    word = 2**size
    body = b""
    if verb != b"rd":
        if not re.fullmatch(b"([0-9a-fA-F]{2})+", words[3]):
            raise Refused("data")
        body = bytes.fromhex(words[3].decode("ascii"))
        if len(body) % word:
            raise Refused("length")
        count = len(body) // word
    if not 1 <= count <= MOST_WORDS_OF_ONE:
        raise Refused("length")
    if verb in ATOMICS and count != 1:
        raise Refused("length")
    if address % word:
        raise Refused("aligned")
    if address % PAGE + count * word > PAGE:
        raise Refused("page")
    if address >= 1 << 56:
        raise Refused("range")
    return Transaction(verb, address, word, count, body)


def signed(value, bits):
    return value - (1 << bits) if value >= 1 << (bits - 1) else value


def combined(verb, old, operand):
    """What an atomic leaves of two words of one length."""
    bits = 8 * len(old)
    a = int.from_bytes(old, "little")
    b = int.from_bytes(operand, "little")
    if verb == b"add":
        new = (a + b) % (1 << bits)
    elif verb == b"and":
        new = a & b
    elif verb == b"or":
        new = a | b
    elif verb == b"xor":
        new = a ^ b
    elif verb == b"max":
        new = a if signed(a, bits) > signed(b, bits) else b
    elif verb == b"min":
        new = a if signed(a, bits) < signed(b, bits) else b
    elif verb == b"maxu":
        new = max(a, b)
    elif verb == b"minu":
        new = min(a, b)
    else:
        new = b
    return new.to_bytes(len(old), "little")


def answer(memory, t):
    """Carries a transaction out, and gives its code and the bytes that are answered."""
    here = slice(t.address, t.address + t.count * t.word)
    reached = here.stop <= MEMORY
    held = bytes(memory[here]) if reached else bytes(t.count * t.word)
    if reached and t.verb in (b"wr", b"wp"):
        memory[here] = t.body
    elif reached and t.verb in ATOMICS:
        memory[here] = combined(t.verb, held, t.body)
    if t.verb == b"wp":
        return "posted", b""
    code = "ok" if reached else "neterr"
    return code, b"" if t.verb == b"wr" else held


def refused(text):
    return 3, f"refused {text}\n".encode()


def solo(text):
    """The status and the output of `sb solo` on this input."""
    if len(text) > MOST_BYTES:
        return 7, b"too long\n"
    lines = lines_of(text)
    if len(lines) > MOST_LINES:
        return refused(f"lines {len(lines)}")
    script = []
    for number, line in enumerate(lines, 1):
        try:
            t = transaction_of(line)
        except Refused as fault:
            return refused(f"line {number} {fault}")
        if t is not None:
            script.append(t)
    words = sum(t.count for t in script)
    if words > MOST_WORDS:
        return refused(f"words {words}")
    memory = bytearray(MEMORY)
    out = ["sb 1", f"host host {len(script)}"]
    for i, t in enumerate(script):
        code, body = answer(memory, t)
        out.append(f"t {i} {code} {body.hex() or '-'}")
    out.append(f"device mem {PAGES}")
    for offset in range(0, MEMORY, ROW):
        row = memory[offset : offset + ROW]
        if any(row):
            out.append(f"m {offset:05x} {row.hex()}")
    out.append("end")
    return 0, "".join(line + "\n" for line in out).encode()


def sb(words, text):
    """The same by the words of the command line."""
    return solo(text) if words == ["solo"] else (2, b"usage\n")


if __name__ == "__main__":
    status, output = sb(sys.argv[1:], sys.stdin.buffer.read() if sys.argv[1:] == ["solo"] else b"")
    sys.stdout.buffer.write(output)
    sys.stdout.flush()
    sys.exit(status)
