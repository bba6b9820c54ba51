"""Scripts to try the program on: a table of lines at the edges of the rules, and random scripts, small and full of overlaps
and faults. The same seed makes the same script."""
import random

import model

TOP = 1 << 64
PLACES = (0, 8, 16, 31, 32, 0xFF0, 0xFF8, 0x1000, 0x8000, 0xF800, 0xFFE0, 0xFFF8)
FAR = (0x10000, 0x1F000, (1 << 56) - 48, (1 << 56) - 4096)
TOO_FAR = (1 << 56, TOP - 4096, TOP - 1)
EDGES = (
    # numerals
    b"rd 18446744073709551615 0 1", b"rd 18446744073709551616 0 1", b"rd 99999999999999999999 0 1", b"rd 00000000000000000001 0 1",
    b"rd 000000000000000000001 0 1", b"rd 0xffffffffffffffff 0 1", b"rd 0x10000000000000000 0 1", b"rd 0x0000000000000001 0 1",
    b"rd 0x00000000000000001 0 1", b"rd 0xA 0 1", b"rd 0XA 0 1", b"rd 0x 0 1", b"rd 0xg 0 1", b"rd a 0 1", b"rd -0 0 1", b"rd +0 0 1", b"rd 0 zz 1",
    b"rd 0 0 zz", b"wr 0 zz 00", b"wr zz 0 0", b"rd 0 18446744073709551615 1", b"rd 0 0 18446744073709551615", b"rd 0 3 2305843009213693952",
    # lengths and sizes
    b"rd 0 0 0", b"rd 0 0 256", b"rd 0 0 257", b"rd 0 3 256", b"rd 0 3 257", b"rd 0 0 0x100", b"rd 0 3 1", b"rd 0 4 1", b"rd 0 4 0", b"wr 0 4 0",
    b"wr 0 0 " + b"5a" * 256, b"wr 0 0 " + b"5a" * 257, b"wr 0 3 " + b"5a" * 2048, b"wr 0 3 " + b"5a" * 2049, b"wp 0 3 " + b"5a" * 2056,
    b"wr 0 0 0", b"wr 0 0 0x01", b"wr 0 0 0g", b"wr 0 1 010", b"wr 0 1 01", b"wr 0 1 010203", b"wr 0 2 010203", b"wr 0 3 01020304050607", b"add 0 0 01",
    b"add 0 0 0102", b"add 0 1 01", b"swap 0 1 010203", b"max 0 1 01020304",
    # places
    b"rd 1 1 1", b"rd 4 3 1", b"wr 1 3 0102030405060708", b"rd 0xfff 0 1", b"rd 0xfff 0 2", b"rd 0x800 3 256", b"rd 0x808 3 256", b"rd 0xffe 1 2",
    b"wr 0xffff 0 01", b"wr 0xffff 0 0102", b"add 0xffff 0 01", b"wr 0x10000 0 01", b"add 0x10000 3 0102030405060708", b"rd 0xfff8 3 1",
    b"rd 72057594037927935 0 1", b"rd 72057594037927936 0 1", b"rd 72057594037927928 3 1", b"rd 18446744073709551615 0 2", b"rd 18446744073709551615 1 1",
    # words and lines
    b"rd", b"rd 0 0", b"rd 0 0 1 1", b"rd 0 0 1 # no", b"RD 0 0 1", b"rdx 0 0 1", b"r 0 0 1", b"max", b"maxi 0 0 01", b"#rd", b"\t #", b" # ? ", b" \t ",
    b"\r", b"\r\r", b"#\r\r", b"rd 0 0 1\r", b"rd 0 0 1\r\r", b"rd 0 0 1 \r", b"\rrd 0 0 1", b"rd\r0 0 1", b"rd\x0b0 0 1", b"rd\x0c0 0 1", b"rd\xa00 0 1",
    b"\0", b"rd 0 0 1\0", b"\t rd\t\t0 \t0\t1 ", b"\n\n?", b"\n", b"rd 0 0 1\n\n", b"?\n?", b"\r\n?\r\n", b"rd 9 9 9\n?",
)


class Maker:
    def __init__(self, seed):
        self.random = random.Random(seed)
        # most scripts stay within some bytes, so that their accesses overlap
        self.home = self.random.choice(PLACES)
        # how many of its lines are spoilt
        self.faults = self.random.choice((0, 0, 0.05, 0.3))
        self.blanks = self.random.choice((b" ", b"\t"))

    def maybe(self, chance):
        return self.random.random() < chance

    def numeral(self, value):
        """A spelling of a value below 2^64."""
        if self.maybe(0.5):
            text = str(value).encode()
            return text.rjust(self.random.choice((0, 0, 20)), b"0")
        text = format(value, self.random.choice("xX")).encode()
        return b"0x" + text.rjust(self.random.choice((0, 0, 16)), b"0")

    def body(self, length):
        data = bytes(self.random.choice((0, 0, 1, 0x7F, 0x80, 0xFF, self.random.randrange(256))) for _ in range(length)).hex()
        return "".join(self.random.choice((c, c.upper())) for c in data).encode()

    def address(self, word, length):
        """One that the transaction can have, but for spoilt lines."""
        place = self.home if self.maybe(0.8) else self.random.choice(PLACES + FAR)
        if self.maybe(self.faults / 4):
            return min(self.random.choice((place, *TOO_FAR)) + self.random.randrange(40), TOP - 1)
        place += self.random.randrange(40)
        place -= place % word
        return min(place, place - place % model.PAGE + model.PAGE - length)

    def transaction(self):
        r = self.random
        verb = r.choice(model.VERBS[:3] * 3 + model.VERBS[3:])
        size = r.randrange(4)
        most = r.choice((1, 4, 40, 256))
        count = 1 if verb in model.ATOMICS else r.randint(1, most)
        length = count << size
        words = [verb, self.numeral(self.address(1 << size, length)), self.numeral(size)]
        return words + [self.numeral(count) if verb == b"rd" else self.body(length)]

    def spoilt(self, words):
        """One or two changes, each of which may make a fault."""
        for _ in range(self.random.choice((1, 1, 2))):
            at = self.random.randrange(len(words))
            word = words[at]
            spelt = (word + b"0", b"0" + word, word + b"00", word + b"\r", word + b"\0", word + b"\xff", word[:-1] or b"x", word.upper(), b"#" + word)
            numerals = (b"0x", b"0X1", b"0x" + b"0" * 17, b"0" * 21, b"-1", b"+1", b"18446744073709551615", b"18446744073709551616", b"0xFFFFFFFFFFFFFFFF")
            own = {
                0: (b"nop", b"rdx", b"r", b"swap", b"rd", b"wr"),
                1: (b"4095", b"0x1001", b"65535", b"65536", b"0x100000000000000", b"0xffffffffffffff"),
                2: (b"3", b"4", b"0x4", b"256"),
                3: (b"0", b"257", b"256", b"f" * 4098, b"0g", b"123", b"123456"),
            }[min(at, 3)]
            words[at] = self.random.choice(self.random.choice((spelt, numerals, own, own)))
            if self.maybe(0.1):
                words.insert(at, b"0")
            elif self.maybe(0.1) and len(words) > 1:
                del words[at]
        return words

    def gap(self):
        return self.blanks if self.maybe(0.8) else b"".join(self.random.choices((b" ", b"\t"), k=self.random.randint(1, 3)))

    def line(self):
        if self.maybe(0.1):
            return self.random.choice((b"", b" \t ", b"#", b"\t# rd 0 0 0", b"# \0\x80\xff", b"#\r\r"))
        words = self.transaction()
        if self.maybe(self.faults):
            words = self.spoilt(words)
        edge = self.gap() if self.maybe(0.1) else b""
        return edge + self.gap().join(words) + edge

    def script(self):
        lines = [self.line() for _ in range(self.random.choice((0, 1, 5, 20, 60)))]
        text = b"".join(line + (b"\r\n" if self.maybe(0.1) else b"\n") for line in lines)
        return text[:-1] if self.maybe(0.2) else text
