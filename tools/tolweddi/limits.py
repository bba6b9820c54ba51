"""The limits of bundles and scripts, and the words of scripts; docs/formats.md has the rules."""
from __future__ import annotations

import re

PAGE = 4096
ROW = 32
TOP = 1 << 56
MOST_BYTES = 1 << 26
MOST_NODES = 32
MOST_LINKS = 128
MOST_LINES = 65536
MOST_WORDS = 262144
MOST_WORDS_OF_ONE = 256
MOST_PAGES = 256
MOST_PAGES_OF_ALL = 4096
MOST_CAPACITY = 1024
MOST_BODY = 32
# so many arrays and objects of JSON may be open within one another
MOST_OPEN = 127
WIDTHS = (8, 16, 32)
ATOMICS = ("add", "and", "or", "xor", "max", "min", "maxu", "minu", "swap")
VERBS = ("rd", "wr", "wp", *ATOMICS)
READ, WRITE, POSTED, ATOMIC = 1, 3, 5, 9
NAME = re.compile(r"[a-z][a-z0-9_]{0,15}")
NAME_RULE = "a name has 1 to 16 of a to z, 0 to 9 and _, a letter first"
NUMERAL = re.compile(r"[0-9]{1,20}|0x[0-9a-fA-F]{1,16}")
DIGITS = re.compile(r"[0-9a-fA-F]*")
