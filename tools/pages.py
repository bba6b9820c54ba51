"""A reading of the repository's pages: their fenced blocks, with the mark above each, and the text outside of these."""
import re
from collections.abc import Iterator
from dataclasses import dataclass, field
from pathlib import Path

import built

FENCE = re.compile(r"```(\w*)$")
MARK = re.compile(r"<!-- (.*) -->$")


@dataclass
class Block:
    """A fenced block: the number of its first line in the page, its language, the mark in the line above it, and its lines."""

    line: int
    language: str
    mark: str
    lines: list[str] = field(default_factory=list)


def pages() -> list[Path]:
    """All pages of the repository."""
    return sorted(path for folder in (".", "docs", "tools", "bench") for path in (built.ROOT / folder).glob("*.md"))


def parts(page: Path) -> Iterator[Block | tuple[int, str]]:
    """A page's fenced blocks, and its other lines with their numbers, in their order."""
    block = None
    above = ""
    for number, line in enumerate(page.read_text().splitlines(), 1):
        fence = FENCE.match(line)
        if block and fence:
            yield block
            block = None
        elif block:
            block.lines.append(line)
        elif fence:
            mark = MARK.match(above)
            block = Block(number + 1, fence[1], mark[1] if mark else "")
        else:
            yield number, line
        above = line
    if block:
        raise ValueError(f"{page}:{block.line}: this block has no end")


def blocks(page: Path) -> list[Block]:
    return [part for part in parts(page) if isinstance(part, Block)]


def prose(page: Path) -> list[tuple[int, str]]:
    return [part for part in parts(page) if not isinstance(part, Block)]


def name(page: Path) -> str:
    return str(page.relative_to(built.ROOT))
