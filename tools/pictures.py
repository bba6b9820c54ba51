"""What the drawing tools share: a picture in SVG, its colours for light and dark pages, and the colours of hosts. Texts are in a
font of one width, so that how much room one needs is known. No part of what is proved."""
from __future__ import annotations

import colorsys
from dataclasses import dataclass, field
from xml.sax.saxutils import escape

THEMES = ("auto", "light", "dark")
FONT = "ui-monospace, 'DejaVu Sans Mono', Menlo, Consolas, monospace"
# the width of a character, in parts of the font's size
WIDE = 0.61
# by class: what is drawn so, on light and on dark pages
STYLES = {
    "page": ("fill:#ffffff", "fill:#14181d"),
    "text": ("fill:#1c232b", "fill:#e4e9ee"),
    "faint": ("fill:#5c6873", "fill:#97a4b0"),
    "frame": ("fill:none;stroke:#8a96a1", "fill:none;stroke:#66737f"),
    "rule": ("stroke:#d9dfe4", "stroke:#2c353e"),
    "band": ("fill:#f1f4f6", "fill:#1c2229"),
    "router": ("fill:#e9edf1;stroke:#5c6873", "fill:#29323b;stroke:#97a4b0"),
    "device": ("fill:#fdf3dc;stroke:#a07a1f", "fill:#3a3018;stroke:#d5ad52"),
    "readonly": ("fill:#f6e3e3;stroke:#a04444", "fill:#402424;stroke:#dd8585"),
    "link": ("fill:none;stroke:#53606c", "fill:none;stroke:#a3b0bb"),
    "wire": ("fill:none;stroke:#b3261e;stroke-dasharray:7 4", "fill:none;stroke:#ff8f85;stroke-dasharray:7 4"),
    "tip": ("fill:#53606c", "fill:#a3b0bb"),
    "wiretip": ("fill:#b3261e", "fill:#ff8f85"),
}
# a host's colour is light on any page, so the text on it is dark on any page
ON_HOST = "fill:#14181d"
HUES = (0.57, 0.09, 0.38, 0.94, 0.75, 0.15, 0.49, 0.03)


def host_colour(place: int) -> str:
    """The colour of a host by its place in the bundle: eight hues, which come again in three other shades."""
    turn, at = divmod(place % 32, len(HUES))
    light, strong = ((0.74, 0.72), (0.62, 0.50), (0.86, 0.75), (0.68, 0.28))[turn]
    red, green, blue = colorsys.hls_to_rgb((HUES[at] + turn * 0.045) % 1, light, strong)
    return "#" + "".join(f"{round(255 * part):02x}" for part in (red, green, blue))


def text_width(text: str, size: float) -> float:
    """The room that a text needs."""
    return len(text) * size * WIDE


def fitting(text: str, room: float, size: float) -> str:
    """The text, or as much of it as there is room for."""
    most = int(room / (size * WIDE))
    return text if len(text) <= most else text[: most - 1] + "…" if most > 2 else ""


def number(value: float) -> str:
    """A number without digits that don't matter."""
    return f"{value:.1f}".removesuffix(".0")


@dataclass
class Picture:
    """A picture, element by element."""

    title: str
    parts: list[str] = field(default_factory=list)

    def tag(self, name: str, hint: str = "", **attributes: object) -> None:
        """An element; an underscore in the name of an attribute stands for a hyphen, and one at its end for nothing. The hint is
        shown where the mouse rests on it."""
        words = [f'{key.rstrip("_").replace("_", "-")}="{_value(value)}"' for key, value in attributes.items()]
        inner = f"><title>{escape(hint)}</title></{name}>" if hint else "/>"
        self.parts.append(f"<{name} {' '.join(words)}{inner}")

    def text(self, x: float, y: float, text: str, size: float = 11, class_: str = "text", **attributes: object) -> None:
        """A text from x on, on the line y."""
        words = "".join(f' {key.replace("_", "-")}="{_value(value)}"' for key, value in attributes.items())
        self.parts.append(f'<text x="{number(x)}" y="{number(y)}" font-size="{number(size)}" class="{class_}"{words}>{escape(text)}</text>')

    def svg(self, width: float, height: float, theme: str) -> bytes:
        """The whole picture."""
        size = f'width="{number(width)}" height="{number(height)}" viewBox="0 0 {number(width)} {number(height)}"'
        head = f'<svg xmlns="http://www.w3.org/2000/svg" {size} font-family="{FONT}">'
        page = '<rect width="100%" height="100%" class="page"/>'
        lines = [head, f"<title>{escape(self.title)}</title>", f"<style>{style(theme)}</style>", page, *self.parts, "</svg>"]
        return ("\n".join(lines) + "\n").encode()


def _value(value: object) -> str:
    """The value of an attribute, as XML."""
    return number(value) if isinstance(value, float) else escape(str(value), {'"': "&quot;"})


def style(theme: str) -> str:
    """The colours of all classes; in the theme `auto` those that the reader's system asks for."""

    def rules(at: int) -> str:
        """The rules of all classes for one of the two kinds of pages."""
        return "".join(f".{name}{{{found[at]}}}" for name, found in STYLES.items())

    first = rules(theme == "dark") + f".onhost{{{ON_HOST}}}"
    return first + f"@media (prefers-color-scheme:dark){{{rules(1)}}}" if theme == "auto" else first
