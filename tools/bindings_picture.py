#!/usr/bin/env python3
"""Draws docs/bindings.svg of the table of docs/TIMINGS.md that `make bench-bindings` printed.

Usage: tools/bindings_picture.py [--check]; with --check nothing is written, and it ends with 1 where the picture is not that of the table.
A bar is how many times as fast as serde_json the library is, on a scale where each doubling has the same width.
"""
import math
import re
import sys
from pathlib import Path
from xml.sax.saxutils import escape

ROOT = Path(__file__).resolve().parent.parent
TABLE, PICTURE = ROOT / "docs/TIMINGS.md", ROOT / "docs/bindings.svg"
HEAD = "| what | paizkorde, ns | serde_json, ns | serde_json's time by ours |"
ROW, LEFT, DOUBLING, LEAST, MOST = 22, 330, 90, -3, 2  # 1/8 to 4 times as fast


def rows():
    """What is measured, with the ratio."""
    text = TABLE.read_text()
    if HEAD not in text:
        sys.exit(f"{TABLE.name} has no table of {HEAD!r}")
    lines = text[text.index(HEAD) :].split("\n\n")[0].splitlines()[2:]
    return [(cells[1].strip(), float(cells[4])) for cells in (line.split("|") for line in lines)]


def place(ratio):
    return LEFT + (min(max(math.log2(ratio), LEAST), MOST) - LEAST) * DOUBLING


def drawn(pairs):
    width, height = place(2**MOST) + 60, (len(pairs) + 2) * ROW
    out = [
        f'<svg xmlns="http://www.w3.org/2000/svg" viewBox="0 0 {width:.0f} {height}" font-family="sans-serif" font-size="12">',
        f'<rect width="{width:.0f}" height="{height}" fill="white"/>',
    ]
    for power in range(LEAST, MOST + 1):
        x, mark = place(2**power), f"{2 ** power}" if power >= 0 else f"1/{2 ** -power}"
        colour = "black" if power == 0 else "#ccc"
        out.append(f'<line x1="{x:.0f}" y1="{ROW}" x2="{x:.0f}" y2="{height - ROW}" stroke="{colour}"/>')
        out.append(f'<text x="{x:.0f}" y="{ROW - 6}" text-anchor="middle" fill="#555">{mark}</text>')
    for number, (what, ratio) in enumerate(pairs, 1):
        y, one, end = number * ROW, place(1), place(ratio)
        colour = "#3b7dd8" if ratio >= 1 else "#d8853b"
        out.append(f'<text x="{LEFT - 10}" y="{y + 15}" text-anchor="end">{escape(what)}</text>')
        out.append(
            f'<rect x="{min(one, end):.1f}" y="{y + 4}" width="{abs(end - one):.1f}" height="{ROW - 8}" fill="{colour}"/>'
        )
        out.append(f'<text x="{max(one, end) + 6:.1f}" y="{y + 15}" fill="#333">{ratio:.2f}</text>')
    out.append(
        f'<text x="{LEFT}" y="{height - 6}" fill="#555">times as fast as serde_json, from Rust (the black line: as fast)</text>'
    )
    return "\n".join([*out, "</svg>", ""])


def main():
    picture = drawn(rows())
    if sys.argv[1:] == ["--check"]:
        is_so = PICTURE.exists() and PICTURE.read_text() == picture
        print(
            f"{PICTURE.name}: {'as the table has it' if is_so else 'not that of the table: tools/bindings_picture.py'}"
        )
        return 0 if is_so else 1
    PICTURE.write_text(picture)
    return 0


if __name__ == "__main__":
    sys.exit(main())
