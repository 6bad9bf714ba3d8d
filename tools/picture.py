#!/usr/bin/env python3
"""Draws the tables of documents of a page of timings as a picture.

Usage: tools/picture.py docs/TIMINGS.md docs/timings.svg, with --check behind them to compare and not write.
A table stands under a heading '### N MB', with a column for each way and a row for each kind of text; a cell
has three rates in MB/s: to read, to print and to let go. A bar is the time of the three together, where that
of serde_json is 1. Python's standard library alone is needed.
"""
import re
import sys
from html import escape

TASKS = ('read', 'print', 'let go')
BESIDE = 'serde_json'
COLOURS = {
    'tape': ('#08519c', '#3182bd', '#9ecae1'),
    'borrowed': ('#006d2c', '#31a354', '#a1d99b'),
    'owned': ('#54278f', '#756bb1', '#bcbddc'),
    'serde_json': ('#636363', '#969696', '#cccccc'),
    'simdjson': ('#7a0177', '#c51b8a', '#f768a1'),
    'RapidJSON': ('#00585c', '#1c9099', '#a6bddb'),
    'json': ('#a63603', '#e6550d', '#fdae6b'),
}
WIDTH, LEFT, RIGHT, TOP = 470, 110, 60, 108
BAR, GAP, LONGEST = 11, 14, 1.6


def cells(line):
    return [cell.strip().strip('`') for cell in line.strip().strip('|').split('|')]


def tables(page):
    """The tables under headings of megabytes: heading, ways, and for each kind the rates by way."""
    found = []
    for part in re.split(r'^### ', page, flags=re.M)[1:]:
        heading = part.split('\n', 1)[0].strip()
        if not re.fullmatch(r'\d+ MB', heading):
            continue
        table = re.search(r'(^\|.*\n)+', part, flags=re.M)
        lines = table.group().splitlines() if table else []
        if len(lines) < 3:
            continue
        ways = cells(lines[0])[1:]
        rows = {}
        for line in lines[2:]:
            kind, *rates = cells(line)
            rows[kind] = {way: [float(rate) for rate in cell.split(',')] for way, cell in zip(ways, rates)}
        found.append((heading, ways, rows))
    return found


def times(rates):
    """Nanoseconds a byte of each task."""
    return [1000 / rate for rate in rates]


def text(x, y, words, size=11, anchor='start', colour='#222222', weight='normal'):
    return (f'<text x="{x:.1f}" y="{y:.1f}" font-size="{size}" text-anchor="{anchor}" fill="{colour}" '
            f'font-weight="{weight}">{escape(words)}</text>')


def bar(x, y, way, parts, scale):
    """The three tasks of one way, one behind the other; what is longer than the panel is cut, and says how long it is."""
    whole, at, out = sum(parts), 0.0, []
    for task, part in enumerate(parts):
        end = min(at + part, LONGEST)
        if end > at:
            out.append(f'<rect x="{x + at * scale:.1f}" y="{y:.1f}" width="{(end - at) * scale:.1f}" height="{BAR - 2}" '
                       f'fill="{COLOURS[way][task]}"><title>{way}, {TASKS[task]}: {part:.2f}</title></rect>')
        at += part
    out.append(text(x + min(whole, LONGEST) * scale + 4, y + BAR - 3, f'{whole:.2f}', 9, colour='#555555'))
    return out


def panel(x, heading, ways, rows):
    scale = (WIDTH - RIGHT) / LONGEST
    out = [text(x, TOP - 12, heading, 13, weight='bold')]
    y = TOP
    for kind, by_way in rows.items():
        beside = sum(times(by_way[BESIDE]))
        if x == LEFT:
            out.append(text(LEFT - 10, y + BAR * len(ways) / 2 + 4, kind, 12, 'end'))
        for way in ways:
            out += bar(x, y, way, [part / beside for part in times(by_way[way])], scale)
            y += BAR
        y += GAP
    out.append(f'<line x1="{x + scale:.1f}" y1="{TOP - 4}" x2="{x + scale:.1f}" y2="{y - GAP + 2:.1f}" stroke="#888888" stroke-dasharray="3 3"/>')
    return out, y


def picture(page):
    drawn, bottom, ways = [], 0, []
    for number, (heading, ways, rows) in enumerate(tables(page)):
        part, y = panel(LEFT + number * WIDTH, heading, ways, rows)
        drawn += part
        bottom = max(bottom, y)
    bottom += 8
    width = LEFT + WIDTH * len(tables(page))
    head = [text(LEFT, 24, f'A document read, printed and let go: the time, where that of {BESIDE} is 1', 15, weight='bold')]
    x = LEFT
    for way in ways:
        for task in range(len(TASKS)):
            head.append(f'<rect x="{x + task * 12:.1f}" y="42" width="12" height="10" fill="{COLOURS[way][task]}"/>')
        head.append(text(x + 42, 51, way, 11))
        x += 56 + 7 * len(way) + 14
    head.append(text(LEFT, 72, 'dark to light: read, print, let go. Shorter is faster.', 11, colour='#555555'))
    body = '\n'.join(head + drawn)
    return (f'<svg xmlns="http://www.w3.org/2000/svg" width="{width}" height="{bottom:.0f}" viewBox="0 0 {width} {bottom:.0f}" '
            f'font-family="sans-serif">\n<rect width="100%" height="100%" fill="#ffffff"/>\n{body}\n</svg>\n')


def main(words):
    if len(words) < 2 or len(words) > 3 or words[2:] not in ([], ['--check']):
        print(__doc__, file=sys.stderr)
        return 2
    with open(words[0], encoding='utf-8') as page:
        drawn = picture(page.read())
    if words[2:]:
        with open(words[1], encoding='utf-8') as there:
            is_same = there.read() == drawn
        print('1 passed, 0 failed' if is_same else f'{words[1]} is not what {words[0]} says\n0 passed, 1 failed')
        return 0 if is_same else 1
    with open(words[1], 'w', encoding='utf-8') as out:
        out.write(drawn)
    return 0


if __name__ == '__main__':
    sys.exit(main(sys.argv[1:]))
