#!/usr/bin/env python3
"""Draws the chart that README.md shows, docs/speed.svg, from bench/RESULTS.md, for light and dark pages."""

import pathlib
from html import escape

TOP = pathlib.Path(__file__).resolve().parent.parent
PAGE, CHART = TOP / "bench/RESULTS.md", TOP / "docs/speed.svg"
OURS, TIME, GLIBC, FMT = "Movaliren", "`time` 0.3.55", "`strftime`, `strptime`", "{fmt}"
NINE, LIST, PLAN, FROM_C = "RFC 3339, nine decimals", "a borrowed list of 11 items", "a plan of 11 items", "RFC 3339, nine decimals, from C"
# The groups of bars, each by a text of its form, and by the row and the column of each bar.
GROUPS = {
    "2026-11-22T09:55:06.123456789Z": {"Movaliren": (NINE, OURS), "time 0.3.55": (NINE, TIME)},
    "Sun, 22 Nov 2026 09:55:06 +0000": {
        "Movaliren": ("RFC 2822", OURS), "time 0.3.55": ("RFC 2822", TIME), "strftime": ("RFC 2822", GLIBC), "{fmt}": ("RFC 2822", FMT)},
    "2026-11-22 09:55:06": {
        "Movaliren": (LIST, OURS), "Movaliren, prepared once": (PLAN, OURS), "time 0.3.55": (LIST, TIME), "strftime": (LIST, GLIBC),
        "{fmt}": (PLAN, FMT)},
    "RFC 3339 of Unix time, from C": {"Movaliren": (FROM_C, OURS), "strftime": (FROM_C, GLIBC), "{fmt}": (FROM_C, FMT)},
}
# These colours differ on white, on black, and for readers who do not see red or green.
COLORS = {"Movaliren": "#2f74b5", "Movaliren, prepared once": "#63a4dd", "time 0.3.55": "#b45f06", "strftime": "#6e737b", "{fmt}": "#7c5cbf"}
GREY, LEFT, WIDTH, BAR = "#7d8590", 250, 860, 16


def figures():
    """The figures of the page by row and column."""
    found, heads = {}, []
    for line in PAGE.read_text().splitlines():
        cells = line[1:-1].split("|")
        if cells[0] == "What":
            heads = cells
        for head, cell in zip(heads[1:], cells[1:]):
            if cell.isdigit():
                found[cells[0], head] = int(cell)
    return found


def word(x, y, text, more=""):
    return f'<text x="{x:.0f}" y="{y}" fill="{GREY}" {more}>{escape(text)}</text>\n'


def draw():
    found = figures()
    groups = {text: {name: found[place] for name, place in bars.items()} for text, bars in GROUPS.items()}
    scale = (WIDTH - LEFT - 60) / max(max(bars.values()) for bars in groups.values())
    drawn, y = word(WIDTH / 2, 20, "Processor instructions of one text: fewer is better", 'text-anchor="middle" font-size="15"'), 34
    x = 90
    for name, color in COLORS.items():
        drawn += f'<rect x="{x}" y="{y}" width="12" height="12" fill="{color}"/>\n' + word(x + 18, y + 11, name)
        x += 60 + 7 * len(name)
    y += 32
    for text, bars in groups.items():
        drawn += word(LEFT - 10, y + len(bars) * BAR / 2 + 4, text, 'text-anchor="end"')
        for name, count in bars.items():
            drawn += f'<rect x="{LEFT}" y="{y}" width="{count * scale:.1f}" height="{BAR - 2}" fill="{COLORS[name]}"/>\n'
            drawn += word(LEFT + count * scale + 6, y + BAR - 4, f"{count:,}")
            y += BAR
        y += 16
    CHART.write_text(f'<svg xmlns="http://www.w3.org/2000/svg" viewBox="0 0 {WIDTH} {y}" font-family="sans-serif" font-size="13">\n{drawn}</svg>\n')


if __name__ == "__main__":
    draw()
