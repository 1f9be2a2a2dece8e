#!/usr/bin/env python3
"""Draws the screens that a replay prints: ./mgd replay < examples/two-users.mgd | python3 bench/picture.py > docs/two-users.svg

Of each label the last screen is drawn, side by side in the order in which the labels were shown first.
"""
import re, sys, unicodedata
from xml.sax.saxutils import escape

CELL, LINE, SIZE = 8.4, 18, 14
EDGE, GAP, HEADING = 12, 28, 26
INK, PAPER, FRAME, CURSOR = "#1b1f24", "#ffffff", "#8c959f", "#0969da"


def columns_of(character):
    return 2 if unicodedata.east_asian_width(character) in "WF" else 1


def screens_in(lines):
    """The last screen of each label: its rows, each with whether it is in reverse, and its cursor."""
    screens, label, rows = {}, None, []
    for line in lines:
        line = line.rstrip("\n")
        if line.startswith("screen "):
            label, rows = line[7:], []
        elif line[:1] in ("|", "!"):
            rows.append((line[1:-1], line[0] == "!"))
        elif found := re.fullmatch(r"cursor (\d+) (\d+)", line):
            screens[label] = (rows, int(found[1]), int(found[2]))
    return screens


def width_of(rows):
    return max(sum(map(columns_of, row)) for row, _ in rows) * CELL


def text(x, y, words, ink, weight="normal", length=None):
    fits = f' textLength="{length:.1f}" lengthAdjust="spacingAndGlyphs"' if length else ""
    return f'<text x="{x:.1f}" y="{y:.1f}" fill="{ink}" font-weight="{weight}" xml:space="preserve"{fits}>{escape(words)}</text>'


def draw_screen(label, screen, left):
    """The marks of one screen whose frame begins at left."""
    rows, cursor_row, cursor_column = screen
    width, height = width_of(rows) + 2 * EDGE, len(rows) * LINE + 2 * EDGE
    marks = [text(left + 2, HEADING - 9, label, INK, "bold")]
    marks.append(f'<rect x="{left:.1f}" y="{HEADING}" width="{width:.1f}" height="{height}" rx="6" fill="{PAPER}" stroke="{FRAME}"/>')
    for number, (row, is_reverse) in enumerate(rows):
        top = HEADING + EDGE + number * LINE
        if is_reverse:
            marks.append(f'<rect x="{left + EDGE:.1f}" y="{top}" width="{width - 2 * EDGE:.1f}" height="{LINE}" fill="{INK}"/>')
        words = row.rstrip(" ")
        if words:
            length = sum(map(columns_of, words)) * CELL
            marks.append(text(left + EDGE, top + LINE - 5, words, PAPER if is_reverse else INK, length=length))
    x, y = left + EDGE + (cursor_column - 1) * CELL, HEADING + EDGE + (cursor_row - 1) * LINE
    marks.append(f'<rect x="{x:.1f}" y="{y}" width="{CELL}" height="{LINE}" fill="{CURSOR}" fill-opacity="0.45"/>')
    return marks, width, height


def main():
    screens = screens_in(sys.stdin)
    if not screens:
        sys.exit("picture.py: standard input has no screen")
    marks, left, tallest = [], 1, 0
    for label, screen in screens.items():
        drawn, width, height = draw_screen(label, screen, left)
        marks += drawn
        left += width + GAP
        tallest = max(tallest, height)
    width, height = left - GAP + 1, HEADING + tallest + 1
    said = "; ".join(f"the screen of {label}" for label in screens)
    print(f'<svg xmlns="http://www.w3.org/2000/svg" width="{width:.0f}" height="{height}" viewBox="0 0 {width:.1f} {height}" '
          f'font-family="ui-monospace, Menlo, Consolas, \'DejaVu Sans Mono\', monospace" font-size="{SIZE}" role="img" aria-label="{escape(said)}">')
    print(f'<rect width="100%" height="100%" fill="{PAPER}"/>')
    print(*marks, "</svg>", sep="\n")


main()
