"""Draws the bench's table: what a call costs against the number of processes, the library beside plain C.

Reads the table of bench/best.py from standard input and writes an SVG to standard output. A few rows of it, a panel each, on the same two
logarithmic axes; a power of ten has the same length on both, so that a cost that grows with the number of processes rises at 45 degrees.
The dashed line through the library's last place rises so. The figure at a line's end is the library's cost divided by that of plain C.
"""
import math
import re
import sys

ROWS = [
    ("sound", "ready"),
    ("enter, exit", "ready"),
    ("requeue", "ready, random"),
    ("list", "ready"),
    ("tick", "waiting"),
    ("tick, all due", "random"),
    ("broadcast to all", "random"),
    ("start", "ready, random"),
    ("nearest", "timers random"),
    ("due, all told", "timers random"),
]
LIBRARY, PLAIN = "#0072b2", "#d55e00"

COLUMNS = 5
POWER = 62  # the length of a power of ten
MARGIN = 0.25  # between the lines and a panel's edge, in powers of ten
GAP_X, GAP_Y = 62, 66
LEFT, TOP = 74, 112


def rows(lines):
    """The table's rows: the call and its scene, then P, the library's cost and that of plain C."""
    for line in lines:
        found = re.match(r"(.{20}) (.{18}) +(\d+) +([\d.]+) +([\d.]+) ", line)
        if found:
            yield (found[1].strip(), found[2].strip()), (int(found[3]), float(found[4]), float(found[5]))


class Axis:
    """A logarithmic axis on which these values stand."""

    def __init__(self, values):
        self.low, high = math.log10(min(values)) - MARGIN, math.log10(max(values)) + MARGIN
        self.length = (high - self.low) * POWER
        self.powers = [10**power for power in range(math.ceil(self.low), math.floor(high) + 1)]

    def place(self, value):
        return (math.log10(value) - self.low) * POWER


def text(x, y, words, style=""):
    return f'<text x="{x:.1f}" y="{y:.1f}" {style}>{words}</text>'


def line(places, colour):
    """A line with a dot at each of its places."""
    path = "L".join(f"{x:.1f} {y:.1f}" for x, y in places)
    dots = "".join(f'<circle cx="{x:.1f}" cy="{y:.1f}" r="3"/>' for x, y in places)
    return f'<g fill="{colour}"><path d="M{path}" stroke="{colour}" stroke-width="2" fill="none"/>{dots}</g>'


def guide(x, y, width, height):
    """A dashed line of slope one through this place, from edge to edge of a panel."""
    back, on = min(x, height - y), min(width - x, y)
    return f'<path d="M{x - back:.1f} {y + back:.1f}L{x + on:.1f} {y - on:.1f}" stroke="#999" stroke-dasharray="4 4"/>'


def panel(row, points, across, up):
    """The panel of a row, its upper left corner at 0 0."""
    width, height = across.length, up.length
    yield text(0, -11, f'{row[0]} <tspan font-size="12" font-weight="normal" fill="#555">({row[1]})</tspan>', 'font-size="15" font-weight="bold" fill="#111"')
    for power in across.powers:
        x = across.place(power)
        yield f'<path d="M{x:.1f} 0v{height:.1f}" stroke="#e2e2e2"/>'
        yield text(x, height + 17, f"{power:,}", 'text-anchor="middle"')
    for power in up.powers:
        y = height - up.place(power)
        yield f'<path d="M0 {y:.1f}h{width:.1f}" stroke="#e2e2e2"/>'
        yield text(-7, y + 4, f"{power:,}", 'text-anchor="end"')
    yield f'<path d="M0 0v{height:.1f}h{width:.1f}" stroke="#888" fill="none"/>'
    libraries = [(across.place(size), height - up.place(library)) for size, library, _ in points]
    plains = [(across.place(size), height - up.place(plain)) for size, _, plain in points]
    yield guide(*libraries[-1], width, height)
    yield line(plains, PLAIN)
    yield line(libraries, LIBRARY)
    for (size, library, plain), anchor in ((points[0], "middle"), (points[-1], "end")):
        y = height - up.place(max(library, plain)) - 9
        yield text(across.place(size), y, f"{library / plain:.2f}", f'text-anchor="{anchor}" fill="#111"')


def picture(table):
    costs = {row: [point for name, point in table if name == row] for row in ROWS}
    points = sum(costs.values(), [])
    across = Axis([point[0] for point in points])
    up = Axis([cost for point in points for cost in point[1:]])
    step_x, step_y = across.length + GAP_X, up.length + GAP_Y
    width = math.ceil(LEFT + COLUMNS * step_x - GAP_X / 2)
    height = math.ceil(TOP + len(ROWS) / COLUMNS * step_y - 8)

    yield f'<svg xmlns="http://www.w3.org/2000/svg" viewBox="0 0 {width} {height}" font-family="sans-serif" font-size="12" fill="#555">'
    yield f'<rect width="{width}" height="{height}" fill="white"/>'
    yield text(24, 36, "What a call costs", 'font-size="20" font-weight="bold" fill="#111"')
    yield text(24, 58, "Nanoseconds against the number of processes, both logarithmic. Dashed: twice the processes, twice the cost. The figures: library divided by plain C.")
    for x, name, colour in ((width - 220, "library", LIBRARY), (width - 116, "plain C", PLAIN)):
        yield line([(x, 31), (x + 24, 31)], colour)
        yield text(x + 33, 36, name, f'font-size="14" fill="{colour}"')
    for number, row in enumerate(ROWS):
        yield f'<g transform="translate({LEFT + number % COLUMNS * step_x:.1f} {TOP + number // COLUMNS * step_y:.1f})">'
        yield from panel(row, costs[row], across, up)
        yield "</g>"
    yield "</svg>"


print("\n".join(picture(list(rows(sys.stdin)))))
