#!/usr/bin/env python3
"""Draws how long reads and writes take as more clients make them: plot.py LOAD.csv PLOT.svg

LOAD.csv is what `run.sh load` prints. Each point is a number of clients: how many calls a second they made, and how
long one took: the middle one (a full line) and the 99th percentile (a dashed one). Both axes are logarithmic.
"""
import csv
import math
import sys

WIDTH, HEIGHT, MARGIN = 420, 320, 60
COLORS = ["#7a4fb0", "#c62828", "#b98309", "#2f78c4", "#3f8f55", "#5b6169"]


def scale(values, length):
    """Where a value stands on an axis of this length, and the powers of ten that stand at it."""
    low = math.floor(math.log10(min(values)))
    high = math.ceil(math.log10(max(values)))
    return lambda value: (math.log10(value) - low) / max(high - low, 1) * length, range(low, high + 1)


def line(points, color, dashes):
    joined = " ".join(f"{x:.1f},{y:.1f}" for x, y in points)
    dots = "".join(f'<circle cx="{x:.1f}" cy="{y:.1f}" r="2.5" fill="{color}"/>' for x, y in points)
    return f'<polyline points="{joined}" fill="none" stroke="{color}" stroke-dasharray="{dashes}"/>{dots}'


def panel(kind, rows, systems):
    """The picture of one kind of call."""
    rows = [row for row in rows if row["kind"] == kind and float(row["calls_a_second"]) > 0]
    across, decades = scale([float(row["calls_a_second"]) for row in rows], WIDTH)
    times = [float(row[name]) for row in rows for name in ("p50_us", "p99_us")]
    up, heights = scale(times, HEIGHT)
    out = [f'<text x="{WIDTH / 2}" y="-12" text-anchor="middle" font-weight="bold">{kind}s</text>']
    for power in decades:
        x = across(10.0**power)
        out.append(f'<path d="M{x:.1f},0V{HEIGHT}" stroke="#ddd"/>')
        out.append(f'<text x="{x:.1f}" y="{HEIGHT + 16}" text-anchor="middle">{10**power:,}</text>')
    for power in heights:
        y = HEIGHT - up(10.0**power)
        out.append(f'<path d="M0,{y:.1f}H{WIDTH}" stroke="#ddd"/>')
        out.append(f'<text x="-6" y="{y + 4:.1f}" text-anchor="end">{10.0**power:g}</text>')
    out.append(f'<text x="{WIDTH / 2}" y="{HEIGHT + 34}" text-anchor="middle">{kind}s a second</text>')
    place = f"translate(-44,{HEIGHT / 2}) rotate(-90)"
    out.append(f'<text transform="{place}" text-anchor="middle">microseconds</text>')
    for system, color in zip(systems, COLORS):
        own = [row for row in rows if row["system"] == system]
        for name, dashes in (("p50_us", "none"), ("p99_us", "5 3")):
            found = [(float(row["calls_a_second"]), float(row[name])) for row in own]
            points = [(across(calls), HEIGHT - up(time)) for calls, time in found]
            out.append(line(points, color, dashes))
    return "\n".join(out)


def main():
    if len(sys.argv) != 3:
        sys.exit(__doc__)
    with open(sys.argv[1], encoding="utf-8") as file:
        rows = list(csv.DictReader(file))
    systems = list(dict.fromkeys(row["system"] for row in rows))
    width, height = 2 * WIDTH + 3 * MARGIN, HEIGHT + 130
    font = 'font-family="sans-serif" font-size="12"'
    out = [f'<svg xmlns="http://www.w3.org/2000/svg" viewBox="0 0 {width} {height}" {font}>']
    out.append('<rect width="100%" height="100%" fill="white"/>')
    for place, kind in enumerate(("read", "write")):
        x = MARGIN + place * (WIDTH + MARGIN)
        out.append(f'<g transform="translate({x},40)">{panel(kind, rows, systems)}</g>')
    for place, (system, color) in enumerate(zip(systems, COLORS)):
        x, y = MARGIN + place * 150, HEIGHT + 100
        out.append(f'<rect x="{x}" y="{y - 9}" width="10" height="10" fill="{color}"/>')
        out.append(f'<text x="{x + 16}" y="{y}">{system}</text>')
    note = "a full line: the middle call; a dashed one: the 99th percentile"
    out.append(f'<text x="{MARGIN}" y="{HEIGHT + 120}">{note}</text></svg>')
    with open(sys.argv[2], "w", encoding="utf-8") as file:
        file.write("\n".join(out) + "\n")


if __name__ == "__main__":
    main()
