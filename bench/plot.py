#!/usr/bin/env python3
"""Draws cost against length, one line for each side: speed-write.svg and speed-read.svg.

    plot.py TABLE FOLDER      a table of bench/results, and the folder for the figures
"""
import math
import sys

NAMES = {"wikuay": "Wikuay", "plain": "plain C loop", "libosmocore": "libosmocore", "gammu": "gammu", "wireshark": "wireshark",
         "copy": "copy of the octets"}
# Colours that stay apart for colour-blind readers, and a marker of its own for each side.
LOOKS = {"wikuay": ("#0072B2", "circle", 3.2), "plain": ("#000000", "square", 1.8), "libosmocore": ("#D55E00", "triangle", 1.8),
         "gammu": ("#009E73", "diamond", 1.8), "wireshark": ("#CC79A7", "cross", 1.8), "copy": ("#777777", "ring", 1.8)}
WIDTH, HEIGHT = 860, 500
LEFT, RIGHT, TOP, BOTTOM = 84, 200, 64, 62


def read_table(path):
    """What was measured, the column's name, and the points of each side for letters in a 7-bit short message."""
    about, names, lines = {}, None, {}
    with open(path, encoding="utf-8") as table:
        for line in table:
            fields = line.rstrip("\n").split("\t")
            if line.startswith("# "):
                about.setdefault(fields[0][2:], []).append(fields[1])
            elif names is None:
                names = fields
            else:
                row = dict(zip(names, fields))
                cost = row.get("ns", row.get("instructions"))
                if row["service"] == "sms" and row["text"] == "letters" and row["answer"] == "same":
                    lines.setdefault((row["direction"], row["side"]), []).append((int(row["length"]), float(cost)))
    return about, "nanoseconds" if "ns" in names else "x86-64 instructions", lines


def marker(shape, x, y, colour):
    if shape == "circle":
        return f'<circle cx="{x:.1f}" cy="{y:.1f}" r="5" fill="{colour}"/>'
    if shape == "ring":
        return f'<circle cx="{x:.1f}" cy="{y:.1f}" r="4" fill="white" stroke="{colour}" stroke-width="1.6"/>'
    if shape == "square":
        return f'<rect x="{x - 4:.1f}" y="{y - 4:.1f}" width="8" height="8" fill="{colour}"/>'
    if shape == "cross":
        return f'<path d="M{x - 4:.1f} {y - 4:.1f}l8 8m0 -8l-8 8" stroke="{colour}" stroke-width="2"/>'
    corners = [(0, -5), (5, 4), (-5, 4)] if shape == "triangle" else [(0, -5.5), (5.5, 0), (0, 5.5), (-5.5, 0)]
    return f'<polygon points="{" ".join(f"{x + a:.1f},{y + b:.1f}" for a, b in corners)}" fill="{colour}"/>'


def figure(direction, unit, measure, lines):
    sides = [side for side in NAMES if (direction, side) in lines]
    points = {side: sorted(lines[(direction, side)]) for side in sides}
    costs = [max(cost, 1) for side in sides for _, cost in points[side]]
    low = math.floor(math.log10(min(costs)))
    top = next(step * 10 ** power for power in range(low, 20) for step in (1, 2, 5) if step * 10 ** power >= max(costs))
    high = math.log10(top)
    across, up = WIDTH - LEFT - RIGHT, HEIGHT - TOP - BOTTOM

    def x(length):
        return LEFT + across * length / 160

    def y(cost):
        return TOP + up * (high - math.log10(max(cost, 1))) / (high - low)

    verb = "Writing" if direction == "write" else "Reading"
    out = [f'<svg xmlns="http://www.w3.org/2000/svg" width="{WIDTH}" height="{HEIGHT}" viewBox="0 0 {WIDTH} {HEIGHT}" '
           'font-family="Helvetica, Arial, sans-serif" font-size="13" fill="#222">',
           f'<rect width="{WIDTH}" height="{HEIGHT}" fill="white"/>',
           f'<text x="{LEFT}" y="26" font-size="17" font-weight="bold">{verb} letters as a 7-bit short message</text>',
           f'<text x="{LEFT}" y="46" fill="#555">{measure}; the vertical scale is logarithmic; lower is better</text>']
    for power in range(low, math.floor(high) + 1):
        for step in range(1, 10):
            if step * 10 ** power <= top:
                at = y(step * 10 ** power)
                shade = "#ccc" if step == 1 else "#eee"
                out.append(f'<path d="M{LEFT} {at:.1f}h{across}" stroke="{shade}"/>')
        out.append(f'<text x="{LEFT - 8}" y="{y(10 ** power) + 4.5:.1f}" text-anchor="end">{10 ** power:,}</text>')
    for length in range(0, 161, 20):
        out.append(f'<path d="M{x(length):.1f} {TOP + up}v5" stroke="#222"/>')
        out.append(f'<text x="{x(length):.1f}" y="{TOP + up + 20}" text-anchor="middle">{length}</text>')
    out.append(f'<path d="M{LEFT} {TOP}v{up}h{across}" fill="none" stroke="#222"/>')
    out.append(f'<text x="{LEFT + across / 2:.1f}" y="{HEIGHT - 16}" text-anchor="middle">length of the text in septets</text>')
    middle = TOP + up / 2
    out.append(f'<text x="22" y="{middle:.1f}" text-anchor="middle" transform="rotate(-90 22 {middle:.1f})">{unit} of one call</text>')
    for side in reversed(sides):
        colour, shape, width = LOOKS[side]
        path = " ".join(f"{x(length):.1f},{y(cost):.1f}" for length, cost in points[side])
        out.append(f'<polyline points="{path}" fill="none" stroke="{colour}" stroke-width="{width}"/>')
        out += [marker(shape, x(length), y(cost), colour) for length, cost in points[side]]
    # The legend, in the order of the lines at their right end, and no two rows closer than a line of text.
    at = -math.inf
    for side in sorted(sides, key=lambda one: -points[one][-1][1]):
        colour, shape, width = LOOKS[side]
        end = y(points[side][-1][1])
        at = max(end, at + 34)
        left = LEFT + across + 36
        out.append(f'<path d="M{left - 10} {at:.1f}h22" stroke="{colour}" stroke-width="{width}"/>' + marker(shape, left + 1, at, colour))
        weight = ' font-weight="bold"' if side == "wikuay" else ""
        out.append(f'<text x="{left + 20}" y="{at + 4.5:.1f}"{weight}>{NAMES[side]}</text>')
        cost = points[side][-1][1]
        out.append(f'<text x="{left + 20}" y="{at + 19:.1f}" font-size="11" fill="#555">{cost:,.0f} at {points[side][-1][0]}</text>')
    out.append("</svg>")
    return "\n".join(out) + "\n"


def main(words):
    if len(words) != 2:
        raise SystemExit(__doc__)
    about, unit, lines = read_table(words[0])
    for direction in ("write", "read"):
        with open(f"{words[1]}/speed-{direction}.svg", "w", encoding="utf-8") as out:
            out.write(figure(direction, unit, about["measure"][0], lines))


if __name__ == "__main__":
    main(sys.argv[1:])
