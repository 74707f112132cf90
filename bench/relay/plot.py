"""The rows of run.py as one picture: for each row a dot a relay, by how good it is beside the best peer."""
import math
import os
from xml.sax.saxutils import escape

COLOURS = {"pollrelay": "#c2302c", "haproxy": "#3b6fb6", "nginx": "#2f8f4e", "socat": "#8a8a8a", "go-copy": "#d79a1e", "go-splice": "#7a4fb0"}
# Beyond these a dot stands at the edge.
LEAST, MOST = 0.25, 4.0
LEFT, WIDE, HIGH, TOP = 290, 560, 24, 70


def place(ratio):
    """Where a ratio stands, on a logarithmic axis."""
    within = min(max(ratio, LEAST), MOST)
    return LEFT + WIDE * math.log(within / LEAST) / math.log(MOST / LEAST)


def text(x, y, said, anchor="middle", weight="normal"):
    return f'<text x="{x:.1f}" y="{y}" font-size="12" text-anchor="{anchor}" font-weight="{weight}" fill="#222">{escape(said)}</text>'


def dot(x, y, name):
    colour = COLOURS.get(name, "#444")
    size = 6 if name == "pollrelay" else 4.5
    return f'<circle cx="{x:.1f}" cy="{y}" r="{size}" fill="{colour}"><title>{escape(name)}</title></circle>'


def goodness(row_is_rate, median, best):
    """How many times as good as the best peer: above 1 is better."""
    if not median or not best:
        return None
    return median / best if row_is_rate else best / median


def axis(rows):
    drawn = []
    for tick in (0.25, 0.5, 1, 2, 4):
        x = place(tick)
        colour = "#888" if tick == 1 else "#ddd"
        drawn.append(f'<line x1="{x:.1f}" y1="{TOP - 12}" x2="{x:.1f}" y2="{TOP + rows * HIGH}" stroke="{colour}"/>')
        drawn.append(text(x, TOP - 18, "the best peer" if tick == 1 else f"{tick:g} times"))
    return drawn


def legend(names, y):
    drawn, x = [], LEFT
    for name in names:
        drawn += [dot(x, y - 4, name), text(x + 10, y, os.path.basename(name), "start")]
        x += 30 + 8 * len(os.path.basename(name))
    return drawn


def picture(rows, peers, is_rate):
    """An SVG of rows of medians by relay, as run.py makes them; `peers` are those whose best is 1."""
    names = [it for it in dict.fromkeys(name for medians in rows.values() for name in medians) if it != "direct"]
    drawn = [text(LEFT, 22, "Beside the best peer that copies through user space: to the right is better", "start", "bold")]
    drawn += axis(len(rows))
    for at, (row, medians) in enumerate(rows.items()):
        y = TOP + at * HIGH + HIGH // 2
        found = [medians[it] for it in peers if it in medians]
        best = (max if is_rate(row) else min)(found) if found else None
        drawn.append(text(LEFT - 14, y + 4, row, "end"))
        # pollrelay's own is drawn last, so that it lies above the others.
        for name in sorted((it for it in names if it in medians), key=lambda it: it == "pollrelay"):
            good = goodness(is_rate(row), medians[name], best)
            if good:
                drawn.append(dot(place(good), y, name))
    high = TOP + len(rows) * HIGH + 44
    drawn += legend(names, high - 14)
    wide = LEFT + WIDE + 40
    head = f'<svg xmlns="http://www.w3.org/2000/svg" width="{wide}" height="{high}" viewBox="0 0 {wide} {high}" font-family="sans-serif">'
    return "\n".join([head, f'<rect width="{wide}" height="{high}" fill="#fff"/>', *drawn, "</svg>", ""])
