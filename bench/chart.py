"""Draws how long ours takes beside Rust's, as an SVG picture on standard output.

usage: chart.py OURS RUST
       chart.py PAGE.md HEADING

OURS and RUST are the lines of benchmark runs, as compare.py reads them. Of a page, as docs/SPEED.md, the first table below
a heading is drawn: a row for each kind of work, a column for each length, ratios as `1.4` or `0.6 to 0.7` in the cells. Rows
of unordered maps are left out, so that the picture is no wider than a page.

A bar begins at Rust's time, 1.0: upwards ours takes longer, downwards less. Where one bar has several figures, as
those of two types of keys, it is full up to the nearest of them, and pale from there to the farthest.
"""

import math
import re
import sys
import textwrap
from html import escape
from itertools import dropwhile, takewhile

from compare import lines_of

WORK = {
    "a_build": "insertions",
    "b_hit": "hits",
    "b_miss": "misses",
    "c_walk": "walks",
    "d_cycle": "removals in the middle",
    "d_pop": "pop",
    "e_capacity": "insertions after with_capacity",
    "f_hit": "hits, unordered",
    "f_insert": "insertions, unordered",
    "f_miss": "misses, unordered",
    "g_sort": "sort_keys",
    "i_union": "unions of sorted sets",
    "t_attrs": "attributes",
    "t_hit": "hits by texts",
    "t_miss": "misses by texts",
}
BAR, GROUP, GAP, LEFT, RIGHT, TOP, HEIGHT, BELOW = 16, 74, 20, 44, 12, 58, 230, 58
LIGHT, DARK = (158, 202, 225), (8, 69, 148)


def ratios_of_runs(ours, rust):
    """For each kind of work and length the least and the greatest ratio, over the types of keys."""
    base = {name: time for name, time, _ in lines_of(rust)}
    found = {}
    for (work, own, key, n), time, _ in lines_of(ours):
        if own == "proved" and (work, "upstream", key, n) in base:
            ratio = time / base[(work, "upstream", key, n)]
            low, high = found.setdefault(WORK.get(work, work), {}).get(n, (ratio, ratio))
            found[WORK.get(work, work)][n] = (min(low, ratio), max(high, ratio))
    lengths = sorted({n for row in found.values() for n in row})
    return lengths, found


def ratios_of_page(path, heading):
    """The same of the first table below a heading."""
    with open(path, encoding="utf-8") as file:
        below = dropwhile(lambda line: line.strip("# \n") != heading, file)
        table = list(takewhile(is_row, dropwhile(lambda line: not is_row(line), below)))
    if not table:
        sys.exit(f"{path} has no table below {heading}")
    (_, *lengths), _, *rows = [[cell.strip() for cell in line.strip().strip("|").split("|")] for line in table]
    found = {}
    for work, *cells in [row for row in rows if not row[0].startswith("unordered")]:
        figures = [[float(figure) for figure in re.findall(r"\d+\.\d+", cell)] for cell in cells]
        found[work.replace("`", "")] = {
            length: (min(some), max(some)) for length, some in zip(lengths, figures) if some
        }
    return lengths, found


def is_row(line):
    """Whether this is a line of a table."""
    return line.startswith("|")


def shade(place, count):
    """The colour of a length: light for short maps, dark for long ones."""
    part = place / max(count - 1, 1)
    return "#" + "".join(f"{round(a + (b - a) * part):02x}" for a, b in zip(LIGHT, DARK))


def box(x, top, bottom, colour, opacity, says):
    """A part of a bar, at least a line thick."""
    height = max(bottom - top, 1.5)
    return (
        f'<rect x="{x}" y="{top:.1f}" width="{BAR - 3}" height="{height:.1f}" fill="{colour}"'
        f' fill-opacity="{opacity}"><title>{escape(says)}</title></rect>'
    )


def words(x, y, what, anchor="middle", weight="normal"):
    """A line of text."""
    return f'<text x="{x}" y="{y:.1f}" text-anchor="{anchor}" font-weight="{weight}">{escape(what)}</text>'


def scale(found):
    """The powers of two between which all ratios are, and the height of a ratio."""
    ends = [end for row in found.values() for pair in row.values() for end in pair]
    floor = min(-1, math.floor(math.log2(min(ends))))
    ceiling = max(1, math.ceil(math.log2(max(ends))))
    return range(floor, ceiling + 1), lambda ratio: TOP + HEIGHT * (ceiling - math.log2(ratio)) / (ceiling - floor)


def bars(found, colours, height_of):
    """The bars, each group above its name, and where the last one ends."""
    drawn, x, one = [], LEFT, height_of(1.0)
    for work, row in found.items():
        room = max(BAR * len(row), GROUP) + GAP
        at = x + (room - BAR * len(row) + 3) // 2
        for length in [length for length in colours if length in row]:
            low, high = row[length]
            says = f"{work}, {length}: {low:.1f}" + (f" to {high:.1f}" if high > low else "")
            near = height_of(min(max(1.0, low), high))
            if high > low:
                drawn.append(box(at, height_of(high), height_of(low), colours[length], 0.45, says))
            drawn.append(box(at, min(one, near), max(one, near), colours[length], 1, says))
            at += BAR
        for i, part in enumerate(textwrap.wrap(work, 14)):
            drawn.append(words(x + room / 2, TOP + HEIGHT + 18 + 13 * i, part))
        x += room
    return drawn, x


def axis(powers, height_of, end):
    """A line at each power of two."""
    drawn = []
    for power in powers:
        y = height_of(2.0**power)
        drawn.append(words(LEFT - 6, y + 4, f"{2.0**power:g}", "end", "normal" if power else "bold"))
        drawn.append(f'<path d="M{LEFT} {y:.1f}H{end}" stroke="#d5d8dc" stroke-width="1"/>')
    return drawn


def legend(colours):
    """What the picture says, the colour of each length, and where the last one ends."""
    says = "Our time by Rust's: at 1 as long, above it longer, below it shorter"
    drawn, x = [words(LEFT, 20, says, "start", "bold")], LEFT
    for length, colour in colours.items():
        drawn.append(f'<rect x="{x}" y="32" width="11" height="11" fill="{colour}"/>')
        drawn.append(words(x + 16, 42, str(length), "start"))
        x += 34 + 7 * len(str(length))
    return drawn, x


def picture(lengths, found):
    """The whole picture."""
    colours = {length: shade(i, len(lengths)) for i, length in enumerate(lengths)}
    powers, height_of = scale(found)
    columns, end = bars(found, colours, height_of)
    key, key_end = legend(colours)
    width, height = max(end + RIGHT, key_end), TOP + HEIGHT + BELOW
    head = (
        f'<svg xmlns="http://www.w3.org/2000/svg" viewBox="0 0 {width} {height}" width="{width}" height="{height}"'
        ' font-family="sans-serif" font-size="11" fill="#222" role="img"'
        ' aria-label="Our time by Rust\'s, by work and length">'
    )
    ground = f'<rect width="{width}" height="{height}" fill="#fff"/>'
    rust = f'<path d="M{LEFT} {height_of(1.0):.1f}H{end}" stroke="#c0392b" stroke-width="2"/>'
    return "\n".join([head, ground, *key, *axis(powers, height_of, end), *columns, rust, "</svg>"])


def main():
    if len(sys.argv) != 3:
        sys.exit(__doc__)
    if sys.argv[1].endswith(".md"):
        lengths, found = ratios_of_page(sys.argv[1], sys.argv[2])
    else:
        lengths, found = ratios_of_runs(sys.argv[1], sys.argv[2])
    if not found:
        sys.exit("the two have no workload in common")
    print(picture(lengths, found))


if __name__ == "__main__":
    main()
