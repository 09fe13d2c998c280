"""The picture of bench/growth: of each load one line, from what it costs at first, with its slope next to its name."""

import math

from pictures import BLUE, GREEN, GREY, ORANGE, PURPLE, RED, WIDTH, name_lines, need_matplotlib, save, short

# The panels of the picture: a title, and its lines as the name of a table, the column of its figures, and the line's name.
CALLS = (
    ("length", 0, "statements"),
    ("audit", 0, "statements, audit"),
    ("keys", 0, "keys"),
    ("sessions", 0, "sessions"),
    ("threads", 0, "sessions, run"),
    ("snapshots", 0, "open snapshots"),
    ("tables", 0, "tables"),
    ("buckets", 0, "buckets"),
    ("old_get", 1, "versions, one get"),
    ("versions", 0, "versions of a key"),
    ("changed", 2, "puts between rounds"),
)
MEMORY = tuple((name, 1, title) for name, column, title in CALLS if column == 0)
ROUNDS = (("held", 2, "records held by a snapshot"), ("rest", 2, "rows at rest"), ("registers", 2, "idle sessions"))
PANELS = (
    ("CPU time of a call", CALLS, 3.3),
    ("Peak memory of a call", MEMORY, 2.6),
    ("CPU time of a round of the interval collector", ROUNDS, 2.0),
)
# A line of less than this slope is grey.
FLAT = 0.2
STEEP_COLOURS = (RED, BLUE, GREEN, PURPLE, ORANGE)


def slope_of(points):
    """Returns the slope of the straight line through points on two logarithmic axes that is nearest to them."""
    logs = [(math.log(x), math.log(y)) for x, y in points]
    x, y = (sum(column) / len(logs) for column in zip(*logs))
    return sum((a - x) * (b - y) for a, b in logs) / sum((a - x) ** 2 for a, _ in logs)


def line_of(rows, column):
    """Returns the points of a table's column, both axes in times of the first. A figure that is lost in noise has no point."""
    points = [(row[0], row[column + 1]) for row in rows if row[column + 1] > 0]
    return [(x / points[0][0], y / points[0][1]) for x, y in points]


def draw_panel(axes, title, lines):
    """Draws a panel."""
    axes.set(xscale="log", yscale="log", title=title, ylabel="times the first")
    colours = iter(STEEP_COLOURS)
    ends = []
    for name, points in lines:
        slope = round(slope_of(points), 2)
        colour = GREY if abs(slope) < FLAT else next(colours)
        axes.plot(*zip(*points), marker="o", color=colour, linewidth=1 if colour == GREY else 1.8, alpha=0.7 if colour == GREY else 1)
        ends.append((points[-1], f"{slope + 0.0:+.2f}  {name}".replace("-", "\N{MINUS SIGN}"), colour))
    figures = [y for _, points in lines for _, y in points]
    axes.set_ylim(min(*figures, 0.3) / 1.5, max(*figures, 3) * 1.5)
    if max(figures) < 10:
        axes.set_yticks([0.5, 1, 2, 5])
    axes.set_xlim(0.8, max(x for _, points in lines for x, _ in points) * 1.3)
    axes.xaxis.set_major_formatter(lambda number, _: short(number))
    axes.yaxis.set_major_formatter(lambda number, _: short(number))
    axes.minorticks_off()
    axes.text(1.03, 1.02, "slope", transform=axes.transAxes, fontsize=9.5, va="bottom", style="italic")
    name_lines(axes, ends, distance=0.155 / axes.get_position().height / axes.figure.get_figheight())


def draw(rows_of, target):
    """Draws the panels, from the rows of each table by its name."""
    plots = need_matplotlib()
    heights = [height for _, _, height in PANELS]
    figure, panels = plots.subplots(len(PANELS), figsize=(WIDTH, sum(heights) + 0.4), height_ratios=heights)
    figure.subplots_adjust(left=0.085, right=0.7, top=0.965, bottom=0.06, hspace=0.32)
    for axes, (title, wanted, _) in zip(panels, PANELS):
        draw_panel(axes, title, [(name, line_of(rows_of[table], column)) for table, column, name in wanted])
    panels[-1].set_xlabel("times as many as at first")
    save(figure, target)


def read_tables(text):
    """Returns the rows of each table by its name, from what bench/growth has printed before."""
    rows_of, rows = {}, None
    for line in text.splitlines():
        cells = [cell.strip() for cell in line.strip("| ").split("|")]
        if not line.startswith("|") or line.startswith("|---"):
            continue
        name, colon, _ = cells[0].partition(": ")
        if colon:
            rows = rows_of[name] = []
        elif rows is not None and cells[0].replace(",", "").isdigit():
            rows.append((int(cells[0].replace(",", "")), *(math.nan if cell == "-" else float(cell) for cell in cells[1:] if cell)))
    return rows_of
