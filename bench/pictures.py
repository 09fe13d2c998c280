"""How the pictures of docs/ are drawn: by matplotlib, as SVG, to be read at the width of a page, also without telling all colours apart."""

import os
import re
import sys

from tools import COMMAND

# Where Debian's python3-matplotlib is found, also if another python3 is first on the PATH.
SYSTEM = "/usr/bin/python3"
MISSING = (
    "matplotlib is missing; on Debian and Ubuntu it comes with `apt-get install python3-matplotlib`, "
    "elsewhere with `python3 -m pip install matplotlib`"
)

# Colours of Okabe and Ito, which are told apart with the common kinds of colour blindness. Each line has its name next to it, too.
GREY, RED, BLUE, GREEN, PURPLE, ORANGE = "#6b6b6b", "#d55e00", "#0072b2", "#009e73", "#aa4499", "#b8860b"
COLOURS = (GREY, RED, BLUE, GREEN, PURPLE, ORANGE)
# A page is about so wide, in inches of 72 points.
WIDTH = 8.6
STYLE = {
    "font.family": "sans-serif",
    "font.sans-serif": ["DejaVu Sans"],
    "font.size": 10,
    "axes.titlesize": 10.5,
    "axes.titleweight": "bold",
    "axes.titlelocation": "left",
    "axes.spines.top": False,
    "axes.spines.right": False,
    "axes.grid": True,
    "axes.grid.axis": "y",
    "axes.axisbelow": True,
    "grid.color": "#e5e5e5",
    "lines.linewidth": 1.8,
    "lines.markersize": 3.5,
    "svg.fonttype": "none",
    "svg.hashsalt": "hybridgc",
}


def need_matplotlib():
    """Returns matplotlib's pyplot. If this python3 has no matplotlib, the command begins anew with the system's; else it ends."""
    try:
        import matplotlib
    except ImportError:
        if os.path.realpath(sys.executable) != os.path.realpath(SYSTEM) and os.access(SYSTEM, os.X_OK):
            sys.stdout.flush()
            os.execv(SYSTEM, [SYSTEM, *sys.argv])
        sys.exit(f"{COMMAND}: {MISSING}")
    matplotlib.use("svg")
    matplotlib.rcParams.update(STYLE)
    import matplotlib.pyplot

    return matplotlib.pyplot


def spread(places, distance):
    """Returns places in the same order, as near to the given ones as may be, and at least so far from each other."""
    order = sorted(range(len(places)), key=lambda i: places[i])
    groups = []  # of neighbours that touch: the sum of where each would have the group begin, and how many they are
    for i in order:
        groups.append([places[i], 1])
        while len(groups) > 1 and groups[-2][0] / groups[-2][1] + groups[-2][1] * distance > groups[-1][0] / groups[-1][1]:
            total, count = groups.pop()
            groups[-1][0] += total - count * groups[-1][1] * distance
            groups[-1][1] += count
    found = [total / count + k * distance for total, count in groups for k in range(count)]
    return [place for _, place in sorted(zip(order, found))]


def name_lines(axes, lines, distance=0.075):
    """Writes the name of each line at the right of a panel, and connects the two. A line is its last point, its name and its colour."""
    to_panel = axes.transData + axes.transAxes.inverted()
    ends = [to_panel.transform(end) for end, _, _ in lines]
    heights = spread([height for _, height in ends], distance)
    for (x, y), height, (_, name, colour) in zip(ends, heights, lines):
        axes.plot([x, 1.02], [y, height], transform=axes.transAxes, color=colour, linewidth=0.6, linestyle=(0, (1, 2)), clip_on=False)
        axes.text(1.03, height, name, transform=axes.transAxes, color=colour, verticalalignment="center", fontsize=9.5)


def short(number):
    """Returns a number as the label of an axis: 62.5k, 1M."""
    for size, letter in ((10**6, "M"), (1000, "k")):
        if number >= size:
            return f"{number / size:.3g}{letter}"
    return f"{number:g}"


def save(figure, target):
    """Writes a picture, the same for the same lines, and with no more digits than a screen shows."""
    figure.savefig(target, metadata={"Date": None, "Creator": None})
    with open(target) as file:
        text = file.read()
    text = re.sub(r"\d+\.\d{3,}", lambda number: f"{float(number[0]):.2f}".rstrip("0").rstrip("."), text)
    text = re.sub(r"\s*\n\s*", "\n", re.sub(r"<!--.*?-->|<metadata>.*?</metadata>", "", text, flags=re.DOTALL))
    with open(target, "w") as file:
        file.write(text)
    print(f"{COMMAND}: {os.path.relpath(target)}, {os.path.getsize(target)} bytes")
