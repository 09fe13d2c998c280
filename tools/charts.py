"""Curves in a terminal, by block characters, and as SVG."""

from __future__ import annotations

from collections.abc import Callable, Mapping, Sequence
from html import escape

BLOCKS = " ▁▂▃▄▅▆▇█"
COLOURS = ("#7f7f7f", "#d95f02", "#1b6fb5", "#1a9850", "#7b3294", "#000000")
DASHES = ("", "", "7 3", "", "2 2", "9 3 2 3")
# So many points of each curve are drawn.
POINTS = 800


def bar(count: int, most: int, columns: int) -> str:
    """Returns a bar of at most so many columns, in eighths of a column. Only a count of 0 has none."""
    eighths = max(count * columns * 8 // most, 1) if count else 0
    return "█" * (eighths // 8) + " ▏▎▍▌▋▊▉"[eighths % 8].strip()


def sampled(counts: Sequence[int], parts: int) -> list[int]:
    """Returns a curve in so many parts: the most of each, or each count several times where there are fewer."""
    size = len(counts)
    ends = [((part * size) // parts, max((part + 1) * size // parts, part * size // parts + 1)) for part in range(parts)]
    return [max(counts[begin:end]) for begin, end in ends]


def curve(counts: Sequence[int], most: int, columns: int, rows: int) -> list[str]:
    """Returns a curve as lines of blocks, under a scale that ends at `most`."""
    digits = len(str(most))
    heights = [-(-count * rows * 8 // max(most, 1)) for count in sampled(counts, columns)]
    lines = []
    for row in range(rows - 1, -1, -1):
        label = str(most) if row == rows - 1 else "0" if row == 0 else ""
        blocks = "".join(BLOCKS[min(max(height - row * 8, 0), 8)] for height in heights)
        lines.append(f"  {label:>{digits}} │{blocks}".rstrip())
    return lines


def ticks(most: int) -> list[int]:
    """Returns round numbers from 0 to the first that is not below `most`, five or six of them where that can be."""
    step = 1
    while step * 5 < most:
        step = step * 2 if str(step)[0] in "15" else step // 2 * 5
    return list(range(0, most + step, step))


def text(x: float, y: float, said: str, anchor: str = "start", more: str = "") -> str:
    """Returns a text of a picture."""
    return f'<text x="{x:.1f}" y="{y:.1f}" text-anchor="{anchor}"{more}>{escape(said)}</text>'


def legend(names: Sequence[str], left: float, width: float) -> list[str]:
    """Returns the curves' names in rows of three, each with its line."""
    parts = []
    for number, name in enumerate(names):
        x, y = left + number % 3 * width / 3, 44 + number // 3 * 20
        parts.append(f'<path d="M{x:.1f} {y - 4}h26" {line_style(number)}/>' + text(x + 32, y, name))
    return parts


def line_style(number: int) -> str:
    """Returns how the line of a curve is drawn."""
    dash = f' stroke-dasharray="{DASHES[number]}"' if DASHES[number] else ""
    return f'fill="none" stroke="{COLOURS[number]}" stroke-width="2"{dash}'


def steps(counts: Sequence[int], size: int, at: Callable[[float, float], str]) -> str:
    """Returns a curve as the steps of a path."""
    parts = min(size, POINTS)
    corners = (at((index + 1) * size / parts, count).split() for index, count in enumerate(sampled(counts, parts)))
    return "".join(f"V{y}H{x}" for x, y in corners)


def svg(curves: Mapping[str, Sequence[int]], title: str, across: str, up: str) -> str:
    """Returns a picture of curves that are equally long, with a legend, scales and grid lines."""
    width, height, left, top, bottom = 860, 440, 80, 60 + 20 * ((len(curves) + 2) // 3), 50
    size = max(map(len, curves.values()))
    rows, columns = ticks(max(map(max, curves.values()))), [tick for tick in ticks(size) if tick <= size]
    x_scale, y_scale = (width - left - 30) / size, (height - top - bottom) / max(rows[-1], 1)

    def at(x: float, y: float) -> str:
        """Returns where a point of a curve is in the picture."""
        return f"{left + x * x_scale:.1f} {height - bottom - y * y_scale:.1f}"

    parts = [f'<svg xmlns="http://www.w3.org/2000/svg" viewBox="0 0 {width} {height}" font-family="sans-serif" font-size="13">']
    parts += ['<rect width="100%" height="100%" fill="white"/>', text(width / 2, 20, title, "middle", ' font-size="15"')]
    parts += legend(list(curves), left, width - left - 30)
    for row in rows:
        parts.append(f'<path d="M{at(0, row)}H{width - 30}" stroke="#e5e5e5"/>')
        parts.append(text(left - 8, height - bottom - row * y_scale + 4, f"{row:,}", "end"))
    for column in columns:
        parts.append(text(left + column * x_scale, height - bottom + 18, f"{column:,}", "middle"))
    parts.append(text(left + (width - left - 30) / 2, height - 10, across, "middle"))
    parts.append(text(0, 0, up, "middle", f' transform="translate(14 {(top + height - bottom) / 2:.1f}) rotate(-90)"'))
    for number, counts in enumerate(curves.values()):
        parts.append(f'<path d="M{at(0, 0)}{steps(counts, size, at)}" {line_style(number)}/>')
    parts.append(f'<path d="M{at(0, rows[-1])}V{height - bottom}H{width - 30}" fill="none" stroke="black"/>')
    return "\n".join([*parts, "</svg>"]) + "\n"
