"""The figures as plots."""

import math

from trials.measuring.figures import SIXTEEN

# The size of a plot, and the space that is left free at its sides, above and below.
WIDE, HIGH, LEFT, RIGHT, TOP_SPACE, LOW = 720, 400, 60, 230, 40, 50
COLOURS = {"two trees": "#1f6fb2", "one tree": "#c8551b"}


def steps(greatest):
    """Round numbers from zero to the first that is at least this, some five of them."""
    step = 10 ** len(str(int(greatest))) / 10
    step = next(step * part for part in (0.2, 0.5, 1, 2) if greatest <= step * part * 5)
    return [step * number for number in range(1 + -int(-greatest // step))]


def tenfolds(greatest):
    """The powers of ten from one to the first that is at least this."""
    return [10**number for number in range(1 + max(1, math.ceil(math.log10(greatest))))]


class Plot:
    """Lines of figures over round trips, as a picture."""

    def __init__(self, title, unit, is_logarithmic, lines):
        """`lines` are the plot's lines by name: each the points, as a round trip in milliseconds and a figure."""
        self.title, self.unit, self.is_logarithmic, self.lines = title, unit, is_logarithmic, lines
        points = [point for line in lines.values() for point in line]
        self.across = steps(max(x for x, _ in points))
        self.up = (tenfolds if is_logarithmic else steps)(max(y for _, y in points))

    def x(self, value):
        return LEFT + (WIDE - LEFT - RIGHT) * value / self.across[-1]

    def y(self, value):
        part = math.log10(max(1, value)) / math.log10(self.up[-1]) if self.is_logarithmic else value / self.up[-1]
        return HIGH - LOW - (HIGH - LOW - TOP_SPACE) * part

    def axes(self):
        for value in self.up:
            yield f'<path d="M{LEFT} {self.y(value):.1f}H{WIDE - RIGHT}" stroke="#ccc"/>'
            yield f'<text x="{LEFT - 8}" y="{self.y(value) + 4:.1f}" text-anchor="end">{value:g}</text>'
        for value in self.across:
            yield f'<text x="{self.x(value):.1f}" y="{HIGH - LOW + 20}" text-anchor="middle">{value:g}</text>'
        yield f'<text x="{LEFT}" y="20" font-weight="bold">{self.title}</text>'
        yield f'<text x="{(LEFT + WIDE - RIGHT) / 2:.0f}" y="{HIGH - 8}" text-anchor="middle">round trip in ms</text>'
        middle = f"{(HIGH - LOW + TOP_SPACE) / 2:.0f}"
        yield f'<text x="16" y="{middle}" text-anchor="middle" transform="rotate(-90 16 {middle})">{self.unit}</text>'

    def drawn(self, name, points, at):
        """A line with its points, and its name at this height."""
        colour = next((colour for shape, colour in COLOURS.items() if name.startswith(shape)), "#555")
        dashes = ' stroke-dasharray="6 4"' if name.endswith("before") else ""
        path = "L".join(f"{self.x(x):.1f} {self.y(y):.1f}" for x, y in points)
        yield f'<path d="M{path}" fill="none" stroke="{colour}" stroke-width="2"{dashes}/>'
        for x, y in points:
            yield f'<circle cx="{self.x(x):.1f}" cy="{self.y(y):.1f}" r="3" fill="{colour}"/>'
        end = self.x(points[-1][0])
        yield f'<path d="M{end:.1f} {self.y(points[-1][1]):.1f}L{end + 14:.1f} {at:.1f}" stroke="{colour}"/>'
        yield f'<text x="{end + 18:.1f}" y="{at + 4:.1f}" fill="{colour}">{name}</text>'

    def write(self, path):
        parts, free = list(self.axes()), HIGH - LOW
        for name, points in sorted(self.lines.items(), key=lambda line: line[1][-1][1]):
            at = min(self.y(points[-1][1]), free)
            parts += self.drawn(name, points, at)
            free = at - 16
        head = f'<svg xmlns="http://www.w3.org/2000/svg" viewBox="0 0 {WIDE} {HIGH}" font-family="sans-serif" font-size="13">'
        path.write_text("\n".join([head, f'<rect width="{WIDE}" height="{HIGH}" fill="#fff"/>', *parts, "</svg>\n"]))


def plot_all(folder, size, rate, shapes):
    """Writes the plots of all shapes' rows to a folder."""
    under = f"a disk of {size}, {rate:g} Mbit/s each way"
    for name, title, unit, is_logarithmic, figure in (
        ("latency", f"4 KiB, one request after the other: {under}", "ms a request", False, lambda figures: figures.alone * 1000),
        ("throughput", f"4 KiB, {SIXTEEN} requests in flight: {under}", "requests a second", True, lambda figures: figures.sixteen),
    ):
        lines = {}
        for shape, rows in shapes.items():
            for way, figures in rows:
                for program, one in figures.items():
                    lines.setdefault(f"{shape}, {program}" if program else shape, []).append((way.delay * 1000, figure(one)))
        Plot(title, unit, is_logarithmic, lines).write(folder / f"{name}.svg")
