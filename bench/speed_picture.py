"""Draws the picture of README: seconds over size, for both programs."""
import math

TOOLS = ("yangcheck", "yanglint")

WIDTH, HEIGHT = 330, 190
LEFT, TOP_MARGIN, RIGHT, BOTTOM = 46, 34, 20, 34
COLOURS = {"yangcheck": "#1a7f37", "yanglint": "#bc4c00"}
STYLE = "text{font:12px sans-serif;fill:#57606a}.name{font-weight:bold;fill:#24292f}.axis{stroke:#8c959f}.grid{stroke:#d8dee4}"


def step_of(most):
    """A round distance between the marks of an axis up to this number, of which there are at most five."""
    power = 10 ** math.floor(math.log10(most))
    return next(step for step in (power / 5, power / 2, power, 2 * power) if most / step <= 5)


def plain(number):
    return f"{number:,.0f}" if number == int(number) else f"{number:g}"


def measured_points(kind, tool):
    """The sizes at which a program was measured, with its seconds."""
    return [(point["size"], point[tool]) for point in kind["points"] if isinstance(point[tool], (int, float))]


class Panel:
    """One diagram: seconds over size for both programs."""

    def __init__(self, kind, left, top):
        self.kind, self.left, self.top = kind, left, top
        points = kind["points"]
        self.most_size = points[-1]["size"]
        self.most_seconds = 1.08 * max(seconds for tool in TOOLS for _, seconds in measured_points(kind, tool))

    def place(self, size, seconds):
        across = self.left + LEFT + (WIDTH - LEFT - RIGHT) * size / self.most_size
        down = self.top + HEIGHT - BOTTOM - (HEIGHT - TOP_MARGIN - BOTTOM) * seconds / self.most_seconds
        return f"{across:.1f}", f"{down:.1f}"

    def text(self, place, words, anchor="middle", style=""):
        return f'<text x="{place[0]}" y="{place[1]}" text-anchor="{anchor}"{style}>{words}</text>'

    def line(self, start, end, style):
        return f'<line x1="{start[0]}" y1="{start[1]}" x2="{end[0]}" y2="{end[1]}" class="{style}"/>'

    def axes(self):
        yield self.text((self.left + LEFT, self.top + 18), f"{self.kind['name']}", "start", ' class="name"')
        step, at = step_of(self.most_seconds), 0
        while at <= self.most_seconds:
            start, end = self.place(0, at), self.place(self.most_size, at)
            yield self.line(start, end, "grid" if at else "axis")
            yield self.text((f"{float(start[0]) - 6:.1f}", f"{float(start[1]) + 4:.1f}"), f"{plain(at)} s", "end")
            at = round(at + step, 9)
        step, at = step_of(self.most_size), 0
        while at <= self.most_size:
            across, down = self.place(at, 0)
            yield self.text((across, f"{float(down) + 18:.1f}"), plain(at))
            at += step

    def curve(self, tool):
        places = [self.place(*point) for point in measured_points(self.kind, tool)]
        joined = " ".join(",".join(place) for place in [self.place(0, 0), *places])
        yield f'<polyline points="{joined}" fill="none" stroke="{COLOURS[tool]}" stroke-width="2"/>'
        for across, down in places:
            yield f'<circle cx="{across}" cy="{down}" r="2.5" fill="{COLOURS[tool]}"/>'

    def drawn(self):
        yield from self.axes()
        for tool in reversed(TOOLS):
            yield from self.curve(tool)


def legend(figures, top):
    at = LEFT
    for tool in TOOLS:
        yield f'<rect x="{at}" y="{top - 9}" width="18" height="4" fill="{COLOURS[tool]}"/>'
        words = f"{tool} {figures['measured']['growth'][tool]}"
        yield f'<text x="{at + 24}" y="{top - 3}">{words}</text>'
        at += 150
    yield f'<text x="{at}" y="{top - 3}">processor seconds by size of the input</text>'


def picture(figures):
    kinds = [kind for kind in figures["kinds"] if kind["drawn"]]
    rows = (len(kinds) + 1) // 2
    width, height = 2 * WIDTH, rows * HEIGHT + 24
    parts = [f'<svg xmlns="http://www.w3.org/2000/svg" viewBox="0 0 {width} {height}" width="{width}" height="{height}">',
             "<title>Processor seconds of yangcheck and yanglint by size of the input</title>",
             f"<style>{STYLE}</style>", f'<rect width="{width}" height="{height}" fill="#ffffff"/>']
    for number, kind in enumerate(kinds):
        parts += Panel(kind, number % 2 * WIDTH, number // 2 * HEIGHT).drawn()
    parts += legend(figures, height - 4)
    return "\n".join([*parts, "</svg>", ""])
