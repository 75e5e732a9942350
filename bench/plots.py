"""Plots of growth, as SVG."""
from xml.sax.saxutils import escape

WIDTH, HEIGHT = 640, 360
LEFT, RIGHT, TOP, BOTTOM = 60, 180, 40, 50
COLOURS = ["#1b6ca8", "#c0392b", "#2e8b57", "#8e44ad", "#d68910", "#555555"]


def step_of(most):
    """A round step by which an axis up to this number has 4 to 10 marks."""
    step = 10.0 ** -6
    while True:
        for part in (1, 2, 5):
            if most / (step * part) <= 8:
                return step * part
        step *= 10


def plot(path, title, across, up, lines):
    """Writes a plot. Lines are pairs of a name and points; both axes begin at 0."""
    x_most = max(x for _, points in lines for x, _ in points) or 1
    y_most = (max(y for _, points in lines for _, y in points) or 1) * 1.05
    wide, high = WIDTH - LEFT - RIGHT, HEIGHT - TOP - BOTTOM

    def at(x, y):
        return LEFT + wide * x / x_most, TOP + high * (1 - y / y_most)

    text = [f'<svg xmlns="http://www.w3.org/2000/svg" viewBox="0 0 {WIDTH} {HEIGHT}" font-family="sans-serif">']
    text.append(f'<rect width="{WIDTH}" height="{HEIGHT}" fill="white"/>')
    text.append(f'<text x="{LEFT}" y="22" font-size="15">{escape(title)}</text>')
    for most, is_up in ((x_most, False), (y_most, True)):
        step, mark = step_of(most), 0.0
        while mark <= most * 1.0001:
            x, y = at(0, mark) if is_up else at(mark, 0)
            name = f"{mark:,.0f}" if step >= 1 else f"{mark:.{max(0, len(f'{step:.6f}'.rstrip('0')) - 2)}f}"
            if is_up:
                text.append(f'<path d="M{x:.1f} {y:.1f}h{wide}" stroke="#dddddd"/>')
                text.append(f'<text x="{x - 6:.1f}" y="{y + 4:.1f}" font-size="11" text-anchor="end">{name}</text>')
            else:
                text.append(f'<text x="{x:.1f}" y="{y + 16:.1f}" font-size="11" text-anchor="middle">{name}</text>')
            mark += step
    text.append(f'<path d="M{LEFT} {TOP}v{high}h{wide}" fill="none" stroke="black"/>')
    middle = f'x="{LEFT + wide / 2}" y="{HEIGHT - 12}" font-size="12" text-anchor="middle"'
    text.append(f"<text {middle}>{escape(across)}</text>")
    text.append(f'<text x="{LEFT}" y="{TOP - 4}" font-size="12" text-anchor="middle">{escape(up)}</text>')
    for number, (name, points) in enumerate(lines):
        colour = COLOURS[number % len(COLOURS)]
        line = " ".join("%.1f,%.1f" % at(x, y) for x, y in points)
        text.append(f'<polyline points="{line}" fill="none" stroke="{colour}" stroke-width="1.5"/>')
        y = TOP + 14 + 18 * number
        text.append(f'<path d="M{WIDTH - RIGHT + 12} {y - 4}h18" stroke="{colour}" stroke-width="2"/>')
        text.append(f'<text x="{WIDTH - RIGHT + 36}" y="{y}" font-size="12">{escape(name)}</text>')
    text.append("</svg>")
    with open(path, "w", encoding="utf-8") as file:
        file.write("\n".join(text) + "\n")


def buckets(ends, count):
    """From the seconds at which each of so many things ended: points of how many there were, and the milliseconds of
    each since the point before."""
    size = max(1, len(ends) // count)
    points = []
    for last in range(size, len(ends), size):
        points.append((last, 1000 * (ends[last] - ends[last - size]) / size))
    return points
