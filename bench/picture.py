"""picture PAGE: the table "How cost grows with the count" of docs/COST.md as a picture, in SVG, on standard output: four
kinds of request, counts from left to right, instructions upwards, both by powers."""
import math
import re
import sys

PANELS = (("read registers", r"read (\d+) registers"), ("write registers", r"write (\d+) registers"),
          ("read coils", r"read (\d+) coils"), ("write coils", r"write (\d+) coils"))
COLOURS = ("#0b6e4f", "#c1440e", "#e8a33d", "#3c5a99", "#8a8f98")
WIDE, HIGH, LEFT, TOP, GAP = 360, 240, 60, 70, 70
LEAST, MOST = 100, 40000  # instructions


def rows_of(page):
    """The names of the columns, and for each request its figures."""
    part = page.partition("## How cost grows with the count")[2].partition("\n## ")[0]
    lines = [[cell.strip() for cell in line.strip("|").split("|")] for line in part.splitlines() if line.startswith("|")]
    return lines[0][2:], [(line[1], line[2:]) for line in lines[2:]]


def series(rows, pattern, column):
    """Counts and figures of one server for one kind of request; a server without such a call has none."""
    found = ((re.match(pattern, request), figures) for request, figures in rows)
    return [(int(match[1]), float(figures[column])) for match, figures in found if match and figures[column] != "-"]


def panel(name, pattern, columns, rows, at_x, at_y):
    most = max(count for count, _ in series(rows, pattern, 0))
    def x(count):
        return at_x + WIDE * math.log(count) / math.log(most)

    def y(figure):
        return at_y + HIGH * (1 - math.log(figure / LEAST) / math.log(MOST / LEAST))
    yield f'<text x="{at_x}" y="{at_y - 10}" font-weight="bold">{name}</text>'
    for figure in (100, 300, 1000, 3000, 10000, 30000):
        yield f'<path d="M{at_x} {y(figure):.1f}h{WIDE}" stroke="#ddd"/>'
        yield f'<text x="{at_x - 6}" y="{y(figure) + 4:.1f}" text-anchor="end">{figure:,}</text>'
    ticks = [count for count in (1, 4, 16, 64, 250, 1000) if count < 0.7 * most] + [most]
    for count in ticks:
        yield f'<path d="M{x(count):.1f} {at_y}v{HIGH}" stroke="#eee"/>'
        yield f'<text x="{x(count):.1f}" y="{at_y + HIGH + 16}" text-anchor="middle">{count:,}</text>'
    for n in reversed(range(len(columns))):
        points = [(x(count), y(figure)) for count, figure in series(rows, pattern, n)]
        line = " ".join(f"{a:.1f},{b:.1f}" for a, b in points)
        yield f'<polyline points="{line}" fill="none" stroke="{COLOURS[n]}" stroke-width="{3 if n == 0 else 1.6}"/>'
        for a, b in points:
            yield f'<circle cx="{a:.1f}" cy="{b:.1f}" r="{3 if n == 0 else 2}" fill="{COLOURS[n]}"/>'


def main():
    with open(sys.argv[1], encoding="utf-8") as file:
        columns, rows = rows_of(file.read())
    wide, high = 2 * (LEFT + WIDE) + GAP, 2 * (TOP + HIGH) + 60
    print(f'<svg xmlns="http://www.w3.org/2000/svg" viewBox="0 0 {wide} {high}" font-family="sans-serif" font-size="12">')
    print(f'<rect width="{wide}" height="{high}" fill="white"/>')
    print(f'<text x="{LEFT}" y="20" font-size="14">Instructions of a request on TCP over its count of cells, both by powers</text>')
    for n, name in enumerate(columns):
        print(f'<path d="M{LEFT + 150 * n} 38h24" stroke="{COLOURS[n]}" stroke-width="{3 if n == 0 else 1.6}"/>')
        print(f'<text x="{LEFT + 150 * n + 30}" y="42">{name}</text>')
    for n, (name, pattern) in enumerate(PANELS):
        for line in panel(name, pattern, columns, rows, LEFT + n % 2 * (WIDE + GAP + LEFT // 2), TOP + 10 + n // 2 * (HIGH + TOP)):
            print(line)
    print("</svg>")


if __name__ == "__main__":
    main()
