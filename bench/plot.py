"""Draws the plot of docs/LETTERS.md: letters for each section, by powers of two, against the number of
nodes, as static SVG.
"""
from math import log2

WIDTH, HEIGHT = 720, 460
LEFT, RIGHT, TOP, BOTTOM = 64, 150, 46, 56  # margins
COLOURS = {"ricart": "#0072B2", "maekawa": "#D55E00", "raymond": "#009E73"}  # of Okabe and Ito
DASHES = {"alone": "", "together": "8 4", "faults": "2 4"}
MARKS = {"ricart": "circle", "maekawa": "square", "raymond": "triangle"}


def plot(table, algorithms, sizes, courses):
    """The plot of a table: by algorithm and number of nodes, the letters for each section of each course."""
    most = max(share for shares in table.values() for share in shares.values())
    octaves = int(log2(most)) + 1

    def at(size, share):
        x = LEFT + (WIDTH - LEFT - RIGHT) * size / max(sizes)
        y = HEIGHT - BOTTOM - (HEIGHT - TOP - BOTTOM) * (log2(share) - 1) / (octaves - 1)
        return round(x, 1), round(y, 1)

    parts = [head(), *axes(sizes, octaves, at)]
    for algorithm in algorithms:
        for course in courses:
            parts += line(algorithm, course, [at(size, table[algorithm, size][course]) for size in sizes])
        x, y = at(max(sizes), table[algorithm, max(sizes)][courses[-1]])
        parts.append(text(x + 12, y + 4, algorithm, fill=COLOURS[algorithm]))
    parts += legend(courses)
    return "\n".join(parts) + "\n</svg>\n"


def head():
    return (
        f'<svg xmlns="http://www.w3.org/2000/svg" viewBox="0 0 {WIDTH} {HEIGHT}" width="{WIDTH}" height="{HEIGHT}" '
        'font-family="sans-serif" font-size="13">\n'
        f'<rect width="{WIDTH}" height="{HEIGHT}" fill="#ffffff"/>\n'
        + text(LEFT, 24, "Letters between nodes for each section entered, by powers of two", size=15)
    )


def text(x, y, words, fill="#000000", anchor="start", size=13):
    return f'<text x="{x}" y="{y}" fill="{fill}" text-anchor="{anchor}" font-size="{size}">{words}</text>'


def rule(from_, to, colour, width=1, dash=""):
    dashes = f' stroke-dasharray="{dash}"' if dash else ""
    return (
        f'<line x1="{from_[0]}" y1="{from_[1]}" x2="{to[0]}" y2="{to[1]}" stroke="{colour}" '
        f'stroke-width="{width}"{dashes}/>'
    )


def axes(sizes, octaves, at):
    parts = []
    for share in (2 ** octave for octave in range(1, octaves + 1)):
        x, y = at(0, share)
        parts.append(rule((x, y), (WIDTH - RIGHT, y), "#cccccc"))
        parts.append(text(x - 8, y + 4, share, anchor="end"))
    for size in sizes:
        x, y = at(size, 2)
        parts.append(rule((x, y), (x, y + 5), "#000000"))
        parts.append(text(x, y + 20, size, anchor="middle"))
    left, right = at(0, 2), at(max(sizes), 2)
    parts.append(rule(left, right, "#000000"))
    parts.append(text((left[0] + right[0]) / 2, HEIGHT - 12, "nodes", anchor="middle"))
    return parts


def line(algorithm, course, points):
    colour, dash = COLOURS[algorithm], DASHES[course]
    dashes = f' stroke-dasharray="{dash}"' if dash else ""
    along = " ".join(f"{x},{y}" for x, y in points)
    parts = [f'<polyline points="{along}" fill="none" stroke="{colour}" stroke-width="2"{dashes}/>']
    return parts + [mark(MARKS[algorithm], x, y, colour) for x, y in points]


def mark(kind, x, y, colour):
    if kind == "circle":
        return f'<circle cx="{x}" cy="{y}" r="4" fill="{colour}"/>'
    if kind == "square":
        return f'<rect x="{x - 4:.1f}" y="{y - 4:.1f}" width="8" height="8" fill="{colour}"/>'
    return f'<polygon points="{x},{y - 5:.1f} {x - 5:.1f},{y + 4:.1f} {x + 5:.1f},{y + 4:.1f}" fill="{colour}"/>'


def legend(courses):
    names = {"alone": "alone", "together": "together", "faults": "with faults"}
    parts = []
    for place, course in enumerate(courses):
        y = TOP + 20 + 22 * place
        parts.append(rule((LEFT + 14, y), (LEFT + 54, y), "#000000", 2, DASHES[course]))
        parts.append(text(LEFT + 62, y + 4, names[course]))
    return parts
