"""The plot of docs/BENCH.md, as SVG."""
import math

INK, PAPER, LINE = "#222222", "#ffffff", "#dddddd"
COLOURS = ("#0072b2", "#009e73", "#d55e00", "#cc79a7")
LEFT, RIGHT, TOP, BOTTOM = 70, 560, 30, 360


def growth_plot(rows, sizes, widths):
    """Microseconds a map by number of nodes, both axes by powers: a line for each width, fresh maps solid and kept ones dashed."""
    values = [1e6 * r[kind] for r in rows for kind in ("fresh", "kept")]
    low, high = 10 ** math.floor(math.log10(min(values))), 10 ** math.ceil(math.log10(max(values)))

    def across(nodes):
        return LEFT + (RIGHT - LEFT) * math.log(nodes / sizes[0]) / math.log(sizes[-1] / sizes[0])

    def down(micros):
        return BOTTOM - (BOTTOM - TOP) * math.log(micros / low) / math.log(high / low)

    out = ['<svg xmlns="http://www.w3.org/2000/svg" viewBox="0 0 700 420" font-family="sans-serif" font-size="13" fill="%s">' % INK,
           '<rect width="700" height="420" fill="%s"/>' % PAPER]
    for size in sizes:
        out.append('<line x1="%.1f" y1="%d" x2="%.1f" y2="%d" stroke="%s"/>' % (across(size), TOP, across(size), BOTTOM, LINE))
        out.append('<text x="%.1f" y="%d" text-anchor="middle">%d</text>' % (across(size), BOTTOM + 20, size))
    mark = low
    while mark <= high * 1.001:
        out.append('<line x1="%d" y1="%.1f" x2="%d" y2="%.1f" stroke="%s"/>' % (LEFT, down(mark), RIGHT, down(mark), LINE))
        out.append('<text x="%d" y="%.1f" text-anchor="end">%g</text>' % (LEFT - 8, down(mark) + 4, mark))
        mark *= 10
    out.append('<text x="%d" y="%d" text-anchor="middle">nodes</text>' % ((LEFT + RIGHT) // 2, BOTTOM + 45))
    out.append('<text x="20" y="%d" text-anchor="middle" transform="rotate(-90 20 %d)">microseconds a map</text>' % ((TOP + BOTTOM) // 2, (TOP + BOTTOM) // 2))
    for place, width in enumerate(widths):
        for kind, dashes in (("fresh", ""), ("kept", ' stroke-dasharray="6 4"')):
            points = [(across(r["nodes"]), down(1e6 * r[kind])) for r in rows if r["width"] == width]
            path = " ".join("%.1f,%.1f" % point for point in points)
            out.append('<polyline points="%s" fill="none" stroke="%s" stroke-width="2"%s/>' % (path, COLOURS[place], dashes))
            out += ['<circle cx="%.1f" cy="%.1f" r="3" fill="%s"/>' % (x, y, COLOURS[place]) for x, y in points]
        y = TOP + 20 + 22 * place
        out.append('<line x1="585" y1="%d" x2="610" y2="%d" stroke="%s" stroke-width="2"/>' % (y - 4, y - 4, COLOURS[place]))
        out.append('<text x="618" y="%d">K = %d</text>' % (y, width))
    y = TOP + 20 + 22 * (len(widths) + 1)
    out.append('<line x1="585" y1="%d" x2="610" y2="%d" stroke="%s" stroke-width="2"/><text x="618" y="%d">fresh</text>' % (y - 4, y - 4, INK, y))
    out.append('<line x1="585" y1="%d" x2="610" y2="%d" stroke="%s" stroke-width="2" stroke-dasharray="6 4"/><text x="618" y="%d">kept</text>' % (y + 18, y + 18, INK, y + 22))
    return "\n".join(out) + "\n</svg>\n"
