"""A table of texts, as plain text, in Markdown, or as an SVG picture."""
from xml.sax.saxutils import escape

GAP, ACROSS, DOWN, MARGIN = 2, 6.8, 16, 16  # characters between columns; pixels of a character, a line and the margin


def widths(lines):
    return [max(map(len, column)) for column in zip(*lines)]


def as_text(title, lines):
    rows = ["".join(text.ljust(width + GAP) for text, width in zip(line, widths(lines))).rstrip() for line in lines]
    return "\n".join([title, *rows])


def as_markdown(title, lines):
    rows = [f"| {' | '.join(line)} |" for line in lines]
    return "\n".join([f"{title}:", "", rows[0], "| --- " * len(lines[0]) + "|", *rows[1:]])


def as_svg(title, lines):
    """Aligns columns as in plain text; the head and the last line are bold."""
    starts, at = [], MARGIN
    for width in widths(lines):
        starts.append(at)
        at += (width + GAP) * ACROSS
    width = round(max(at, len(title) * ACROSS + MARGIN) + MARGIN - GAP * ACROSS)
    height = 2 * MARGIN + DOWN * (len(lines) + 1)
    drawn = [
        f'<svg xmlns="http://www.w3.org/2000/svg" role="img" width="{width}" height="{height}"'
        f' viewBox="0 0 {width} {height}" font-family="monospace" font-size="11">',
        f"<title>{escape(title)}</title>",
        f'<rect width="{width}" height="{height}" fill="white"/>',
        f'<text font-weight="bold" x="{MARGIN}" y="{MARGIN + 8}">{escape(title)}</text>',
    ]
    for place, line in enumerate(lines):
        weight = ' font-weight="bold"' if place in (0, len(lines) - 1) else ""
        for start, text in zip(starts, line):
            y = MARGIN + 8 + DOWN * (place + 1) + (6 if place else 0)
            drawn.append(f'<text{weight} x="{start:.0f}" y="{y}">{escape(text)}</text>')
    line = MARGIN + 16 + DOWN
    drawn.append(f'<path d="M{MARGIN} {line} H{width - MARGIN}" stroke="black"/>')
    return "\n".join([*drawn, "</svg>"])
