"""Shapes for the pictures in docs/ and of `picture`: each function gives a piece of SVG as text."""

from html import escape

INK, FAINT, RULE, PAPER = "#222222", "#666666", "#cccccc", "#ffffff"
COLOURS = ["#1b6ca8", "#c4572b", "#5b8c3a", "#7a5aa6"]     # one for each gateway
PALE = ["#d6e6f3", "#f6ddd2", "#dfead6", "#e5dcf0"]
STRANGE, STRANGE_PALE = "#777777", "#e6e6e6"               # for whoever is no gateway


def text(x, y, words, size=13, anchor="start", colour=INK, weight="normal", mono=False, down=False):
    """Words at a place; `down`, they run from top to bottom."""
    family = ' font-family="monospace"' if mono else ""
    family += f' transform="rotate(90 {x:.1f} {y:.1f})"' if down else ""
    return (f'<text x="{x:.1f}" y="{y:.1f}" font-size="{size}" text-anchor="{anchor}" fill="{colour}" '
            f'font-weight="{weight}"{family}>{escape(words)}</text>')


def box(x, y, width, height, fill=PAPER, stroke=INK, round_by=3, thick=1.0):
    return (f'<rect x="{x:.1f}" y="{y:.1f}" width="{width:.1f}" height="{height:.1f}" rx="{round_by}" fill="{fill}" '
            f'stroke="{stroke}" stroke-width="{thick}"/>')


def bar(x, y, width, height, fill):
    return f'<rect x="{x:.1f}" y="{y:.1f}" width="{width:.1f}" height="{height:.1f}" fill="{fill}"/>'


def line(x1, y1, x2, y2, colour=INK, thick=1.2, dashed=False):
    dash = ' stroke-dasharray="4 3"' if dashed else ""
    return (f'<line x1="{x1:.1f}" y1="{y1:.1f}" x2="{x2:.1f}" y2="{y2:.1f}" stroke="{colour}" '
            f'stroke-width="{thick}"{dash}/>')


def arrow(x1, y1, x2, y2, colour=INK):
    """A line with a head at its end; it goes across or down."""
    if abs(x2 - x1) > abs(y2 - y1):
        step = 7 if x2 > x1 else -7
        head = f"{x2:.1f},{y2:.1f} {x2 - step:.1f},{y2 - 4:.1f} {x2 - step:.1f},{y2 + 4:.1f}"
        end = (x2 - step, y2)
    else:
        step = 7 if y2 > y1 else -7
        head = f"{x2:.1f},{y2:.1f} {x2 - 4:.1f},{y2 - step:.1f} {x2 + 4:.1f},{y2 - step:.1f}"
        end = (x2, y2 - step)
    return line(x1, y1, *end, colour) + f'<polygon points="{head}" fill="{colour}"/>'


def picture(width, height, title, pieces):
    """A whole file; `title` is what a screen reader says."""
    head = (f'<svg xmlns="http://www.w3.org/2000/svg" viewBox="0 0 {width:.0f} {height:.0f}" width="{width:.0f}" '
            f'height="{height:.0f}" font-family="DejaVu Sans, Helvetica, Arial, sans-serif" role="img">')
    return "\n".join([head, f"<title>{escape(title)}</title>", bar(0, 0, width, height, PAPER), *pieces, "</svg>", ""])
