"""Plots as SVG, written by hand."""

import math
from html import escape

WIDTH, HEIGHT = 640, 360
LEFT, RIGHT, TOP, BOTTOM = 70, 20, 40, 50
COLOURS = ("#1b6ca8", "#c8553d", "#4f772d")


def nice_step(span, parts):
    """A step of 1, 2 or 5 times a power of ten that makes at most `parts` parts."""
    if span <= 0:
        return 1
    rough = span / parts
    power = 10 ** math.floor(math.log10(rough))
    for factor in (1, 2, 5, 10):
        if factor * power >= rough:
            return factor * power
    return 10 * power


def number_text(value):
    if value >= 1000:
        return "{:,.0f}".format(value)
    return "%g" % round(value, 6)


class Axis:
    """From values to places between two ends of the drawing."""

    def __init__(self, values, start, end, logarithmic):
        self.start, self.end, self.logarithmic = start, end, logarithmic
        if logarithmic:
            self.low, self.high = min(values), max(values)
            self.ticks = sorted(set(values))
        else:
            step = nice_step(max(values), 6)
            self.low = 0
            self.high = step * math.ceil(max(values) / step) or 1
            self.ticks = [step * i for i in range(int(round(self.high / step)) + 1)]

    def place(self, value):
        if self.logarithmic:
            part = math.log(value / self.low) / math.log(self.high / self.low)
        else:
            part = value / self.high
        return self.start + part * (self.end - self.start)


def line_plot(title, x_label, y_label, xs, lines, logarithmic_x=False):
    """An SVG of lines: `lines` is a list of (name, values), one value for each of `xs`."""
    x_axis = Axis(xs, LEFT, WIDTH - RIGHT, logarithmic_x)
    # Some room above the lines, for their names.
    y_axis = Axis([1.2 * max(0, value) for _, values in lines for value in values], HEIGHT - BOTTOM, TOP, False)
    out = ['<svg xmlns="http://www.w3.org/2000/svg" width="%d" height="%d" viewBox="0 0 %d %d" '
           'font-family="sans-serif" font-size="12">' % (WIDTH, HEIGHT, WIDTH, HEIGHT),
           '<rect width="100%" height="100%" fill="white"/>',
           '<text x="%d" y="20" font-size="14">%s</text>' % (LEFT, escape(title))]
    for tick in y_axis.ticks:
        y = y_axis.place(tick)
        out.append('<line x1="%d" y1="%.1f" x2="%d" y2="%.1f" stroke="#dddddd"/>' % (LEFT, y, WIDTH - RIGHT, y))
        out.append('<text x="%d" y="%.1f" text-anchor="end">%s</text>' % (LEFT - 6, y + 4, number_text(tick)))
    for tick in x_axis.ticks:
        x = x_axis.place(tick)
        out.append('<line x1="%.1f" y1="%d" x2="%.1f" y2="%d" stroke="#888888"/>'
                   % (x, HEIGHT - BOTTOM, x, HEIGHT - BOTTOM + 5))
        out.append('<text x="%.1f" y="%d" text-anchor="middle">%s</text>'
                   % (x, HEIGHT - BOTTOM + 19, number_text(tick)))
    out.append('<polyline points="%d,%d %d,%d %d,%d" fill="none" stroke="black"/>'
               % (LEFT, TOP, LEFT, HEIGHT - BOTTOM, WIDTH - RIGHT, HEIGHT - BOTTOM))
    out.append('<text x="%d" y="%d" text-anchor="middle">%s</text>'
               % ((LEFT + WIDTH - RIGHT) // 2, HEIGHT - 10, escape(x_label)))
    out.append('<text x="16" y="%d" text-anchor="middle" transform="rotate(-90 16 %d)">%s</text>'
               % ((TOP + HEIGHT - BOTTOM) // 2, (TOP + HEIGHT - BOTTOM) // 2, escape(y_label)))
    for number, (name, values) in enumerate(lines):
        colour = COLOURS[number % len(COLOURS)]
        places = [(x_axis.place(x), y_axis.place(max(0, value))) for x, value in zip(xs, values)]
        out.append('<polyline points="%s" fill="none" stroke="%s" stroke-width="2"/>'
                   % (" ".join("%.1f,%.1f" % place for place in places), colour))
        for x, y in places:
            out.append('<circle cx="%.1f" cy="%.1f" r="3" fill="%s"/>' % (x, y, colour))
        y = TOP + 8 + 18 * number
        out.append('<line x1="%d" y1="%d" x2="%d" y2="%d" stroke="%s" stroke-width="2"/>'
                   % (LEFT + 12, y, LEFT + 34, y, colour))
        out.append('<text x="%d" y="%d">%s</text>' % (LEFT + 40, y + 4, escape(name)))
    out.append("</svg>")
    return "\n".join(out) + "\n"
