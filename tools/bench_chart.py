# A chart as plain SVG text: lines over whole numbers, with a logarithmic axis of values.
from math import log10

WIDTH, HEIGHT = 760, 460
LEFT, RIGHT, TOP, BOTTOM = 72, 140, 52, 58
COLOURS = ('#0b62c4', '#c4530b', '#4a7d1f')


def round_below(value):
    # the largest of 1, 2 and 5 times a power of 10 that is at most the value
    power = 10.0 ** int(log10(value) // 1)
    return max(m * power for m in (0.5, 1, 2, 5) if m * power <= value * 1.0001)


def round_above(value):
    power = 10.0 ** int(log10(value) // 1)
    return min(m * power for m in (1, 2, 5, 10) if m * power >= value * 0.9999)


def marks(low, high):
    # 1, 2 and 5 times powers of 10 from low to high
    power = 10.0 ** int(log10(low) // 1)
    while power <= high:
        for m in (1, 2, 5):
            if low * 0.999 <= m * power <= high * 1.001:
                yield m, m * power
        power *= 10


def chart(title, across, upward, lines, limit, beyond):
    # lines: pairs of a name and its values at 0, 1, ..; a dashed line stands after the limit, with words beside it
    values = [v for _, line in lines for v in line]
    low, high, last = round_below(0.8 * min(values)), round_above(1.2 * max(values)), max(len(line) for _, line in lines) - 1

    def x(i):
        return LEFT + (WIDTH - LEFT - RIGHT) * (i + 0.25) / (last + 0.5)

    def y(value):
        return TOP + (HEIGHT - TOP - BOTTOM) * (log10(high) - log10(value)) / (log10(high) - log10(low))

    right, foot = WIDTH - RIGHT, HEIGHT - BOTTOM
    out = ['<svg xmlns="http://www.w3.org/2000/svg" viewBox="0 0 %d %d" width="%d" height="%d" role="img"' % (
               WIDTH, HEIGHT, WIDTH, HEIGHT),
           '     font-family="Helvetica, Arial, sans-serif" font-size="13" fill="#222">',
           '<title>%s</title>' % title,
           '<rect width="%d" height="%d" fill="#fff"/>' % (WIDTH, HEIGHT),
           '<text x="%d" y="28" font-size="16" font-weight="bold">%s</text>' % (LEFT, title)]
    for m, value in marks(low, high):
        out.append('<line x1="%d" x2="%d" y1="%.1f" y2="%.1f" stroke="%s"/>' % (
            LEFT, right, y(value), y(value), '#bbb' if m == 1 else '#eee'))
        out.append('<text x="%d" y="%.1f" text-anchor="end"%s>%g</text>' % (
            LEFT - 8, y(value) + 4.5, '' if m == 1 else ' fill="#888" font-size="11"', value))
    for i in range(last + 1):
        out.append('<line x1="%.1f" x2="%.1f" y1="%d" y2="%d" stroke="#222"/>' % (x(i), x(i), foot, foot + 5))
        out.append('<text x="%.1f" y="%d" text-anchor="middle">%d</text>' % (x(i), foot + 20, i))
    out.append('<path d="M%d %dV%dH%d" fill="none" stroke="#222"/>' % (LEFT, TOP, foot, right))
    out.append('<text x="%.1f" y="%d" text-anchor="middle">%s</text>' % ((LEFT + right) / 2, HEIGHT - 14, across))
    out.append('<text transform="translate(20 %.1f) rotate(-90)" text-anchor="middle">%s</text>' % ((TOP + foot) / 2, upward))
    out.append('<line x1="%.1f" x2="%.1f" y1="%d" y2="%d" stroke="#666" stroke-dasharray="5 4"/>' % (
        x(limit + 0.5), x(limit + 0.5), TOP, foot))
    for row, words in enumerate(beyond):
        out.append('<text x="%.1f" y="%d" font-size="11" fill="#555" stroke="#fff" stroke-width="4" paint-order="stroke">%s</text>' % (
            x(limit + 0.5) + 6, foot - 24 + 15 * row, words))
    for (name, line), colour in zip(lines, COLOURS):
        points = ['%.1f %.1f' % (x(i), y(v)) for i, v in enumerate(line)]
        out.append('<path d="M%s" fill="none" stroke="%s" stroke-width="2.2"/>' % ('L'.join(points), colour))
        for i, v in enumerate(line):
            out.append('<circle cx="%.1f" cy="%.1f" r="3.4" fill="%s"/>' % (x(i), y(v), colour))
    for row, (name, _) in enumerate(lines):
        # the legend, in the order of the lines
        at, colour = TOP + 14 + 24 * row, COLOURS[row]
        out.append('<line x1="%d" x2="%d" y1="%d" y2="%d" stroke="%s" stroke-width="2.2"/>' % (
            right + 16, right + 42, at - 4, at - 4, colour))
        out.append('<circle cx="%d" cy="%d" r="3.4" fill="%s"/>' % (right + 29, at - 4, colour))
        out.append('<text x="%d" y="%d">%s</text>' % (right + 50, at, name))
    return '\n'.join(out) + '\n</svg>\n'
