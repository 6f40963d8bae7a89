"""A plot of hit ratios by cache size, as SVG that stands alone."""
import math
from html import escape

WIDTH, HEIGHT = 840, 500
LEFT, RIGHT, TOP, BOTTOM = 70, 24, 84, 66
STYLES = [('#1f6feb', 3, ''), ('#c2571a', 2, '8 5'), ('#5f6b76', 2, '2 5')]
FONT = 'font-family="DejaVu Sans, Verdana, Arial, sans-serif"'
MOST_TICKS = 9


class Scale:
    """The place of a size on the axis: logarithmic, and the middle where there is one size alone."""

    def __init__(self, sizes):
        self.low, self.high = math.log2(min(sizes)), math.log2(max(sizes))

    def __call__(self, size):
        if self.high == self.low:
            return (LEFT + WIDTH - RIGHT) / 2
        return LEFT + (math.log2(size) - self.low) / (self.high - self.low) * (WIDTH - LEFT - RIGHT)

    def ticks(self):
        """Powers of two, as many as have room; the ends where there are fewer than two."""
        powers = list(range(math.ceil(self.low - 1e-9), math.floor(self.high + 1e-9) + 1))
        if len(powers) < 2:
            return sorted({round(2**self.low), round(2**self.high)})
        step = -(-len(powers) // MOST_TICKS)
        return [2**power for power in powers if power % step == 0]


def tall(ratio, most):
    return HEIGHT - BOTTOM - ratio / most * (HEIGHT - TOP - BOTTOM)


def text(x, y, words, size=13, anchor='middle', colour='#24292f', more=''):
    return f'<text x="{x:.1f}" y="{y:.1f}" font-size="{size}" text-anchor="{anchor}" fill="{colour}" {more}>{escape(words)}</text>'


def cut(words, most):
    """A text that has room, its middle left out where it is longer."""
    return words if len(words) <= most else f'{words[:most // 2 - 2]} .. {words[2 - most // 2:]}'


def axes(scale, most, label, spelled):
    bottom = HEIGHT - BOTTOM
    for step in range(6):
        y = tall(most * step / 5, most)
        yield f'<line x1="{LEFT}" x2="{WIDTH - RIGHT}" y1="{y:.1f}" y2="{y:.1f}" stroke="{"#57606a" if step == 0 else "#d8dee4"}"/>'
        yield text(LEFT - 9, y + 4.5, f'{most * step / 5:.0%}', anchor='end')
    for tick in scale.ticks():
        x = scale(tick)
        yield f'<line x1="{x:.1f}" x2="{x:.1f}" y1="{bottom}" y2="{bottom + 5}" stroke="#57606a"/>'
        yield text(x, bottom + 21, spelled(tick))
    yield text((LEFT + WIDTH - RIGHT) / 2, HEIGHT - 16, label, 14)
    middle = (TOP + bottom) / 2
    yield text(20, middle, 'hits, of all reads', 14, more=f'transform="rotate(-90 20 {middle:.1f})"')


def legend(names):
    """The lines' names in a row, above the plot's right end."""
    x = WIDTH - RIGHT - sum(62 + 8.2 * len(name) for name in names)
    for name, (colour, width, dashes) in zip(names, STYLES):
        x += 20
        yield f'<line x1="{x:.1f}" x2="{x + 32:.1f}" y1="58" y2="58" stroke="{colour}" stroke-width="{width}" stroke-dasharray="{dashes}"/>'
        yield text(x + 40, 62.5, name, 14, 'start', colour)
        x += 42 + 8.2 * len(name)


def line(points, scale, most, style, name, spelled):
    colour, width, dashes = style
    places = [(scale(size), tall(ratio, most)) for size, ratio in points]
    yield (f'<polyline fill="none" stroke="{colour}" stroke-width="{width}" stroke-dasharray="{dashes}" stroke-linejoin="round" points="'
           + ' '.join(f'{x:.1f},{y:.1f}' for x, y in places) + '"/>')
    for (x, y), (size, ratio) in zip(places, points):
        yield f'<circle cx="{x:.1f}" cy="{y:.1f}" r="{width + 0.8}" fill="{colour}"><title>{escape(f"{name}, {spelled(size)}: {ratio:.1%}")}</title></circle>'


def highest(ratios):
    """The top of the axis: a round part of all reads, above all that is drawn."""
    return next((top for top in (0.05, 0.1, 0.25, 0.5, 0.75) if max(ratios, default=1) <= top), 1.0)


def curve(series, title, label, spelled):
    """The picture of some lines, each a list of sizes with their hit ratios."""
    sizes = [size for points in series.values() for size, _ in points]
    scale, most = Scale(sizes), highest([ratio for points in series.values() for _, ratio in points])
    parts = [f'<svg xmlns="http://www.w3.org/2000/svg" viewBox="0 0 {WIDTH} {HEIGHT}" width="{WIDTH}" height="{HEIGHT}" {FONT}>',
             f'<rect width="{WIDTH}" height="{HEIGHT}" fill="white"/>', text(LEFT, 30, cut(title, 92), 15, 'start'),
             *axes(scale, most, label, spelled), *legend(series)]
    # ours is drawn last, over the others
    for (name, points), style in reversed(list(zip(series.items(), STYLES))):
        parts += line(points, scale, most, style, name, spelled)
    return '\n'.join([*parts, '</svg>', ''])
