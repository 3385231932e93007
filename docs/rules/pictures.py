"""The pictures of the page: a writer's loss at expiry by document 01, Paths, and the unit margin above it."""
from typing import NamedTuple

from .agreement import agreed, same
from .drawing import FIRST_PRICE, LAST_PRICE, Drawing
from .paths import payoff
from .spread import unit_spread
from .terms import BARRIERS, MILLION, SERIES_TEXT, rows_from
from .unit import unit_margin

PICTURES = {  # name: what it shows, series, rows
    'call': ('Call', 'call', 'written Q=10 PE=3100 european'),
    'put': ('Put', 'put', 'written Q=10 PE=3200 european'),
    'limiter': ('Call with a limiter', 'call', 'written Q=10 PE=3100 PB=3300 european'),
    'up_and_in': ('Up-and-in put', 'put', 'written Q=10 PE=3200 up-and-in=3600 REB=40 european'),
    'down_and_in': ('Down-and-in call', 'call', 'written Q=10 PE=2500 down-and-in=2400 REB=40 european'),
    'up_and_out': ('Up-and-out call', 'call', 'written Q=10 PE=3100 up-and-out=3500 REB=40 european'),
    'down_and_out': ('Down-and-out put', 'put', 'written Q=10 PE=2900 down-and-out=2500 REB=40 european'),
    'spread': ('Spread of two calls', 'call',
               'written Q=10 PE=3100 european\nheld Q=10 PE=3250 european'),
    'limited_spread': ('Spread of two calls with limiters', 'call',
                       'written Q=10 PE=3100 PB=3400 european\nheld Q=10 PE=3250 PB=3500 european'),
}


class Curve(NamedTuple):
    """A loss on the prices from low to high at which a path can end; open_at is a price that just does not belong."""
    kind: str
    words: str
    low: int
    high: int
    loss: callable
    open_at: int = None

    def points(self, low=None, high=None):
        """Price and loss at every tick."""
        return [(price, self.loss(price)) for price in range(low or self.low, (high or self.high) + 1)]


def ticks(fine_units):
    """A number of fine units that is whole ticks."""
    assert fine_units % MILLION == 0
    return fine_units // MILLION


def ends(row):
    """The lowest and highest last price of a path that does not touch the barrier, and of one that does."""
    low, high = ticks(row.series.L), ticks(row.series.H)
    if row.kind.startswith('up'):
        return (low, min(high, row.barrier)), (max(low, ticks(row.barrier * row.series.fb)), high)
    return (max(low, row.barrier), high), (low, min(high, ticks(row.barrier * row.series.fa)))


def curves(row):
    """The losses of a written row."""
    if not row.kind:
        return [Curve('loss', 'loss', ticks(row.series.L), ticks(row.series.H), payoff(row))]
    spared, touching = ends(row)
    in_force, rebate = payoff(row), lambda price: row.REB
    if row.kind.endswith('in'):
        return [Curve('loss', 'loss if touched', *touching, in_force),
                Curve('other', 'loss if not touched', *spared, rebate, row.barrier)]
    return [Curve('loss', 'loss if not touched', *spared, in_force, row.barrier),
            Curve('other', 'loss if touched', *touching, rebate)]


def drawn(title, series, lines, margins, marks, beyond=False):
    """The picture of some losses and margins."""
    tallest = max([loss for curve in lines for _, loss in curve.points()] + margins)
    step = 100 if tallest <= 600 else 200
    drawing = Drawing(title, (tallest // step + 2) * step)
    drawing.range(ticks(series.L), ticks(series.H))
    drawing.axes(step)
    for name, price, depth in marks:
        drawing.mark(name, price, depth)
    for margin in margins:
        drawing.level(margin)
    for curve in reversed(lines):
        drawing.curve(curve.kind, corners(curve.points()))
        if beyond:
            drawing.curve(curve.kind + ' beyond', corners(curve.points(FIRST_PRICE, curve.low)))
            drawing.curve(curve.kind + ' beyond', corners(
                [point for point in curve.points(curve.high, LAST_PRICE) if point[1] <= drawing.most]))
        if curve.open_at:
            drawing.open_end(curve.kind, curve.open_at, curve.loss(curve.open_at))
    for curve in lines:
        drawing.legend(curve.kind, curve.words)
    drawing.legend('margin', f'unit margin{"s" * (len(margins) - 1)} {" and ".join(map(str, margins))} ticks')
    return drawing.svg()


def corners(points):
    """The points at which a line of whole ticks bends, with its ends."""
    bends = [here for before, here, after in zip(points, points[1:], points[2:])
             if here[1] - before[1] != after[1] - here[1]]
    return points[:1] + bends + points[-1:]


def marks_of(row):
    """Strike, limiter, barrier and the stressed price after a knock-in: name, price, row of the name below the axis."""
    marks = [('PE', row.PE, 0)] + ([('PB', row.PB, 1)] if row.PB is not None else [])
    if row.kind:
        marks.append((BARRIERS[row.kind], row.barrier, 1))
    if row.kind == 'down-and-in' and row.series.type == 'call':
        marks.append(('ID × fa', ticks(row.barrier * row.series.fa), 0))
    if row.kind == 'up-and-in' and row.series.type == 'put':
        marks.append(('IU × fb', ticks(row.barrier * row.series.fb), 0))
    return marks


def row_picture(title, row):
    """A written row by itself. The margin is the greatest loss of a path, or MM if that is more."""
    lines, margin = curves(row), ticks(unit_margin(row).value)
    same(title, margin, max([ticks(row.series.MM)] + [loss for curve in lines for _, loss in curve.points()]))
    return drawn(title, row.series, lines, [margin], marks_of(row), beyond=not row.kind)


def spread_picture(title, written, held):
    """A written row, and the same row with a held one."""
    low, high = ticks(written.series.L), ticks(written.series.H)
    alone, back = payoff(written), payoff(held)
    lines = [Curve('loss', 'both rows', low, high, lambda price: alone(price) - back(price)),
             Curve('other', 'written row alone', low, high, alone)]
    margins = [ticks(unit_spread(written, held).value), ticks(unit_margin(written).value)]
    same(title, margins, [max(loss for _, loss in curve.points()) for curve in lines])
    marks = [('PEw', written.PE, 0), ('PEh', held.PE, 1)]
    marks += [(name, row.PB, depth) for name, row, depth in (('PBw', written, 0), ('PBh', held, 1)) if row.PB is not None]
    return drawn(title, written.series, lines, margins, marks, beyond=True)


def pictures():
    """The text of each picture by its name, of rows that the product margins as the hand arithmetic does."""
    made = {}
    for name, (title, series, rows_text) in PICTURES.items():
        text = f'{SERIES_TEXT[series]}\n{rows_text}\n'
        rows = rows_from(text)
        agreed(text)
        shown_rows = [' '.join(word for word in line.split() if word not in ('Q=10', 'european'))
                      for line in rows_text.split('\n')]
        words = f'{title}: {", ".join(shown_rows)}'
        made[name] = row_picture(words, *rows) if len(rows) == 1 else spread_picture(words, *rows)
    return made
