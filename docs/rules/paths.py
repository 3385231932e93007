"""Paths and what rows pay on them, worked out by hand from document 01, Paths, with document 02 [5]; the proviso of [11]."""
from .terms import MILLION, after_flag_1, fine


def is_path(series, prices):
    """Whether prices in fine units are a path of a series: from L to H, and each later one bound by each earlier one."""
    within = all(series.L <= price <= series.H for price in prices)
    bound = all(earlier * series.fb <= later * MILLION <= earlier * series.fa
                for at, earlier in enumerate(prices) for later in prices[at + 1:])
    return bool(prices) and within and bound


def touched(row, prices):
    """Whether a price touches the barrier: an up barrier at or above it, a down barrier at or below it."""
    barrier = fine(row.barrier)
    return any(price >= barrier if row.kind.startswith('up') else price <= barrier for price in prices)


def payoff(row, unit=1):
    """What a row pays at a price if it is in force, without the barrier: in ticks, or in the unit of which a tick has so
    many.
    """
    strike, limiter = unit * row.PE, None if row.PB is None else unit * row.PB
    if row.series.type == 'call':
        return lambda price: max(0, (price if limiter is None else min(limiter, price)) - strike)
    return lambda price: max(0, strike - (price if limiter is None else max(limiter, price)))


def payment(row, prices):
    """What a row pays per unit on a path, in fine units."""
    row = after_flag_1(row)
    spared = row.kind and touched(row, prices) != row.kind.endswith('in')
    return fine(row.REB) if row.knocked_out or spared else payoff(row, MILLION)(prices[-1])


def is_excepted(row):
    """Whether the cover for long expiries excepts a row: a written put with an up-and-in barrier not yet knocked in within
    a series whose fb is above 1,000,000.
    """
    waits = row.kind == 'up-and-in' and not row.knocked_in
    return row.side == 'written' and row.series.type == 'put' and waits and row.series.fb > MILLION
