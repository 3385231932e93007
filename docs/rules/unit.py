"""The unit margin of a written row and its amount, worked out by hand from document 01, One position, with document 02
[5], flag 16, and [6], whole reais.
"""
from typing import List, NamedTuple, Optional

from .terms import BARRIERS, after_flag_1, fine, shown

REAL = 100  # centavos


class Working(NamedTuple):
    """A unit margin in fine units, None where nothing pairs two rows, and how it is reached."""
    value: Optional[int]
    tests: List[str]
    payoff: List[str]
    result: str


def largest(parts):
    """The greatest of the named parts, and how it is found."""
    value = max(parts.values())
    numbers = '; '.join(shown(part) for part in parts.values())
    return value, f'max({"; ".join(parts)}) = max({numbers}) = {shown(value)}'


def barrier_reached(row, lines):
    """Whether the barrier is reachable: an up barrier at or below H, a down barrier at or above L."""
    symbol, price = BARRIERS[row.kind], fine(row.barrier)
    if row.kind.startswith('up'):
        reached = row.series.H >= price
        test = f'H = {shown(row.series.H)} {"≥" if reached else "<"} {symbol} = {row.barrier}'
    else:
        reached = row.series.L <= price
        test = f'L = {shown(row.series.L)} {"≤" if reached else ">"} {symbol} = {row.barrier}'
    lines.append(f'{test}: {"reachable" if reached else "not reachable"}')
    return reached


def without_limiter(row, letter, price):
    """What is said of PB before it is used, where the row has no limiter."""
    return f'no limiter: PB = {letter} = {shown(price)}; ' if row.PB is None else ''


def call_payoff(row, reached):
    """Name and value of a call's payoff at the stressed price, below zero too, and its arithmetic line by line."""
    high, lines = row.series.H, []
    limit, lead = high if row.PB is None else fine(row.PB), without_limiter(row, 'H', high)
    if row.kind == 'down-and-in':
        high = row.barrier * row.series.fa
        lines.append(f'{lead}from here H = ID × fa = {row.barrier} × {shown(row.series.fa)} = {shown(high)}')
        lead = ''
    name, label, at = 'C', 'C = ', 'H'
    if row.kind == 'up-and-out' and reached:
        name, label, at, high = 'min(PB; OU) − PE', '', 'OU', fine(row.barrier)
    payoff = min(limit, high) - fine(row.PE)
    lines.append(f'{lead}{label}min(PB; {at}) − PE = min({shown(limit)}; {shown(high)}) − {row.PE} = {shown(payoff)}')
    return name, payoff, lines


def put_payoff(row, reached):
    """Name and value of a put's payoff at the stressed price, below zero too, and its arithmetic line by line."""
    low, lines = row.series.L, []
    limit, lead = low if row.PB is None else fine(row.PB), without_limiter(row, 'L', low)
    if row.kind == 'up-and-in':
        low = row.barrier * row.series.fb
        lines.append(f'{lead}from here L = IU × fb = {row.barrier} × {shown(row.series.fb)} = {shown(low)}')
        lead = ''
    name, label, at = 'P', 'P = ', 'L'
    if row.kind == 'down-and-out' and reached:
        name, label, at, low = 'PE − max(PB; OD)', '', 'OD', fine(row.barrier)
    payoff = fine(row.PE) - max(limit, low)
    lines.append(f'{lead}{label}PE − max(PB; {at}) = {row.PE} − max({shown(limit)}; {shown(low)}) = {shown(payoff)}')
    return name, payoff, lines


def unit_margin(row):
    """The unit margin of a written row."""
    if row.knocked_out:
        return Working(fine(row.REB), ['already knocked out'], [], f'REB = {row.REB}')
    tests = ['already knocked in: no barrier, REB = 0'] if row.knocked_in else []
    row = after_flag_1(row)
    parts = {'MM': row.series.MM, 'REB': fine(row.REB)}
    reached = barrier_reached(row, tests) if row.kind else False
    if row.kind in ('up-and-in', 'down-and-in') and not reached:
        value, result = largest(parts)
        return Working(value, tests, [], result)
    name, payoff, lines = (call_payoff if row.series.type == 'call' else put_payoff)(row, reached)
    if row.kind in ('up-and-out', 'down-and-out') and not reached:
        del parts['REB']
    value, result = largest({**parts, name: payoff})
    return Working(value, tests, lines, result)


def amount(unit, row, quantity):
    """Unit × M × quantity in centavos, rounded up once to whole reais, and a line that says so."""
    exact = unit * row.series.M * quantity
    centavos = REAL * -(-exact // fine(REAL))
    product = f'{shown(unit)} × {row.series.M} × {quantity} = {shown(exact)}'
    return centavos, product + (f', rounded up once: {centavos}' if exact % fine(REAL) else '')
