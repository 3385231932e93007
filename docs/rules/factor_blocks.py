"""The page's part on factors from the days: its tables and worked examples, and what factors_list prints."""
from typing import Callable, NamedTuple

from .agreement import same
from .factors import (CODES, EXACT, MOST_DAYS, ONE, PARTS, YEAR, answer_of, grown, growth_bounds, high_daily, low_daily,
                      root, times, times_up, worked_out)
from .product import factors_printed
from .steps import table
from .terms import MILLION, shown


def agreed_factors(code, n):
    """What factors_list prints for a code and n days, after both numbers."""
    return same(f'{code.name} {n}', factors_printed().get((code.number, n)), answer_of(code, n))


def numbers_in(block):
    """The numbers of days of a block."""
    return [int(word) for word in block.split()]


def circular_table(_):
    """The circular's rows of the four codes."""
    cells = []
    for code in CODES.values():
        parts = (code.i, code.F1, code.F2, code.F4)
        cells.append((code.name, code.number, f'{code.i / 100:.2f}', *(f'{part / 100:.2f}%' for part in parts[1:]),
                      ', '.join(f'{part:,}' for part in parts)))
    return table(['Code', 'Number', 'i', 'F1', 'F2', 'F4', 'i/100, F1, F2, F4 in 10^-4'], cells)


def root_table(block):
    """S(n) of some n, with the squares on both sides."""
    cells = []
    for n in numbers_in(block):
        s = root(n)
        below = f'{(s - 1) ** 2 * YEAR:,} <' if s else ''
        cells.append((f'{n:,}', f'{s:,}', below, f'{n * MILLION ** 2:,}', f'≤ {s * s * YEAR:,}'))
    return table(['n', 'S(n)', '(S − 1) × (S − 1) × 360', 'n × 10^12', 'S × S × 360'], cells)


class Side(NamedTuple):
    """The high or the low side: its base rate, its daily factor, and how that is found."""
    word: str
    rate_name: str
    sign: str
    rate: Callable
    daily: Callable
    multiplied: Callable
    rounding: str
    other: int        # from the daily factor to the next one, of which the test is not true
    signs: str        # of the test where it is true and where it is not


SIDES = {'high': Side('High', 'ga', '+', lambda code: code.ga, high_daily, times, 'down', -1, '≥<'),
         'low': Side('Low', 'gb', '−', lambda code: code.gb, low_daily, times_up, 'up', 1, '≤>')}


def daily_table(block):
    """The base rates and daily factors of one side."""
    side, cells = SIDES[block.strip()], []
    for code in CODES.values():
        daily = side.daily(code)
        rate = f'1 + {shown(code.i, PARTS)} × (1 {side.sign} {shown(code.F1, PARTS)}) = {shown(side.rate(code), ONE)}'
        tests = [f'{shown(grown(factor, YEAR, side.multiplied), ONE)} {sign} {side.rate_name}'
                 for factor, sign in zip((daily, daily + side.other), side.signs)]
        cells.append((code.name, rate, shown(daily, ONE), *tests))
    other = f'd {"+" if side.other > 0 else "−"} {shown(abs(side.other), ONE)}'
    return table(['Code', side.rate_name, f'{side.word} daily factor d',
                  f'360 multiplications by d, each rounded {side.rounding}', f'The same by {other}'], cells)


def growth_line(word, daily, n, multiplied, growth):
    """How a growth begins and ends."""
    first = ', '.join(shown(grown(daily, day, multiplied), ONE) for day in range(4))
    return f'{word} growth, {n} multiplications by {shown(daily, ONE)}: {first}, .., {shown(growth, ONE)}'


def factor_lines(code, n):
    """fa and fb of a code and n days, step by step."""
    made = worked_out(code, n)
    f2, f4, s = shown(code.F2, PARTS), shown(code.F4, PARTS), shown(made.root)
    wider, narrower = (shown(PARTS * MILLION + sign * code.F2 * made.root, PARTS * MILLION) for sign in (1, -1))
    high, low = shown(made.high, ONE), shown(made.low, ONE)
    return [f'S({n}) = {made.root:,} millionths = {s}',
            growth_line('high', high_daily(code), n, times_up, made.high) + ', each rounded up',
            growth_line('low', low_daily(code), n, times, made.low) + ', each rounded down',
            f'fa = {high} × (1 + {f2} × {s}) + {f4} = {high} × {wider} + {f4}',
            f'   = {shown(made.exact_fa, EXACT)}, rounded up once: {shown(made.fa)}',
            f'fb = {low} × (1 − {f2} × {s}) − {f4} = {low} × {narrower} − {f4}',
            f'   = {shown(made.exact_fb, EXACT)}, rounded down once: {shown(made.fb)}']


def factors_block(block):
    """Codes and days, each line by line, with what factors_list prints."""
    parts = []
    for example in block.strip().split('\n'):
        name, n = example.split()
        code, n = CODES[name], int(n)
        same(f'{example}: growth to the power 360', growth_bounds(code, n), (True, True))
        lines = factor_lines(code, n) + [f'factors_list prints: {code.number} {n} {agreed_factors(code, n)}']
        parts.append('\n'.join([f'{name}, n = {n}', *('    ' + line for line in lines)]))
    return '```text\n' + '\n\n'.join(parts) + '\n```'


def decimals(answer):
    """Two factors as decimals, or a refusal as it is."""
    return f'`{answer}`' if answer.startswith('refused') else ', '.join(shown(int(word)) for word in answer.split())


def factor_table(block):
    """fa and fb of all codes for some n, or their refusal."""
    return table(['n', *(f'{name}: fa, fb' for name in CODES)],
                 [(f'{n:,}', *(decimals(agreed_factors(code, n)) for code in CODES.values()))
                  for n in numbers_in(block)])


def factor_limits(_):
    """The least and the greatest factors of all codes and n, and from which n on fb is above 1."""
    answers = {code.name: [tuple(map(int, agreed_factors(code, n).split())) for n in range(MOST_DAYS + 1)]
               for code in CODES.values()}
    every = [pair for pairs in answers.values() for pair in pairs]
    same('fb at most fa', all(fb <= fa for fa, fb in every), True)
    above = {name: [n for n, (_, fb) in enumerate(pairs) if fb > MILLION] for name, pairs in answers.items()}
    above = {name: days for name, days in above.items() if days}
    same('days with fb above 1', list(above.values()), [list(range(days[0], MOST_DAYS + 1)) for days in above.values()])
    (least_fa, most_fa), (least_fb, most_fb) = ((shown(min(side)), shown(max(side))) for side in zip(*every))
    names = ' and for '.join(f'{name} from n = {days[0]:,} on' for name, days in above.items())
    return (f'Of all {len(every):,} pairs of a code and n, fa is {least_fa} to {most_fa}, and fb is {least_fb} to '
            f'{most_fb} and at most fa.\nfb is above 1 for {names}.')


FILLERS = {'circular': circular_table, 'roots': root_table, 'daily': daily_table, 'factors': factors_block,
           'factor_table': factor_table, 'factor_limits': factor_limits}
