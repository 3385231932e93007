"""The pairing, lines and total of an account, worked out by hand from document 01, Pairs, with document 02 [9]:

"Pairs use at most Q less the blocked, and for pairing .. a held row has contracts left only while some of these are
unused. The left line of a held row counts blocked ones too".
"""
from typing import NamedTuple, Optional

from .spread import unit_spread
from .unit import amount, unit_margin


class Pair(NamedTuple):
    """A written and a held row; the unit margins are in fine units, the spread's None where nothing pairs them."""
    written: int
    held: int
    difference: int
    alone: int
    spread: Optional[int]

    @property
    def lowers(self):
        """Whether the written unit margin is greater than the spread's."""
        return self.spread is not None and self.alone > self.spread

    @property
    def place(self):
        """The order of choice: strike difference, written row, held row."""
        return self.difference, self.written, self.held


def pairs_of(rows):
    """Every written row with every held row of its series, in the order of choice."""
    pairs = []
    for written in (row for row in rows if row.side == 'written'):
        for held in (row for row in rows if row.side == 'held' and row.series is written.series):
            spread = unit_spread(written, held).value if written.may_pair and held.may_pair else None
            difference = abs(held.PE - written.PE)
            pairs.append(Pair(written.number, held.number, difference, unit_margin(written).value, spread))
    return sorted(pairs, key=lambda pair: pair.place)


class Step(NamedTuple):
    """A pair that was made, and of each row the contracts that are in no pair then, blocked ones too."""
    pair: Pair
    quantity: int
    left: dict


def unused(row, left):
    """The contracts of a row that the next pair may take: those in no pair, less the blocked."""
    return left[row.number] - row.blocked


def rows_in(pair, rows):
    """The two rows of a pair."""
    return rows[pair.written], rows[pair.held]


def steps_of(rows):
    """The pairs as they are made, each with the contracts left after it."""
    left = {row.number: row.Q for row in rows}
    pairs, steps = pairs_of(rows), []
    while True:
        allowed = [pair for pair in pairs if pair.lowers and all(unused(row, left) for row in rows_in(pair, rows))]
        if not allowed:
            return steps, left
        pair = min(allowed, key=lambda pair: pair.place)
        quantity = min(unused(row, left) for row in rows_in(pair, rows))
        left = {**left, pair.written: left[pair.written] - quantity, pair.held: left[pair.held] - quantity}
        steps.append(Step(pair, quantity, left))


class Answer(NamedTuple):
    """What the program should print, and of each amount how it is reached."""
    lines: list
    workings: list


def answer_of(rows, count=None):
    """The lines, premiums and total of an account; with a count, if its first pairs alone are made, so many of them."""
    steps = steps_of(rows)[0][:count]
    left = steps[-1].left if steps else {row.number: row.Q for row in rows}
    lines, workings, total = [], [], 0
    for step in steps:
        centavos, working = amount(step.pair.spread, rows[step.pair.written], step.quantity)
        lines.append(f'pair {step.pair.written} {step.pair.held} {step.quantity} {centavos}')
        workings.append(working)
        total += centavos
    for row in (row for row in rows if left[row.number]):
        written = row.side == 'written'
        centavos, working = amount(unit_margin(row).value, row, left[row.number]) if written else (0, '0, held')
        lines.append(f'left {row.number} {left[row.number]} {centavos}')
        workings.append(working)
        total += centavos
    held = [row for row in rows if row.side == 'held' and row.premium]
    premiums = sum(row.premium * row.series.M * row.Q for row in held)
    products = ' + '.join(f'{row.premium} × {row.series.M} × {row.Q}' for row in held)
    amounts = [line.split()[-1] for line in lines] + [str(premiums)]
    workings.append(f'{products} = {premiums}' if held else 'none')
    workings.append(f'{" + ".join(amounts)} = {total + premiums}' if lines else 'none')
    return Answer(lines + [f'premium {premiums}', f'total {total + premiums}'], workings)
