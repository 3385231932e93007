"""Pairing in instalments and the amount between calls, worked out by hand from document 02 [7], lists by [9]."""
from .pairing import answer_of

PAIR = 1  # the first of a pair line's five numbers
NO_LINE = (0, 0, 0, 0, 0)


def pair_entries(rows):
    """The lines of all pairs of an account as made, each as five numbers."""
    lines = [line.split() for line in answer_of(rows).lines]
    return [(PAIR, *map(int, numbers)) for kind, *numbers in lines if kind == 'pair']


def amount_after(rows, count):
    """Pairs so far, every remainder by the amount of its left line, and the premiums, in centavos."""
    return int(answer_of(rows, count).lines[-1].split()[1])


def counts_between(rows, allowance):
    """How many pairs there are before any call and after each that makes some."""
    last = len(pair_entries(rows))
    return [*range(0, last, allowance), last]


def refused(rows, entries, count):
    """The refusal of a list and a count for an account that is in order, or None."""
    if len(entries) < 2 * len(rows):
        return 'refused 12 0'
    pairs = pair_entries(rows)
    return 'refused 18 0' if count > len(pairs) or entries[:count] != pairs[:count] else None


def paired(rows, entries, count, allowance):
    """What a call for pairs answers, and the list after it."""
    refusal = refused(rows, entries, count)
    if refusal:
        return refusal, entries
    made = pair_entries(rows)[count:][:allowance]
    return str(len(made)), entries[:count] + made + entries[count + len(made):]


def amount_so_far(rows, entries, count):
    """What the call for the amount answers."""
    return refused(rows, entries, count) or str(amount_after(rows, count))
