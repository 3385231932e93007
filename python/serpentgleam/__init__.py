"""Margin of flexible options by circular 081/2003, by the proved library.

    import serpentgleam
    answer = serpentgleam.margin(data)                 # the bytes of an account file; raises Refused
    answer.total, answer.premium, answer.pairs, answer.left
    serpentgleam.position_amount(data, 0)              # of one position row; raises Refused
    serpentgleam.margin_or_refusal(data)               # a Margin or a Refusal, for runs over many files
    serpentgleam.factors('FCI', 720)                   # fa and fb of a code's row and the days; raises Refused
    serpentgleam.day(data, 0, 3500, 2700, 2900)        # the file's bytes after a series' high, low and close
    serpentgleam.pair(data, (), 8)                     # the first pairs, at most 8; with these in place of (), the next ones
    serpentgleam.amount_so_far(data, ())               # the account's amount after these pairs
    serpentgleam.take_apart(data, pairs, 2)            # the pairs left when the latest 2 of these are taken apart
    serpentgleam.load(99, 8)                           # the bytes of the account file of a seed, with 8 positions

Amounts are in centavos: those of lines and of written rows are whole reais, multiples of 100, premiums are exact, and
the total is the sum, not rounded. Factors are whole millionths. Calls may be made from any threads.
"""
from .answers import REASONS, Factors, Left, Margin, Pair, Refusal, Refused
from .codes import CODES
from .engine import (amount_so_far, amount_so_far_or_refusal, day, day_or_refusal, factors, factors_or_refusal, load,
                     load_or_refusal, margin, margin_or_refusal, pair, pair_or_refusal, position_amount, take_apart,
                     take_apart_or_refusal)
from .library import NotFound

__version__ = '0.10.0'
__all__ = ['CODES', 'REASONS', 'Factors', 'Left', 'Margin', 'NotFound', 'Pair', 'Refusal', 'Refused', 'amount_so_far',
           'amount_so_far_or_refusal', 'day', 'day_or_refusal', 'factors', 'factors_or_refusal', 'load',
           'load_or_refusal', 'margin', 'margin_or_refusal', 'pair', 'pair_or_refusal', 'position_amount', 'take_apart',
           'take_apart_or_refusal']
