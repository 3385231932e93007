"""Pairs taken apart, and contracts that a client sells, worked out by hand from document 02 [8]."""
import re

from .instalments import NO_LINE, refused
from .terms import bare_lines, is_position, rows_from


def taken_apart(rows, entries, count, k):
    """What a call that takes pairs apart answers, and the list after it."""
    refusal = refused(rows, entries, count) or ('refused 19 0' if k > count else None)
    if refusal:
        return refusal, entries
    left = count - k
    return str(left), entries[:left] + [NO_LINE] * k + entries[count:]


def contracts_left(rows, pairs):
    """Of each row its Q less the contracts that pair lines took."""
    return [row.Q - sum(contracts for _, written, held, contracts, _ in pairs if row.number in (written, held))
            for row in rows]


def text_after_sale(text, number, contracts):
    """An account's text after a client sold so many contracts of a held row, fewer than its Q."""
    row, lines = rows_from(text)[number], bare_lines(text)
    at = [at for at, line in enumerate(lines) if is_position(line)][number]
    lines[at] = re.sub(r'\bQ=[0-9]+', f'Q={row.Q - contracts}', lines[at])
    return '\n'.join(lines) + '\n'
