"""The list of lines of an account that has blocked contracts, worked out by hand from document 02 [9]."""
from .pairing import answer_of

KINDS = {'pair': 1, 'left': 2}  # the first of a line's five numbers


def line_entries(rows):
    """The lines of an account, each as five numbers: the pairs as made, then the rows with contracts left."""
    lines = [line.split() for line in answer_of(rows).lines]
    return [(KINDS[kind], *map(int, numbers), *[0] * (4 - len(numbers))) for kind, *numbers in lines if kind in KINDS]


def margined(rows, entries):
    """What the call for an account's margin answers, and the list after it."""
    if len(entries) < 2 * len(rows):
        return 'refused 12 0', entries
    lines = line_entries(rows)
    total = answer_of(rows).lines[-1]
    return f'{len(lines)} lines, {total}', lines + entries[len(lines):]
