"""What the tests of pairing in instalments and of taking apart share: lists lent to the library's calls, and the amount
worked out from the pairs so far and the rows by themselves.
"""
import array

from support import VECTORS

import serpentgleam
from serpentgleam import Refusal, engine, library
from serpentgleam.layout import account_of, file_of

TOO_SHORT, NOT_FIRST = Refusal(12, 0), Refusal(18, 0)
LARGE = (2 ** 32, 2 ** 32 + 1, 2 ** 63, 2 ** 63 + 1, 2 ** 64 - 1)  # each a count, an allowance and a k
TOO_LARGE = (2 ** 64, 2 ** 64 + 1, 10 ** 30)
BELOW_0 = (-1, -2 ** 64)
MARK = 0xa5a5a5a5a5a5a5a5  # in each number of an entry that is not a line
ACCEPTED = [data for data, answer in VECTORS if not answer.startswith('refused')]


def amount_after(data, count):
    """The amount after the first pairs: theirs, the premiums, and of each written row that of its contracts left, which
    is that of a row by itself with so many contracts.
    """
    margin, account = serpentgleam.margin(data), account_of(data)
    pairs = margin.pairs[:count]
    amount = margin.premium + sum(pair.amount for pair in pairs)
    for number, row in enumerate(account.positions):
        left = row['Q'] - sum(pair.contracts for pair in pairs if pair.written == number)
        if row['side'] and left:
            rows = [{**row, 'Q': left} if at == number else other for at, other in enumerate(account.positions)]
            amount += serpentgleam.position_amount(file_of(account._replace(positions=rows)), number)
    return amount


def lines_of(pairs):
    """The numbers of pair lines."""
    return [number for pair in pairs for number in (engine.PAIR, *pair)]


def one_number_changed(numbers):
    """Lines with one of their numbers changed, each in up to five ways, with the place of that number."""
    for at, number in enumerate(numbers):
        for other in {number + 1, max(number, 1) - 1, number ^ 1 << 32, number ^ 1 << 63, MARK} - {number}:
            yield at, [*numbers[:at], other, *numbers[at + 1:]]


class Lent:
    """A list of so many entries for the library's calls, which begins with these numbers; the others are marks, also
    after the list, where no call may write.
    """

    def __init__(self, numbers, room):
        self.room = room
        self.numbers = array.array('Q', [MARK] * (library.LINE_NUMBERS * (room + 2)))
        self.numbers[:len(numbers)] = array.array('Q', numbers)
        self.address = self.numbers.buffer_info()[0]

    def pair(self, data, count, allowance):
        """Refusal, row and value."""
        return self.ask(library.instalment_calls().pair, data, count, allowance)

    def amount(self, data, count):
        """Refusal, row and value."""
        return self.ask(library.instalment_calls().amount_so_far, data, count)

    def take_apart(self, data, count, k):
        """Refusal, row and value."""
        return self.ask(library.take_apart_call(), data, count, k)

    def ask(self, call, data, *numbers):
        answer = call(data, len(data), self.address, self.room, *numbers)
        return answer.refusal, answer.row, answer.value
