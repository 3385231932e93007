"""The questions to the proved library: an account's margin, one position's amount, the factors of a series, an account
file after a day, an account's pairs in instalments, made and taken apart, and the account of a load.
"""
import ctypes
import operator
from typing import Sequence, Tuple, Union

from . import library
from .answers import Factors, Left, Margin, Pair, Refusal, Refused
from .codes import code_named

PAIR = 1  # the kind of a line that is a pair
NO_SUCH_ROW = 13
LARGEST = 2 ** 64 - 1  # number that the library takes


class Lent:
    """A list of lines that is lent to the library: its address for the call, its numbers for reading."""

    def __init__(self):
        self.list = library.list_of_lines()
        self.address = ctypes.addressof(self.list)
        self.numbers = memoryview(self.list).cast('B').cast('Q')


idle = []  # lists that no call uses; a call takes one out and puts it back, so that no two calls share one


def as_bytes(data) -> bytes:
    """The bytes of a bytes-like object, without a copy where it is bytes already."""
    return data if isinstance(data, bytes) else bytes(memoryview(data))


def margin_of_lines(numbers, total: int) -> Margin:
    """The margin whose lines are these numbers, five to a line."""
    pairs, left, amounts = [], [], 0
    for at in range(0, len(numbers), library.LINE_NUMBERS):
        kind, first, second, third, fourth = numbers[at:at + library.LINE_NUMBERS]
        if kind == PAIR:
            pairs.append(Pair(first, second, third, fourth))
            amounts += fourth
        else:
            left.append(Left(first, second, third))
            amounts += third
    # The library's result has no premiums, and total = line amounts + premiums: the rest of the total is the premiums.
    return Margin(tuple(pairs), tuple(left), total - amounts, total)


def margin_or_refusal(data: bytes) -> Union[Margin, Refusal]:
    """The margin of an account file's bytes, or its refusal: for runs over many files, in which nothing is raised."""
    data = as_bytes(data)
    call = library.calls().margin
    try:
        lent = idle.pop()
    except IndexError:
        lent = Lent()
    result = call(data, len(data), lent.address, library.MOST_LINES)
    if result.refusal:
        answer = Refusal(result.refusal, result.row)
    else:
        answer = margin_of_lines(lent.numbers[:result.lines * library.LINE_NUMBERS].tolist(), result.total)
    idle.append(lent)
    return answer


def margin(data: bytes) -> Margin:
    """The margin of an account file's bytes. Raises Refused where the file is refused.

    >>> with open('examples/document.account', 'rb') as file:
    ...     margin(file.read()).total
    10800
    """
    answer = margin_or_refusal(data)
    if isinstance(answer, Refusal):
        raise Refused(answer)
    return answer


def position_amount(data: bytes, row: int) -> int:
    """The amount in centavos of one position row, counted from 0: of a written one its margin by itself, a multiple of
    100, of a held one its unsettled premium, exact. Raises Refused where the file is refused or has no such row.
    """
    data, row = as_bytes(data), operator.index(row)
    if row < 0:
        raise ValueError(f'a row is counted from 0: {row}')
    row = min(row, library.MOST_POSITIONS)  # which is not there, as no larger row is
    amount = library.calls().position_amount(data, len(data), row)
    if amount >= 0:
        return amount
    if amount == -NO_SUCH_ROW:
        raise Refused(Refusal(NO_SUCH_ROW, 0))
    raise Refused(margin_or_refusal(data))  # the margin's refusal is the same, and has the row


def number_for_call(number: int, what: str) -> int:
    """The number to hand over for a number from 0 on: of one that is too large LARGEST, which is answered like it."""
    number = operator.index(number)
    if number < 0:
        raise ValueError(f'{what} from 0 on: {number}')
    return min(number, LARGEST)


def factors_or_refusal(code: Union[str, int], days: int) -> Union[Factors, Refusal]:
    """The factors of a series, or their refusal: for runs over many series, in which no refusal is raised."""
    code = number_for_call(code_named(code) if isinstance(code, str) else code, 'a code is a name, or a number')
    result = library.factors_call()(code, number_for_call(days, 'days are a number'))
    return Refusal(result.refusal, result.row) if result.refusal else Factors(result.fa, result.fb)


def factors(code: Union[str, int], days: int) -> Factors:
    """The factors fa and fb of a series in millionths, by the circular's row of a code ('FCI', 'FPI', 'OFC', 'OFV' or
    its number, 0 to 3) and the calendar days to expiry, 0 to 1,800. Raises Refused for any other number.

    >>> factors('FCI', 720)
    Factors(fa=1863083, fb=1085366)
    """
    answer = factors_or_refusal(code, days)
    if isinstance(answer, Refusal):
        raise Refused(answer)
    return answer


def day_or_refusal(data: bytes, series: int, high: int, low: int, close: int) -> Union[bytes, Refusal]:
    """The account file after a day, or the refusal: for runs over many files, in which no refusal is raised."""
    data = as_bytes(data)
    numbers = [number_for_call(number, f'{what} is a number') for number, what in (
        (series, 'a series'), (high, 'the high'), (low, 'the low'), (close, 'the close'))]
    lent = ctypes.create_string_buffer(data, len(data))  # a copy, for the library writes to it
    answer = library.day_call()(lent, len(data), *numbers)
    return Refusal(answer.refusal, answer.row) if answer.refusal else lent.raw


def day(data: bytes, series: int, high: int, low: int, close: int) -> bytes:
    """The bytes of an account file brought up to date after a day: a series row, counted from 0, and its high, low and
    close in ticks. PV becomes the close, and barriers that were touched are marked in the flags of the series' rows.
    The bytes handed over stay as they are. Raises Refused where the file is refused, has no such series (16) or the
    prices are not in order (17).

    >>> with open('examples/before_the_day.account', 'rb') as file:
    ...     before = file.read()
    >>> after = day(before, series=0, high=3500, low=2700, close=2900)
    >>> margin(before).total, margin(after).total
    (97000, 93300)
    """
    answer = day_or_refusal(data, series, high, low, close)
    if isinstance(answer, Refusal):
        raise Refused(answer)
    return answer


def list_with(pairs: Sequence[Pair]):
    """A list for the library that begins with these pairs. Of more than it has room for the first ones stand in it;
    so many pairs are refused whatever they are.
    """
    lines = library.list_of_lines()
    numbers = [number_for_call(number, 'what a pair has is a number')
               for written, held, contracts, amount in pairs for number in (PAIR, written, held, contracts, amount)]
    lines[:len(numbers)] = numbers[:len(lines)]
    return lines


def pairs_in(lines, first: int, end: int) -> Tuple[Pair, ...]:
    """The pairs in the list's entries from the first on and before the end."""
    places = range(first * library.LINE_NUMBERS, end * library.LINE_NUMBERS, library.LINE_NUMBERS)
    return tuple(Pair(*lines[at + 1:at + library.LINE_NUMBERS]) for at in places)


def pair_or_refusal(data: bytes, pairs: Sequence[Pair], allowance: int) -> Union[Tuple[Pair, ...], Refusal]:
    """The next pairs, or the refusal: for runs over many files, in which no refusal is raised."""
    data, lines, count = as_bytes(data), list_with(pairs), len(pairs)
    allowance = number_for_call(allowance, 'an allowance is a number')
    answer = library.instalment_calls().pair(data, len(data), lines, library.MOST_LINES, count, allowance)
    if answer.refusal:
        return Refusal(answer.refusal, answer.row)
    return pairs_in(lines, count, count + answer.value)


def pair(data: bytes, pairs: Sequence[Pair], allowance: int) -> Tuple[Pair, ...]:
    """The pairs that follow an account's first pairs, at most as many as are allowed: fewer where there are no more.
    Begun with no pairs, all calls together give those of margin. Raises Refused where the file is refused or the pairs
    handed over are not its first ones (18).

    >>> with open('examples/document.account', 'rb') as file:
    ...     data = file.read()
    >>> pairs = pair(data, (), 1)
    >>> pairs
    (Pair(written=0, held=2, contracts=3, amount=0),)
    >>> pair(data, pairs, 8)
    (Pair(written=0, held=1, contracts=4, amount=3000),)
    """
    answer = pair_or_refusal(data, pairs, allowance)
    if isinstance(answer, Refusal):
        raise Refused(answer)
    return answer


def amount_so_far_or_refusal(data: bytes, pairs: Sequence[Pair]) -> Union[int, Refusal]:
    """The amount so far, or the refusal: for runs over many files, in which no refusal is raised."""
    data, lines = as_bytes(data), list_with(pairs)
    answer = library.instalment_calls().amount_so_far(data, len(data), lines, library.MOST_LINES, len(pairs))
    return Refusal(answer.refusal, answer.row) if answer.refusal else answer.value


def amount_so_far(data: bytes, pairs: Sequence[Pair]) -> int:
    """The amount in centavos of an account of which these first pairs are made: theirs, that of each row's contracts
    left, 0 if held, and the premiums. After all pairs it is the margin's total. Raises Refused as pair does.

    >>> with open('examples/document.account', 'rb') as file:
    ...     data = file.read()
    >>> [amount_so_far(data, margin(data).pairs[:count]) for count in range(3)]
    [25300, 17800, 10800]
    """
    answer = amount_so_far_or_refusal(data, pairs)
    if isinstance(answer, Refusal):
        raise Refused(answer)
    return answer


def take_apart_or_refusal(data: bytes, pairs: Sequence[Pair], k: int) -> Union[Tuple[Pair, ...], Refusal]:
    """The pairs left, or the refusal: for runs over many files, in which no refusal is raised."""
    data, lines = as_bytes(data), list_with(pairs)
    k = number_for_call(k, 'how many pairs to take apart is a number')
    answer = library.take_apart_call()(data, len(data), lines, library.MOST_LINES, len(pairs), k)
    return Refusal(answer.refusal, answer.row) if answer.refusal else pairs_in(lines, 0, answer.value)


def take_apart(data: bytes, pairs: Sequence[Pair], k: int) -> Tuple[Pair, ...]:
    """The pairs that are left of an account's first pairs when the latest k are taken apart, as when a client sells a
    held option during the day: all but the last k of those handed over. Pairs that pair gave can be taken apart, and
    pair then gives the same ones again. Raises Refused as pair does, and where there are fewer than k pairs (19).

    >>> with open('examples/document.account', 'rb') as file:
    ...     data = file.read()
    >>> pairs = margin(data).pairs
    >>> left = take_apart(data, pairs, 1)
    >>> left
    (Pair(written=0, held=2, contracts=3, amount=0),)
    >>> left + pair(data, left, 1) == pairs
    True
    """
    answer = take_apart_or_refusal(data, pairs, k)
    if isinstance(answer, Refusal):
        raise Refused(answer)
    return answer


def load_or_refusal(seed: int, p: int) -> Union[bytes, Refusal]:
    """The account file of a load, or the refusal: for runs over many seeds, in which no refusal is raised."""
    numbers = number_for_call(seed, 'a seed is a number'), number_for_call(p, 'p is a number')
    lent = ctypes.create_string_buffer(library.MOST_LOAD)
    answer = library.load_call()(*numbers, lent, library.MOST_LOAD)
    return Refusal(answer.refusal, answer.row) if answer.refusal else lent.raw[:answer.value]


def load(seed: int, p: int) -> bytes:
    """The bytes of the account file of a load: of a seed, 1 to 2,147,483,646, and a number of positions, 1 to 256. The
    same two numbers give the same bytes on every machine, and every such file is accepted. Raises Refused for any other
    number (20).

    >>> data = load(seed=99, p=8)
    >>> len(data), margin(data).total
    (292, 6040300)
    """
    answer = load_or_refusal(seed, p)
    if isinstance(answer, Refusal):
        raise Refused(answer)
    return answer
