"""What the engine answers: an account's margin, a series' factors, or a refusal, whose sentences stand here."""
from typing import NamedTuple, Tuple

REASONS = {  # 3 and 15 are not used; 3 was for an account without positions, which is accepted
    1: 'the file has fewer than 12 or more than 65,536 bytes',
    2: 'series count not 1 to 32, position count above 256, or one of the last four bytes not zero',
    4: 'the distance to the first series row is not 12 + 24 x series + 32 x positions, or longer than the file',
    5: 'a series row: PV, fa, fb, f3 or M outside its range',
    6: 'a series row: type above 1, or a spare byte not zero',
    7: 'a position row: series, side, kind or flags wrong, or blocked contracts on a written row',
    8: 'a position row: Q, PE, REB or premium wrong, or more contracts blocked than Q',
    9: 'a position row: PB wrong',
    10: 'a position row: barrier price outside its rule or range, or REB without a barrier',
    11: 'a position row: barrier on the wrong side of PV',
    12: "the list of lines has fewer entries than twice the account's positions",
    13: 'there is no position row of the number asked for',
    14: 'there are no factors of the code and days asked for: code not 0 to 3, or days above 1,800',
    16: 'there is no series of the number asked for',
    17: "the day's prices: high below low, close outside them, or one of the three not 1 to 10,000,000",
    18: "the lines in the list are not the account's first pairs",
    19: 'more pairs to take apart than there are in the list',
    20: 'the load asked for: seed not 1 to 2,147,483,646, p not 1 to 256, or a buffer below 36 + 32 x p bytes',
}
NO_SUCH_REFUSAL = 'there is no refusal of this number'


class Pair(NamedTuple):
    """Contracts of a written row that are paired with a held row, and their amount in centavos, a multiple of 100."""
    written: int
    held: int
    contracts: int
    amount: int


class Left(NamedTuple):
    """Contracts of a row that stand in no pair, of a held one the blocked ones too, and their amount in centavos, a
    multiple of 100: 0 if it is held."""
    row: int
    contracts: int
    amount: int


class Margin(NamedTuple):
    """An account's margin in centavos: pairs as made, rows left in row order, the premiums, exact, and the total: the
    lines' amounts and the premiums added up, not rounded."""
    pairs: Tuple[Pair, ...]
    left: Tuple[Left, ...]
    premium: int
    total: int


class Factors(NamedTuple):
    """The high and the low stress factor of a series in millionths, as a series row of an account file holds them."""
    fa: int
    fb: int


class Refusal(NamedTuple):
    """Why a file or a question is refused: number, and row from 0 on in its own table, 0 where none is meant."""
    number: int
    row: int

    @property
    def reason(self) -> str:
        """The sentence of the number, and of a number that no refusal has the header's sentence for it."""
        return REASONS.get(self.number, NO_SUCH_REFUSAL)

    def __str__(self) -> str:
        return f'refused {self.number} {self.row}: {self.reason}'


class Refused(Exception):
    """A file or a question is refused, a day's prices, pairs that are not the first, more to take apart than there are,
    or a load. Has number, row and reason."""

    def __init__(self, refusal: Refusal):
        super().__init__(refusal)
        self.refusal = refusal
        self.number, self.row, self.reason = refusal.number, refusal.row, refusal.reason

    def __str__(self) -> str:
        return str(self.refusal)
