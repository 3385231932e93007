"""Contracts blocked as collateral: their word in the text and their faults; pairs, lines and amounts of accounts that
have some; lists of twice the positions; days.
"""
import array
import itertools
import random
import unittest

from lent_lists import ACCEPTED, MARK, NOT_FIRST, TOO_SHORT, Lent, amount_after, lines_of
from support import BLOCKED, SERIES_TEXT, bytes_of, file_with, row_with

import serpentgleam
from serpentgleam import Left, Margin, Pair, Refusal, Refused, library
from serpentgleam.layout import account_of, file_of
from serpentgleam.lines import Unreadable
from serpentgleam.text import check, file_and_broken_rules, file_from_text, text_from_file

Q = 10
NUMBERS = (0, 1, 2, Q - 1, Q, Q + 1, 255, 256, 65_535, 65_536, 100_000, 100_001, 16_777_215)
BLOCKED_AT = slice(24 + 5, 24 + 8)  # of the first position row, from the first series row on
ON_WRITTEN, ABOVE_Q = 'blocked is 0 on a written row', 'blocked is at most Q'
EXAMPLE = Margin((Pair(0, 1, 4, 0), Pair(0, 3, 3, 1_500)),
                     (Left(0, 3, 7_500), Left(1, 2, 0), Left(2, 5, 0), Left(3, 1, 0)), 400, 9_400)


def with_blocked(data, blocked):
    """The file with so many contracts blocked in each row."""
    account = account_of(data)
    rows = [{**row, 'blocked': number} for row, number in zip(account.positions, blocked, strict=True)]
    return file_of(account._replace(positions=rows))


def blocked_by_chance(data, chance):
    """Of each row a number that may be blocked."""
    return [0 if row['side'] else chance.choice((0, 1, row['Q'] - 1, row['Q'], chance.randint(0, row['Q'])))
            for row in account_of(data).positions]


def without_the_blocked(data):
    """The account in which held rows have their other contracts alone; one that has none may not be paired."""
    account, rows = account_of(data), []
    for row in account.positions:
        usable = row['Q'] - row['blocked']
        rows.append({**row, 'blocked': 0, **({'Q': usable} if usable else {'european': 0, 'before-annex': 0})})
    return file_of(account._replace(positions=rows))


def many_lines(positions):
    """An account of so many positions, with twice as many lines less one: a pair to a held row, and each row left."""
    return file_with(f'written Q={positions} PE=3100 european\n' + ''.join(
        f'held Q=2 PE={3100 + row} blocked=1 european\n' for row in range(1, positions)))


class Text(unittest.TestCase):
    def test_word(self):
        self.assertEqual(row_with('held Q=10 PE=2 blocked=3')['blocked'], 3)
        self.assertEqual(row_with('held Q=10 PE=2')['blocked'], 0)
        self.assertEqual(file_with('held Q=100000 PE=2 blocked=66051')[BLOCKED_AT], b'\x03\x02\x01')

    def test_there_and_back(self):
        for first, number in itertools.product(('held', 'written', 'position side=3'), NUMBERS):
            data = file_with(f'{first} Q={Q} PE=3100 blocked={number} european')
            self.assertEqual(int.from_bytes(data[BLOCKED_AT], 'little'), number)
            text = text_from_file(data)
            self.assertEqual(file_from_text(text), data)
            (row,) = [line.split() for line in text.decode().splitlines() if line.startswith(first)]
            self.assertEqual([word for word in row if word.startswith('blocked')],
                             [f'blocked={number}'] if number else [])

    def test_place_in_the_line(self):
        data = file_with('held blocked=1 european premium=2 PE=3100 Q=4')
        self.assertIn('\nheld series=0 Q=4 PE=3100 premium=2 blocked=1 european  ', text_from_file(data).decode())

    def test_faults_of_the_word(self):
        for word, sentence in (('blocked=16777216', '16777216 does not fit the field, which holds 0 to 16777215'),
                               ('blocked=-1', '-1 is not a whole number'),
                               ('blocked=01ff0x', '01ff0x is not a whole number'),
                               ('blocked', 'needs a value, written blocked=... without spaces'),
                               ('blocked=1 blocked=1', 'given twice')):
            self.check_unreadable(f'held Q=10 PE=2 {word}', f'line 2, field blocked: {sentence}')

    def test_spare_is_no_word_of_a_position(self):
        for word in ('spare=000000', 'spare=01ff00', 'spare=', 'spare'):
            self.check_unreadable(f'held Q=10 PE=2 {word}',
                                  'line 2, field spare: no word of a position line any more: bytes 5 to 7 of its row '
                                  'are the number of contracts blocked, written blocked=...')

    def check_unreadable(self, words, sentence):
        with self.assertRaises(Unreadable) as raised:
            file_with(words)
        self.assertEqual([str(fault) for fault in raised.exception.faults], [sentence])


class Refusals(unittest.TestCase):
    def check(self, words, refusal, *sentences):
        """The refusal of a row, or None, by every call; that of its first fault; and the sentences of its text."""
        data, faults = file_and_broken_rules((SERIES_TEXT + words).encode())
        answer = serpentgleam.margin_or_refusal(data)
        self.assertEqual(answer if isinstance(answer, Refusal) else None, refusal)
        self.assertEqual([fault.sentence for fault in faults], list(sentences))
        self.assertEqual([fault.sentence for fault in check(data, False)], list(sentences))
        if refusal:
            self.assertEqual((faults[0].refusal, faults[0].row), refusal)
            self.assertRaises(Refused, serpentgleam.position_amount, data, 0)
            self.assertEqual({serpentgleam.pair_or_refusal(data, (), 8),
                              serpentgleam.amount_so_far_or_refusal(data, ()),
                              serpentgleam.take_apart_or_refusal(data, (), 0),
                              serpentgleam.day_or_refusal(data, 0, 3000, 3000, 3000)}, {refusal})
            self.assertIn(f'\n#   refusal {refusal.number}: {sentences[0]}\n', text_from_file(data).decode())

    def test_numbers(self):
        for number in NUMBERS:
            self.check(f'held Q={Q} PE=3100 blocked={number}', *[Refusal(8, 0), ABOVE_Q] if number > Q else [None])
            self.check(f'written Q={Q} PE=3100 blocked={number}', *[Refusal(7, 0), ON_WRITTEN] if number else [None])
        self.check('held Q=100000 PE=3100 blocked=100000', None)
        self.check('held Q=100000 PE=3100 blocked=100001', Refusal(8, 0), ABOVE_Q)

    def test_each_byte_on_a_written_row(self):
        for number in (1, 128, 1 << 8, 1 << 15, 1 << 16, 1 << 23):
            self.check(f'written Q=100000 PE=3100 blocked={number}', Refusal(7, 0), ON_WRITTEN)

    def test_7_before_8_before_9(self):
        self.check('written Q=0 PE=3100 blocked=1', Refusal(7, 0), ON_WRITTEN, 'Q is 1 to 100000')
        self.check('held Q=1 PE=3100 blocked=2 other-flags=32', Refusal(7, 0), 'other-flags is 0', ABOVE_Q)
        self.check('held Q=1 PE=3100 PB=3100 blocked=2', Refusal(8, 0), ABOVE_Q,
                   'PB of a call is above PE and at most 10000000')
        self.check('held Q=0 PE=3100 blocked=1', Refusal(8, 0), 'Q is 1 to 100000', ABOVE_Q)

    def test_rows_are_counted(self):
        rows = 'held Q=1 PE=3100 blocked=1 european\n' * 3
        for last, number in (('held Q=1 PE=3100 blocked=2', 8), ('written Q=1 PE=3100 blocked=1', 7)):
            self.assertEqual(serpentgleam.margin_or_refusal(file_with(rows + last)), Refusal(number, 3))


class Margins(unittest.TestCase):
    def test_example(self):
        data = bytes_of(BLOCKED)
        self.assertEqual(serpentgleam.margin(data), EXAMPLE)
        self.assertEqual([serpentgleam.position_amount(data, row) for row in range(4)], [25_000, 0, 0, 400])
        self.assertEqual(serpentgleam.margin(with_blocked(data, [0] * 4)), Margin(
            (Pair(0, 1, 6, 0), Pair(0, 2, 4, 200)), (Left(2, 1, 0), Left(3, 4, 0)), 400, 600))

    def test_every_number(self):
        """A held row that is the same as the written one: so many contracts pair as are not blocked."""
        for blocked in range(Q + 1):
            data = file_with(f'written Q=7 PE=3100 european\nheld Q={Q} PE=3100 premium=3 blocked={blocked} european\n')
            paired = min(7, Q - blocked)
            left = [Left(0, 7 - paired, (7 - paired) * 2_500)] * (paired < 7) + [Left(1, Q - paired, 0)]
            self.assertEqual(serpentgleam.margin(data), Margin(
                (Pair(0, 1, paired, 0),) * (paired > 0), tuple(left), 150, (7 - paired) * 2_500 + 150))
            self.assertEqual(serpentgleam.position_amount(data, 1), 150)

    def test_against_accounts_without_the_blocked(self):
        """The pairs are those of the other contracts alone; each row's contracts add up; premiums are those of Q."""
        chance, passed_over = random.Random(9), 0
        for data in ACCEPTED:
            changed = with_blocked(data, blocked_by_chance(data, chance))
            answer, other = serpentgleam.margin(changed), serpentgleam.margin(without_the_blocked(changed))
            amounts = {left.row: left.amount for left in other.left}
            rows = [(number, row['Q'] - sum(pair.contracts for pair in answer.pairs if number in pair[:2]))
                    for number, row in enumerate(account_of(changed).positions)]
            self.assertEqual(answer.pairs, other.pairs)
            self.assertEqual(answer.left, tuple(Left(row, left, amounts.get(row, 0)) for row, left in rows if left))
            self.assertEqual(answer.premium, serpentgleam.margin(data).premium)
            passed_over += answer.pairs != serpentgleam.margin(with_blocked(data, [0] * len(rows))).pairs
        self.assertGreater(passed_over, 300)

    def test_many_lines(self):
        for positions in (1, 2, 8, 128, 129, 256):
            answer = serpentgleam.margin(many_lines(positions))
            self.assertEqual((len(answer.pairs), len(answer.left)), (positions - 1, positions))


class Lists(unittest.TestCase):
    def margin(self, data, lent):
        """Refusal, row, lines and total."""
        result = library.calls().margin(data, len(data), lent.address, lent.room)
        return tuple(getattr(result, name) for name, _ in library.Result._fields_)

    def test_one_entry_too_few(self):
        """12 is given below twice the positions, however many lines there are, and every entry keeps its content."""
        one_line_each = file_with('held Q=1 PE=3100\n' * 8)
        for data in (many_lines(1), many_lines(2), bytes_of(BLOCKED), one_line_each, many_lines(256)):
            pairs, positions = serpentgleam.margin(data).pairs, len(account_of(data).positions)
            for room in (0, 1, positions, 2 * positions - 1):
                lent = Lent(lines_of(pairs[:room]), room)
                before = lent.numbers.tobytes()
                self.assertEqual(self.margin(data, lent), (*TOO_SHORT, 0, 0))
                for count in (0, 1, len(pairs), 2 ** 64 - 1):
                    answers = {lent.pair(data, count, 8), lent.amount(data, count), lent.take_apart(data, count, 0)}
                    self.assertEqual(answers, {(*TOO_SHORT, 0)})
                self.assertEqual(lent.numbers.tobytes(), before)

    def test_twice_the_positions(self):
        for data in (many_lines(1), many_lines(8), bytes_of(BLOCKED), many_lines(256)):
            answer, positions = serpentgleam.margin(data), len(account_of(data).positions)
            lines = len(answer.pairs) + len(answer.left)
            lent = Lent([], 2 * positions)
            self.assertEqual(self.margin(data, lent), (0, 0, lines, answer.total))
            self.assertEqual(set(lent.numbers[lines * library.LINE_NUMBERS:]), {MARK})
            self.assertEqual(lent.amount(data, len(answer.pairs)), (0, 0, answer.total))
            self.assertEqual(lent.amount(data, lines), (*NOT_FIRST, 0))

    def test_instalments_and_taking_apart(self):
        data = bytes_of(BLOCKED)
        lent, lines = Lent([], 8), array.array('Q', lines_of(EXAMPLE.pairs))
        for ask, count, number, value in ((lent.pair, 0, 1, 1), (lent.pair, 1, 8, 1), (lent.take_apart, 2, 1, 1),
                                          (lent.pair, 1, 1, 1), (lent.pair, 2, 1, 0)):
            self.assertEqual(ask(data, count, number), (0, 0, value))
        self.assertEqual(lent.numbers[:len(lines)], lines)
        self.assertEqual(lent.take_apart(data, 2, 2), (0, 0, 0))
        self.assertEqual(lent.numbers.tolist(), [0] * len(lines) + [MARK] * (len(lent.numbers) - len(lines)))


class Instalments(unittest.TestCase):
    def test_example(self):
        data, pairs = bytes_of(BLOCKED), EXAMPLE.pairs
        self.assertEqual([serpentgleam.amount_so_far(data, pairs[:count]) for count in range(3)],
                         [25_400, 15_400, 9_400])
        self.assertEqual(serpentgleam.pair(data, pairs[:1], 8), pairs[1:])
        self.assertEqual(serpentgleam.take_apart(data, pairs, 1), pairs[:1])

    def test_vectors(self):
        """With contracts blocked by chance: the margin's pairs, amounts after any number of them, and back again."""
        chance, made = random.Random(90), 0
        for data in ACCEPTED[::4]:
            data = with_blocked(data, blocked_by_chance(data, chance))
            answer = serpentgleam.margin(data)
            count = chance.randint(0, len(answer.pairs))
            former = serpentgleam.pair(data, (), count)
            self.assertEqual(former + serpentgleam.pair(data, former, 256), answer.pairs)
            self.assertEqual(serpentgleam.amount_so_far(data, former), amount_after(data, count))
            self.assertEqual(serpentgleam.amount_so_far(data, answer.pairs), answer.total)
            self.assertEqual(serpentgleam.take_apart(data, answer.pairs, len(answer.pairs) - count), former)
            made += len(answer.pairs)
        self.assertGreater(made, 300)

    def test_pairs_of_another_number(self):
        """Pairs that would be right without blocked contracts are refused with 18."""
        data = bytes_of(BLOCKED)
        pairs = serpentgleam.margin(with_blocked(data, [0] * 4)).pairs
        self.assertEqual(serpentgleam.pair_or_refusal(data, pairs[:1], 8), NOT_FIRST)


class Days(unittest.TestCase):
    def test_a_day_keeps_them(self):
        row = 'Q=10 PE=3100 up-and-out=3500 REB=40 european'
        before = file_with(f'written {row}\nheld {row} blocked=4\nheld Q=5 PE=3100 blocked=5')
        after = serpentgleam.day(before, 0, 3500, 2700, 2900)
        self.assertEqual([position['blocked'] for position in account_of(after).positions], [0, 4, 5])
        self.assertEqual([at for at in range(len(before)) if before[at] != after[at]],
                         [0, 24 + 4, 24 + 32 + 4])  # PV, and the flags of the first two rows
        self.assertEqual(serpentgleam.margin(before).pairs, (Pair(0, 1, 6, 0),))
        self.assertEqual(serpentgleam.margin(after), Margin(
            (), (Left(0, 10, 2_000), Left(1, 10, 0), Left(2, 5, 0)), 0, 2_000))
        self.assertEqual(serpentgleam.day(after, 0, 3500, 2700, 2900), after)

    def test_vectors(self):
        chance = random.Random(5)
        for data in ACCEPTED[::4]:
            before = with_blocked(data, blocked_by_chance(data, chance))
            close = account_of(data).series[0]['PV']
            after = serpentgleam.day(before, 0, 10_000_000, 1, close)
            self.assertEqual([row['blocked'] for row in account_of(after).positions],
                             [row['blocked'] for row in account_of(before).positions])
            self.assertIsInstance(serpentgleam.margin(after), Margin)


if __name__ == '__main__':
    unittest.main()
