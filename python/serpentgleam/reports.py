"""Answers as text, as JSON Lines and as CSV. Each gives bytes; names of files are as in sys.argv."""
import csv
import io
import json
import os
from typing import NamedTuple, Union

from .answers import Margin, Refusal
from .faults import Fault

ESCAPES = str.maketrans({'\\': '\\\\', '\t': '\\t', '\n': '\\n', '\r': '\\r'})
ANSWER_FIELDS = ('file', 'kind', 'written', 'held', 'row', 'contracts', 'amount', 'number', 'reason')
FAULT_FIELDS = ('file', *Fault._fields)
FACTOR_FIELDS = ('code', 'days', 'fa', 'fb', 'number', 'row', 'reason')
INSTALMENT_FIELDS = ('file', 'pairs', 'amount', 'number', 'row', 'reason')


class Amount(NamedTuple):
    """One position's amount."""
    row: int
    amount: int


class Asked(NamedTuple):
    """What factors are asked for: a code, by its name where it has one, and days."""
    code: Union[str, int]
    days: int


class SoFar(NamedTuple):
    """How many pairs of an account are made, and its amount after them."""
    pairs: int
    amount: int


def line_records(margin):
    """The lines of a margin, each by the names of its fields in the order of the printed line."""
    return ([{'kind': 'pair', **pair._asdict()} for pair in margin.pairs]
            + [{'kind': 'left', **left._asdict()} for left in margin.left])


def refusal_record(refusal):
    """A refusal by the names of its fields."""
    return {'number': refusal.number, 'row': refusal.row, 'reason': refusal.reason}


def records(answer):
    """All that is printed of an answer, each line by the names of its fields in the order of the line."""
    if isinstance(answer, Refusal):
        return [{'kind': 'refused', **refusal_record(answer)}]
    if isinstance(answer, Amount):
        return [{'kind': 'amount', **answer._asdict()}]
    return line_records(answer) + [{'kind': 'premium', 'amount': answer.premium},
                                   {'kind': 'total', 'amount': answer.total}]


class PlainText:
    """A line for each line of the answer, after the file's name and a tab; the sentence of a refusal after another."""
    answer_header = fault_header = factor_header = instalment_header = b''

    def answer(self, name, answer):
        """The lines of a file's answer."""
        return self.lines(name, records(answer))

    def instalments(self, name, answer):
        """A line for each number of pairs and the amount after them, or the refusal."""
        if isinstance(answer, Refusal):
            return self.answer(name, answer)
        return self.lines(name, [{'kind': 'pairs', **so_far._asdict()} for so_far in answer])

    def lines(self, name, answers):
        """The lines of these records."""
        before = os.fsencode(name.translate(ESCAPES)) + b'\t'
        return b''.join(before + self.line(record).encode() for record in answers)

    def line(self, record):
        """A line as the program margin prints it."""
        reason = '\t' + record.pop('reason') if 'reason' in record else ''
        return ' '.join(map(str, record.values())) + reason + '\n'

    def faults(self, name, faults):
        """A line for each fault."""
        before = os.fsencode(name.translate(ESCAPES)) + b': '
        return b''.join(before + legible(str(fault)).encode() + b'\n' for fault in faults)

    def factors(self, _asked, answer):
        """The two factors alone, or the refusal without its sentence."""
        numbers = ('refused', *answer) if isinstance(answer, Refusal) else answer
        return ' '.join(map(str, numbers)).encode() + b'\n'


class JsonLines:
    """An object for each file. In a name, bytes that are not UTF-8 are \\xNN, and file_hex has all its bytes then."""
    answer_header = fault_header = factor_header = instalment_header = b''

    def object(self, name, fields):
        """A line with the file's name and the fields."""
        encoded = os.fsencode(name)
        try:
            names = {'file': encoded.decode('utf-8')}
        except UnicodeDecodeError:
            names = {'file': encoded.decode('utf-8', 'backslashreplace'), 'file_hex': encoded.hex()}
        return json.dumps({**names, **fields}).encode() + b'\n'

    def answer(self, name, answer):
        if isinstance(answer, Margin):
            return self.object(name, {'lines': line_records(answer), 'premium': answer.premium, 'total': answer.total})
        if isinstance(answer, Refusal):
            return self.object(name, {'refused': refusal_record(answer)})
        return self.object(name, answer._asdict())

    def instalments(self, name, answer):
        if isinstance(answer, Refusal):
            return self.answer(name, answer)
        return self.object(name, {'instalments': [so_far._asdict() for so_far in answer]})

    def faults(self, name, faults):
        return self.object(name, {'faults': [fault._asdict() for fault in faults]})

    def factors(self, asked, answer):
        fields = {'refused': refusal_record(answer)} if isinstance(answer, Refusal) else answer._asdict()
        return json.dumps({**asked._asdict(), **fields}).encode() + b'\n'


class Csv:
    """A row for each line of the answer or each fault, under a row of the fields' names. Files have their own bytes."""
    answer_header = (','.join(ANSWER_FIELDS) + '\n').encode()
    fault_header = (','.join(FAULT_FIELDS) + '\n').encode()
    factor_header = (','.join(FACTOR_FIELDS) + '\n').encode()
    instalment_header = (','.join(INSTALMENT_FIELDS) + '\n').encode()

    def rows(self, fields, name, rows):
        """Rows whose first field is the name."""
        first = os.fsencode(name).decode('utf-8', 'surrogateescape')
        written = io.StringIO()
        csv.writer(written, lineterminator='\n').writerows(
            [first, *(row.get(field) for field in fields[1:])] for row in rows)
        return written.getvalue().encode('utf-8', 'surrogateescape')

    def answer(self, name, answer):
        return self.rows(ANSWER_FIELDS, name, records(answer))

    def instalments(self, name, answer):
        refused = isinstance(answer, Refusal)
        return self.rows(INSTALMENT_FIELDS, name,
                         [refusal_record(answer)] if refused else [so_far._asdict() for so_far in answer])

    def faults(self, name, faults):
        return self.rows(FAULT_FIELDS, name, [fault._asdict() for fault in faults])

    def factors(self, asked, answer):
        fields = refusal_record(answer) if isinstance(answer, Refusal) else answer._asdict()
        return self.rows(FACTOR_FIELDS, str(asked.code), [{'days': asked.days, **fields}])


def legible(text):
    """The text with what a screen would not show written as its number."""
    return ''.join(character if character.isprintable() else f'\\u{ord(character):04x}' for character in text)
