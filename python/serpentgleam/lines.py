"""The lines of an account's text: from the text to the account, and back."""
from .cover import read_cover, write_cover
from .faults import Fault, first_refusal, position_faults, series_faults
from .layout import MOST_ROWS, Account
from .suggestions import meant
from .words import POSITION_LINE, SERIES_LINE, read_words, write_words

FIRST_WORDS = {'series': SERIES_LINE, 'held': POSITION_LINE, 'written': POSITION_LINE, 'position': POSITION_LINE}
ROW_WIDTH = 70  # after it the comment with the row's number
LONGEST_TEXT = 2_097_152  # bytes; write_account gives fewer than 1,300,000


class Unreadable(Exception):
    """Why a text or a file gives no account, fault by fault."""

    def __init__(self, faults):
        super().__init__(faults)
        self.faults = faults


class Text:
    """A text taken apart by its lines' first words; rows and faults each with the number of their line."""

    def __init__(self, data):
        self.cover, self.faults = bytearray(), []
        self.rows = {line.table.name: [] for line in FIRST_WORDS.values()}
        for number, encoded in enumerate(data.split(b'\n'), 1):
            try:
                self.add(number, encoded.decode('utf-8-sig'))  # without the byte order mark that some editors write
            except UnicodeDecodeError:
                self.faults.append((number, 'text', 'the line is not UTF-8; save the text so'))

    def add(self, number, text):
        words = text.split('#', 1)[0].split()
        if not words:
            return
        if words[0] == 'cover':
            cover, faults = read_cover(text.strip()[len('cover'):])
            self.cover += cover
            self.faults += [(number, *fault) for fault in faults]
        elif words[0] in FIRST_WORDS:
            name = FIRST_WORDS[words[0]].table.name
            self.rows[name].append((number, words[1:] if words[0] == name else words))
        else:
            firsts = ['cover', *FIRST_WORDS]
            self.faults.append((number, words[0], 'a line begins with one of ' + ', '.join(firsts)
                                + meant(words[0], firsts)))

    def line_numbers(self, table):
        """The number of each row's line, for a table by its name."""
        return [number for number, _ in self.rows[table]]

    def read_rows(self, line, defaults):
        """The rows of a table; their faults are added to the text's."""
        lines = self.rows[line.table.name]
        if len(lines) > MOST_ROWS:
            self.faults.append((lines[MOST_ROWS][0], line.table.name, f'more than {MOST_ROWS} rows'))
        rows = []
        for number, words in lines:
            row, faults = read_words(line, words, defaults)
            self.faults += [(number, *fault) for fault in faults]
            rows.append(row)
        return rows


def read_account(data):
    """The account that the bytes of a text describe; raises Unreadable with each fault's line and field."""
    return read_text(data)[0]


def read_text(data):
    """The same, and the text with the lines of its rows."""
    if len(data) > LONGEST_TEXT:
        raise Unreadable([Fault(sentence=f'the text has more than {LONGEST_TEXT} bytes')])
    text = Text(data)
    series = text.read_rows(SERIES_LINE, SERIES_LINE.defaults)
    only_series = {'series': 0} if len(series) == 1 else {}
    positions = text.read_rows(POSITION_LINE, {**POSITION_LINE.defaults, **only_series})
    if text.faults:
        in_order = sorted(text.faults, key=lambda fault: fault[0])
        raise Unreadable([Fault(line=number, field=field, sentence=sentence) for number, field, sentence in in_order])
    return Account(bytes(text.cover), series, positions), text


def write_row(line, row):
    words = write_words(line, row)
    return ' '.join(words if words[0] in FIRST_WORDS else [line.table.name] + words)


def write_table(line, rows, faults_by_row):
    """A line a row with its number, and under it a comment for each of its faults."""
    for number, (row, faults) in enumerate(zip(rows, faults_by_row)):
        yield f'{write_row(line, row):<{ROW_WIDTH}}  # {line.table.name} row {number}'
        for fault in faults:
            yield f'#   refusal {fault.refusal}: {fault.sentence}'


def write_account(account):
    """The lines of the account's text."""
    yield '# Series rows and position rows are each counted from 0, as in an answer such as "refused 8 3".'
    refusal = first_refusal(account)
    if refusal:
        yield f"# By the comments below the answer is: {refusal}. The engine's own answer decides."
    yield from write_cover(account.cover)
    yield from write_table(SERIES_LINE, account.series, series_faults(account))
    yield from write_table(POSITION_LINE, account.positions, position_faults(account))
