"""The text form: every file comes back byte for byte. What is said of faulty texts is in test_text_faults.py."""
import random
import unittest

from support import EXAMPLES, LAID_OUT, SERIES_TEXT, VECTORS, bytes_of, file_with, row_with

from serpentgleam.faults import first_refusal, trailer_faults
from serpentgleam.layout import POSITION, SERIES, Account, account_of, file_of, unpack
from serpentgleam.lines import LONGEST_TEXT, Unreadable
from serpentgleam.text import EXAMPLE, file_from_text, text_from_file

RAW_WORDS = (' type=', ' side=', ' kind=', ' barrier-price=', ' PB-without-flag=', ' other-flags=', ' spare=')
EDGES = (0, 1, 2, 4, 8, 16, 255, 3000, 65_535, 10_000_000, 10_000_001, 2 ** 32 - 1)


def text_beside(path):
    return bytes_of(path.replace('.account', '.txt'))


def unreadable(data):
    """The one sentence for a file that has no text."""
    try:
        text_from_file(data)
    except Unreadable as error:
        (fault,) = error.faults
        return str(fault)
    raise AssertionError('the file has a text')


def nonzero(row):
    return {name: value for name, value in row.items() if value}


def random_rows(source, table, count):
    """Rows of random bytes, some of their fields at values near the limits."""
    rows = [unpack(table, source.randbytes(table.size)) for _ in range(count)]
    for row in rows:
        for field in source.sample(table.fields, source.randint(0, len(table.fields))):
            row[field.name] = source.choice(EDGES) & field.bits
    return rows


class RoundTrip(unittest.TestCase):
    def check(self, data):
        self.assertEqual(file_from_text(text_from_file(data)), data)

    def test_examples(self):
        self.assertGreater(len(EXAMPLES), 0)
        for path in EXAMPLES:
            with self.subTest(path):
                self.check(bytes_of(path))
                self.assertEqual(file_from_text(text_beside(path)), bytes_of(path))

    def test_vectors(self):
        self.assertEqual(len(VECTORS), 2208)
        for data, _ in LAID_OUT:
            self.check(data)

    def test_vectors_that_cannot_be_laid_out(self):
        for data, answer in VECTORS:
            if trailer_faults(data):
                self.assertRegex(unreadable(data), rf'\A{answer}: [^\n]+\Z')
                self.assertRegex(answer, r'\Arefused [124] 0\Z')

    def test_random_rows(self):
        source = random.Random(81)
        for _ in range(3000):
            series = random_rows(source, SERIES, source.randint(1, 3))
            positions = random_rows(source, POSITION, source.randint(0, 4))
            self.check(file_of(Account(source.randbytes(source.choice((0, 0, 5, 90))), series, positions)))

    def test_random_bytes_in_files(self):
        source = random.Random(2003)
        for data, _ in LAID_OUT:
            if len(data) < 1000:
                changed = bytearray(data)
                for _ in range(source.randint(1, 4)):
                    changed[source.randrange(len(data) - 12)] = source.randrange(256)
                self.check(bytes(changed))

    def test_largest_counts_and_covers(self):
        account = account_of(file_with('written Q=1 PE=1'))
        for cover in (b'', b'\n', b'\xff' * 56_564, 'ação "x" \\ # ü\r\n\tb'.encode() * 2000, bytes(range(256)) * 220):
            self.check(file_of(Account(cover, account.series * 32, account.positions * 256)))

    def test_text_is_stable(self):
        for text in [EXAMPLE.encode()] + [text_beside(path) for path in EXAMPLES]:
            once = text_from_file(file_from_text(text))
            self.assertEqual(text_from_file(file_from_text(once)), once)
        self.assertEqual(len(account_of(file_from_text(EXAMPLE.encode())).positions), 4)


class Comments(unittest.TestCase):
    def test_first_refusal_is_the_answer(self):
        for data, answer in LAID_OUT:
            self.assertEqual(first_refusal(account_of(data)), answer if answer.startswith('refused') else None)

    def test_orderly_accounts_show_nothing_raw(self):
        orderly = [data for data, answer in LAID_OUT if not answer.startswith('refused')]
        for data in orderly[:300]:
            lines = text_from_file(data).decode().split('\n')
            for line in lines[1:]:
                self.assertFalse(line.startswith('#'), line)
                self.assertFalse(not line.startswith('cover') and [word for word in RAW_WORDS if word in line], line)

    def test_faults_stand_under_their_row(self):
        text = text_from_file(file_with('held Q=1 PE=3100\nwritten Q=0 PE=3100 premium=3\n')).decode()
        self.assertIn('\n# By the comments below the answer is: refused 8 1. ', text)
        self.assertEqual(text.split('\n')[-5:], [
            'held series=0 Q=1 PE=3100' + ' ' * 47 + '# position row 0',
            'written series=0 Q=0 PE=3100 premium=3' + ' ' * 34 + '# position row 1',
            '#   refusal 8: Q is 1 to 100000',
            '#   refusal 8: premium is 0 on a written row',
            ''])

    def test_faults_of_a_series(self):
        line = 'series type=7 PV=1 fa=0.999999 fb=1.0 f3=4294.967295 M=1'
        text = text_from_file(file_from_text((line + '\nheld Q=1 PE=1').encode())).decode()
        self.assertEqual(text.split('\n')[2:7], [
            line + ' ' * 16 + '# series row 0', '#   refusal 5: fa is 1.0 to 10.0', '#   refusal 5: f3 is 0.0 to 1.0',
            '#   refusal 5: fb is 0.0 to fa', '#   refusal 6: type is 0 to 1'])


class Form(unittest.TestCase):
    def test_defaults(self):
        self.assertEqual(nonzero(row_with('held Q=1 PE=2')), {'Q': 1, 'PE': 2})

    def test_words_in_any_order(self):
        row = row_with('position before-annex knocked-in premium=6 REB=5 down-and-in=4 PB=7 PE=3 Q=2 series=9 '
                       'european written')
        self.assertEqual(nonzero(row), {
            'series': 9, 'side': 1, 'kind': 2, 'knocked-in': 1, 'limiter': 2, 'european': 4, 'before-annex': 8,
            'Q': 2, 'PE': 3, 'PB': 7, 'barrier-price': 4, 'REB': 5, 'premium': 6})

    def test_limiter_at_zero(self):
        self.assertEqual(nonzero(row_with('held Q=1 PE=2 PB=0')), {'Q': 1, 'PE': 2, 'limiter': 2})

    def test_raw_values(self):
        row = row_with('position side=3 Q=0 PE=0 kind=9 barrier-price=7 PB-without-flag=8 other-flags=160 blocked=9')
        self.assertEqual(nonzero(row), {
            'side': 3, 'kind': 9, 'barrier-price': 7, 'PB': 8, 'other-flags': 160, 'blocked': 9})
        data = file_with('', SERIES_TEXT.replace('M=5', 'M=5 spare=01ff00'))
        self.assertEqual(account_of(data).series[0]['spare'], 0x00ff01)

    def test_factors_are_exact(self):
        for text, millionths in (('0.0', 0), ('1.0', 1_000_000), ('1.2', 1_200_000), ('0.000001', 1),
                                 ('1.100001', 1_100_001), ('4294.967295', 2 ** 32 - 1)):
            line = f'series put PV=1 fa={text} fb=0.1 f3=0.1 M=1'
            data = file_from_text((line + '\nheld Q=1 PE=1').encode())
            self.assertEqual(account_of(data).series[0]['fa'], millionths)
            self.assertIn(line, text_from_file(data).decode())

    def test_comments_empty_lines_line_ends_and_byte_order_mark(self):
        lines = ('# first', '', SERIES_TEXT.strip() + '# no space before', '  ', '\theld  Q=1\tPE=2 # european')
        plain = file_from_text('\n'.join(lines).encode())
        self.assertEqual(file_from_text(b'\xef\xbb\xbf' + '\r\n'.join(lines).encode()), plain)
        self.assertEqual(nonzero(account_of(plain).positions[0]), {'Q': 1, 'PE': 2})

    def test_cover(self):
        data = file_with('cover text="a # \\"b\\" \\\\ \\n" # "c"\ncover hex=00FF\ncover text=""\nheld Q=1 PE=1')
        self.assertEqual(account_of(data).cover, b'a # "b" \\ \n\x00\xff')

    def test_cover_that_cannot_be_printed(self):
        for cover, lines in ((b'l\xed\xe1', 'cover hex=6cede1  # l..\n'),
                             ('aé\n\u202e'.encode(), 'cover text="aé\\n"\ncover hex=e280ae  # ...\n')):
            self.assertIn('\n' + lines + 'series', text_from_file(cover + file_with('held Q=1 PE=1')).decode())

    def test_faulty_counts_can_be_written(self):
        for text, refusal in (('', 2), (SERIES_TEXT * 33, 2), ('held series=0 Q=1 PE=1', 2)):
            self.assertEqual(trailer_faults(file_from_text(text.encode()))[0].refusal, refusal)


class Trailers(unittest.TestCase):
    def test_sentences(self):
        data = file_with('held Q=1 PE=1')
        for faulty, sentence in (
                (b'abc', '1 0: the file has 3 bytes, and an account file has 12 to 65536'),
                (bytes(65_537), '1 0: the file has more than 65536 bytes, and an account file has 12 to 65536'),
                (data[:-12] + b'\0' + data[-11:], '2 0: in the trailer the series count is 1 to 32, and here it is 0'),
                (data[:-1] + b'\1', '2 0: in the trailer the ending is 00000000, and here it is 00000001'),
                (data[:-10] + b'\0' + data[-9:], '4 0: the distance in the trailer is 68, and its counts make it 36'),
                (data[:-8] + b'\1' + data[-7:], '4 0: the distance in the trailer is 1, and its counts make it 68'),
                (data[1:], '4 0: the distance in the trailer is 68, and the file has only 67 bytes')):
            self.assertEqual(unreadable(faulty), f'refused {sentence}')

    def test_the_longest_text_can_be_read(self):
        faulty = {field.name: field.bits for field in POSITION.fields} | {'side': 1, 'kind': 0, 'limiter': 0}
        many_faults = file_of(Account(b'', random_rows(random.Random(1), SERIES, 1), [faulty] * 256))
        for rows in (file_with('held Q=1 PE=1'), many_faults):
            data = b'\n' * (65_536 - len(rows)) + rows
            text = text_from_file(data)
            self.assertGreater(len(text), 1_040_000)
            self.assertLess(len(text), 1_300_000)
            self.assertEqual(file_from_text(text), data)
        self.assertLess(1_300_000, LONGEST_TEXT)
