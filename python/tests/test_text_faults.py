"""What is said of faulty texts: each fault with its line and field."""
import contextlib
import random
import unittest

from support import SERIES_TEXT, bytes_of

from serpentgleam.lines import LONGEST_TEXT, Unreadable
from serpentgleam.reports import legible
from serpentgleam.text import file_from_text, text_from_file

NO_SUCH_WORD = ('no such word in a position line, which takes held, written, side, series, Q, PE, PB, PB-without-flag, '
                'up-and-in, down-and-in, up-and-out, down-and-out, kind, barrier-price, REB, premium, blocked, '
                'knocked-in, knocked-out, european, before-annex, other-flags')


class Errors(unittest.TestCase):
    def check(self, text, *sentences):
        """These sentences are all that is said of the text."""
        with self.assertRaises(Unreadable) as raised:
            file_from_text(text if isinstance(text, bytes) else text.encode())
        self.assertEqual([legible(str(fault)) for fault in raised.exception.faults], list(sentences))

    def check_position(self, words, *sentences):
        """The same of a position line that follows one call series."""
        self.check(SERIES_TEXT + words, *(f'line 2, {sentence}' for sentence in sentences))

    def test_whole_numbers(self):
        for value in ('31x0', '-1', '3.0', '3,000', '1e3', '0x10', '1_000', '٣', '+3'):
            self.check_position(f'written Q=10 PE={value}', f'field PE: {value} is not a whole number')

    def test_values_that_do_not_fit(self):
        for words, field, value, holds in (
                ('held Q={} PE=1', 'Q', '4294967296', '0 to 4294967295'),
                ('held Q={} PE=1', 'Q', '9' * 5000, '0 to 4294967295'),
                ('held series={} Q=1 PE=1', 'series', '65536', '0 to 65535'),
                ('held Q=1 PE=1 kind={}', 'kind', '256', '0 to 255'),
                ('position side={} Q=1 PE=1', 'side', '256', '0 to 255'),
                ('held Q=1 PE=1 other-flags={}', 'other-flags', '48', '0 to 224 in steps of 32')):
            self.check_position(words.format(value),
                                f'field {field}: {value} does not fit the field, which holds {holds}')

    def test_factors(self):
        for value in ('1200000', '1', '1,2', '1.', '.5', '1.2000000', '1.2e0'):
            self.check(f'series call PV=1 fa={value} fb=0.8 f3=0.05 M=5',
                       f'line 1, field fa: {value} is not a decimal with a point and one to six places, such as 1.2')
        for value in ('4294.967296', '9' * 5000 + '.0'):
            self.check(f'series call PV=1 fa={value} fb=0.8 f3=0.05 M=5',
                       f'line 1, field fa: {value} does not fit the field, which holds 0.0 to 4294.967295')

    def test_hexadecimal(self):
        for value in ('01ff', '01ff0000', '01fg00'):
            self.check(SERIES_TEXT.replace('\n', f' spare={value}'),
                       f'line 1, field spare: {value} is not 3 bytes as 6 hexadecimal digits')
        for value in ('abc', 'xy', ''):
            shown = value or 'an empty value'
            self.check(f'cover hex={value}', f'line 1, field hex: {shown} is not an even number of hexadecimal digits')

    def test_cover(self):
        for field, line in (('cover', 'cover'), ('cover', 'cover "a"'), ('text', 'cover text="a'),
                            ('text', 'cover text=a'), ('text', 'cover text="a"b"'), ('hex', 'cover hex=00 text="a"')):
            self.check(line, f'line 1, field {field}: a cover line is cover text="..." or cover hex=..., '
                             'with \\" for a quote in the text, and nothing but a comment after it')
        self.check(r'cover text="\q"', r'line 1, field text: \q is not one of \n \r \t \" \\')

    def test_words(self):
        self.check(SERIES_TEXT.replace('\n', ' pv=1'), 'line 1, field pv: no such word in a series line, '
                   'which takes call, put, type, PV, fa, fb, f3, M, spare; did you mean PV?')
        self.check('serie call',
                   'line 1, field serie: a line begins with one of cover, series, held, written, position; '
                   'did you mean series?')
        for word, meant in (('europaen', 'european'), ('knocked-ot', 'knocked-out'), ('knockedin', 'knocked-in')):
            self.check_position(f'held Q=1 PE=1 {word}', f'field {word}: {NO_SUCH_WORD}; did you mean {meant}?')
        self.check_position('held Q=1 PE=1 european=1', 'field european: takes no value')
        self.check_position('held Q=1 PE=1 REB', 'field REB: needs a value, written REB=... without spaces')
        self.check_position('held Q=1 PE=', 'field PE: needs a value, written PE=... without spaces')

    def test_twice(self):
        self.check_position('held Q=1 PE=1 Q=1', 'field Q: given twice')
        self.check_position('held Q=1 PE=1 european european', 'field european: given twice')
        self.check_position('held written Q=1 PE=1', 'field written: the line has held already')
        self.check_position('held Q=1 PE=1 up-and-in=9 up-and-out=9',
                            'field up-and-out: the line has up-and-in already')
        self.check_position('held Q=1 PE=1 PB=9 PB-without-flag=9', 'field PB-without-flag: the line has PB already')
        self.check(SERIES_TEXT.replace('\n', ' put'), 'line 1, field put: the line has call already')

    def test_missing(self):
        self.check('series', *(f'line 1, field {name}: missing' for name in ('PV', 'fa', 'fb', 'f3', 'M')),
                   'line 1, field type: missing, given by call, put or type')
        self.check_position('position', 'field side: missing, given by held, written or side',
                            'field Q: missing', 'field PE: missing')
        self.check(SERIES_TEXT * 2 + 'held Q=1 PE=1', 'line 3, field series: missing')
        self.check('held Q=1 PE=1', 'line 1, field series: missing')

    def test_all_faulty_lines_are_named_in_order(self):
        self.check('held Q=1\n' + SERIES_TEXT + 'wrote\nheld PE=x Q=1\n',
                   'line 1, field PE: missing',
                   'line 3, field wrote: a line begins with one of cover, series, held, written, position; '
                   'did you mean written?',
                   'line 4, field PE: x is not a whole number')

    def test_bytes_that_are_not_text(self):
        self.check(SERIES_TEXT.encode() + b'held Q=1 PE=1 # a\xe7\xe3o',
                   'line 2, field text: the line is not UTF-8; save the text so')
        self.check_position('held Q=1\u200b PE=1', 'field Q: 1\\u200b is not a whole number')

    def test_too_many_rows(self):
        self.check(SERIES_TEXT + 'held Q=1 PE=1\n' * 65_536, 'line 65537, field position: more than 65535 rows')

    def test_too_long(self):
        self.check(b'#' * (LONGEST_TEXT + 1), f'the text has more than {LONGEST_TEXT} bytes')

    def test_changed_texts_give_a_file_or_faults(self):
        source = random.Random(5)
        text = text_from_file(bytes_of('examples', 'knock_out.account'))
        for _ in range(1000):
            changed = bytearray(text)
            for _ in range(source.randint(1, 6)):
                changed[source.randrange(len(text))] = source.choice(b' =#"\\\n\xff0x9.')
            with contextlib.suppress(Unreadable):
                file_from_text(bytes(changed))
