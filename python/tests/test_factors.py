"""Factors from the days: the library's call, the module and the command against the reference's list of all of them."""
import concurrent.futures
import json
import os
import pickle
import unittest

from support import DOCUMENT, bytes_of, command, earlier_library, file_with, folder, written

import serpentgleam
from serpentgleam import CODES, Factors, NotFound, Refusal, Refused, library
from serpentgleam.layout import Account, account_of, file_of

MOST_DAYS = 1800
REFUSAL = Refusal(14, 0)
REASON = 'there are no factors of the code and days asked for: code not 0 to 3, or days above 1,800'
TOO_LARGE = (MOST_DAYS + 1, 2 ** 32, 2 ** 63, 2 ** 64 - 1, 2 ** 64, 2 ** 64 + 720, 10 ** 30)  # for a code and for days
NO_CODE = 'there is no code {}; the codes are FCI, FPI, OFC and OFV, or 0 to 3'


def answer_of(words):
    """What a line of the list has after the code and the days."""
    return Refusal(*map(int, words[1:])) if words[0] == 'refused' else Factors(*map(int, words))


def listed():
    """The answer for each code and number of days of the reference's list, which the program factors_list prints too."""
    lines = [line.split() for line in bytes_of('crates', 'factors_list', 'stdout').decode().splitlines()]
    return {(int(code), int(days)): answer_of(words) for code, days, *words in lines}


LIST = listed()
GIVEN = {(code, days): LIST[code, days] for code in CODES.values() for days in range(MOST_DAYS + 1)}


class AllPairs(unittest.TestCase):
    def test_the_list(self):
        self.assertEqual(len(GIVEN), 4 * 1801)
        self.assertTrue(all(isinstance(answer, Factors) for answer in GIVEN.values()))
        self.assertEqual({answer for asked, answer in LIST.items() if asked not in GIVEN}, {REFUSAL})

    def test_module(self):
        for (code, days), answer in LIST.items():
            self.assertEqual(serpentgleam.factors_or_refusal(code, days), answer, (code, days))

    def test_threads(self):
        with concurrent.futures.ThreadPoolExecutor(8) as threads:
            together = list(threads.map(lambda asked: serpentgleam.factors_or_refusal(*asked), LIST))
        self.assertEqual(together, list(LIST.values()))

    def test_a_series_row_with_them_is_accepted(self):
        row = account_of(file_with('')).series[0]
        rows = [{**row, **answer._asdict()} for answer in GIVEN.values()]
        for first in range(0, len(rows), 32):
            data = file_of(Account(b'', rows[first:first + 32], []))
            self.assertEqual(serpentgleam.margin(data).total, 0)

    def test_decimals_in_a_text(self):
        self.assertEqual(account_of(file_with('series put PV=3000 fa=1.863083 fb=1.085366 f3=0.05 M=5\n')).series[1],
                         {**account_of(file_with('')).series[0], 'type': 1, 'fa': 1_863_083, 'fb': 1_085_366})


class Values(unittest.TestCase):
    def test_of_the_request(self):
        self.assertEqual(serpentgleam.factors('FCI', 720), Factors(1_863_083, 1_085_366))
        self.assertEqual([serpentgleam.factors(code, 1800).fa for code in CODES],
                         [3_682_641, 4_845_674, 3_101_200, 4_102_929])

    def test_no_days(self):
        """The power is 1 and the root 0: fa is 1 + F4, fb is 1 - F4."""
        self.assertEqual([serpentgleam.factors(code, 0) for code in CODES],
                         [Factors(1_100_000, 900_000)] * 2 + [Factors(1_150_000, 850_000)] * 2)

    def test_the_call(self):
        for code, days, expected in ((0, 720, (0, 0, 1_863_083, 1_085_366)), (3, 1800, (0, 0, 4_102_929, 637_796)),
                                     (3, 1801, (14, 0, 0, 0)), (4, 0, (14, 0, 0, 0)),
                                     (2 ** 64 - 1, 2 ** 64 - 1, (14, 0, 0, 0))):
            result = library.factors_call()(code, days)
            self.assertEqual(tuple(getattr(result, name) for name, _ in library.FactorsResult._fields_), expected)


class Module(unittest.TestCase):
    def test_names_and_numbers(self):
        self.assertEqual(CODES, {'FCI': 0, 'FPI': 1, 'OFC': 2, 'OFV': 3})
        for name, number in CODES.items():
            for code in (name, name.lower(), name.capitalize()):
                self.assertEqual(serpentgleam.factors(code, 90), serpentgleam.factors(number, 90))

    def test_no_such_factors(self):
        for asked in [('FCI', days) for days in TOO_LARGE] + [(code, 720) for code in (4, *TOO_LARGE)]:
            self.assertEqual(serpentgleam.factors_or_refusal(*asked), REFUSAL)
            with self.assertRaises(Refused) as raised:
                serpentgleam.factors(*asked)
            self.assertEqual((raised.exception.refusal, raised.exception.reason), (REFUSAL, REASON))

    def test_names_that_are_not_known(self):
        for name in ('FCX', '', '0', 'FCI ', 'fc\u0131', 'FCI\0', 'F'):
            for call in (serpentgleam.factors, serpentgleam.factors_or_refusal):
                with self.assertRaises(ValueError) as raised:
                    call(name, 720)
                self.assertEqual(str(raised.exception), NO_CODE.format(name))

    def test_what_is_no_number_from_0_on(self):
        for code, days in ((-1, 720), ('FCI', -1), (-2 ** 64, 720), ('FCI', -2 ** 64)):
            self.assertRaisesRegex(ValueError, 'from 0 on: -', serpentgleam.factors, code, days)
        for other in (1.0, None, b'FCI', [1]):
            self.assertRaises(TypeError, serpentgleam.factors, other, 720)
            self.assertRaises(TypeError, serpentgleam.factors, 'FCI', other)
        self.assertRaises(TypeError, serpentgleam.factors, 'FCI', '720')

    def test_truth_values_are_1_and_0_as_for_a_row(self):
        self.assertEqual(serpentgleam.position_amount(bytes_of(DOCUMENT), False), 25_000)
        self.assertEqual(serpentgleam.factors(False, True), serpentgleam.factors(0, 1))

    def test_between_processes(self):
        for answer in (serpentgleam.factors('OFC', 30), serpentgleam.factors_or_refusal('OFC', 1801)):
            self.assertEqual(pickle.loads(pickle.dumps(answer)), answer)


class EarlierLibrary(unittest.TestCase):
    """A library before version 0.3.0, which has no call for factors."""

    def test_it_has_margins_and_no_factors(self):
        earlier_library(self, 'factors')
        self.assertEqual(serpentgleam.margin(bytes_of(DOCUMENT)).total, 10_800)
        self.assertRaisesRegex(NotFound, 'of an earlier version: undefined symbol: serpentgleam_factors',
                               serpentgleam.factors, 'FCI', 720)


class Command(unittest.TestCase):
    def test_text(self):
        for words in (['FCI', '720'], ['fci', '0720'], ['0', '720'], ['000', '720']):
            self.assertEqual(command('factors', *words), (0, b'1863083 1085366\n', ''))
        for code, number in CODES.items():
            for days in (0, 90, 1800):
                answer = LIST[number, days]
                self.assertEqual(command('factors', code, str(days)), (0, f'{answer.fa} {answer.fb}\n'.encode(), ''))

    def test_refused(self):
        for words in [['FCI', str(days)] for days in TOO_LARGE] + [[str(code), '720'] for code in (4, *TOO_LARGE)] + [
                ['FCI', '9' * 6000], ['9' * 6000, '720']]:
            self.assertEqual(command('factors', *words), (1, b'refused 14 0\n', f'serpentgleam: {REASON}\n'))

    def test_json(self):
        refused = {'number': 14, 'row': 0, 'reason': REASON}
        for words, status, expected in (
                (['ofv', '1800'], 0, {'code': 'OFV', 'days': 1800, 'fa': 4_102_929, 'fb': 637_796}),
                (['3', '1801'], 1, {'code': 'OFV', 'days': 1801, 'refused': refused}),
                (['4', '0'], 1, {'code': 4, 'days': 0, 'refused': refused}),
                (['4', str(2 ** 64 - 1)], 1, {'code': 4, 'days': 2 ** 64 - 1, 'refused': refused}),
                (['9' * 30, '0'], 1, {'code': 2 ** 64, 'days': 0, 'refused': refused})):
            found, output, errors = command('factors', '--json', *words)
            self.assertEqual((found, json.loads(output), errors), (status, expected, ''))
            self.assertEqual((list(json.loads(output)), output.count(b'\n')), (list(expected), 1))

    def test_csv(self):
        header = 'code,days,fa,fb,number,row,reason\n'
        for words, status, row in ((['FCI', '720'], 0, 'FCI,720,1863083,1085366,,,'),
                                   (['FCI', '1801'], 1, f'FCI,1801,,,14,0,"{REASON}"'),
                                   (['4', '720'], 1, f'4,720,,,14,0,"{REASON}"')):
            self.assertEqual(command('factors', '--csv', *words), (status, f'{header}{row}\n'.encode(), ''))

    def test_output_file(self):
        place = folder(self)
        out = written(os.path.join(place, '720'), b'before')  # its name is also the number of days, which is no file
        self.assertEqual(command('factors', 'FCI', '720', '-o', '720', cwd=place), (0, b'', ''))
        self.assertEqual(bytes_of(out), b'1863083 1085366\n')
        self.assertEqual(command('factors', 'FCI', '1801', '-o', out), (1, b'', f'serpentgleam: {REASON}\n'))
        self.assertEqual(bytes_of(out), b'refused 14 0\n')

    def test_words(self):
        many = 'factors takes a code and a number of days'
        for words, sentence in (([], many), (['FCI'], many), (['FCI', '7', '8'], many),
                                (['FCX', '720'], NO_CODE.format('FCX')), (['', '720'], NO_CODE.format('')),
                                ([b'\xe7', '720'], NO_CODE.format('\\xe7')), (['--', '-1', '0'], NO_CODE.format('-1')),
                                (['FCI', 'x'], 'days are a whole number from 0 on: x'),
                                (['FCI', '1.0'], 'days are a whole number from 0 on: 1.0'),
                                (['FCI', '٣'], 'days are a whole number from 0 on: ٣'),
                                (['--', 'FCI', '-1'], 'days are a whole number from 0 on: -1'),
                                (['FCI', '-1'], 'there is no option -1'),
                                (['-q', 'FCI', '1'], 'there is no option -q'),
                                (['--json', '--csv', 'FCI', '1'], 'the output is JSON or CSV, and not both')):
            self.assertEqual(command('factors', *words), (2, b'', f'serpentgleam: {sentence}\n'
                                                                  'serpentgleam: serpentgleam factors --help says more\n'))

    def test_library_that_is_not_there(self):
        status, output, errors = command('factors', '--csv', 'FCI', '1', env={**os.environ, library.VARIABLE: '/x'})
        self.assertEqual((status, output), (2, b''))
        self.assertRegex(errors, r'\Aserpentgleam: the shared object of the library is not found \(/x: not there\)')


if __name__ == '__main__':
    unittest.main()
