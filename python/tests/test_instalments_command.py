"""The command `serpentgleam instalments`: what it prints as text, JSON and CSV, its refusals and its messages."""
import json
import os
import unittest

from support import (DOCUMENT, EXAMPLES, INSTALMENTS, WHOLE_REAIS, WRONG_SIDE, bytes_of, command, folder, little_room,
                     long_account, without_positions, written)

import serpentgleam
from serpentgleam import REASONS, Refusal, library

MORE = 'serpentgleam: serpentgleam instalments --help says more\n'
DOCUMENT_AMOUNTS = ((0, 25_300), (1, 17_800), (2, 10_800))
EXAMPLE_AMOUNTS = ((0, 52_515), (8, 34_515), (16, 19_715), (20, 13_515))
HEADER = 'file,pairs,amount,number,row,reason\n'


def text_of(name, amounts):
    """What is printed of these pairs and amounts."""
    return ''.join(f'{name}\tpairs {pairs} {amount}\n' for pairs, amount in amounts).encode()


class Printed(unittest.TestCase):
    def test_text(self):
        for path, allowance, amounts in (
                (DOCUMENT, '1', DOCUMENT_AMOUNTS), (DOCUMENT, '2', DOCUMENT_AMOUNTS[::2]),
                (DOCUMENT, '3', DOCUMENT_AMOUNTS[::2]), (DOCUMENT, '0' * 99 + '1', DOCUMENT_AMOUNTS),
                (DOCUMENT, str(2 ** 64 - 1), DOCUMENT_AMOUNTS[::2]), (DOCUMENT, '9' * 6000, DOCUMENT_AMOUNTS[::2]),
                (INSTALMENTS, '8', EXAMPLE_AMOUNTS), (WHOLE_REAIS, '8', ((0, 107), (1, 207)))):
            self.assertEqual(command('instalments', path, allowance), (0, text_of(path, amounts), ''))

    def test_the_last_amount_is_the_total(self):
        for path in EXAMPLES:
            answer = serpentgleam.margin_or_refusal(bytes_of(path))
            if not isinstance(answer, Refusal):
                for allowance in ('1', '3'):
                    lines = command('instalments', path, allowance)[1].splitlines(keepends=True)
                    self.assertEqual(lines[-1], text_of(path, [(len(answer.pairs), answer.total)]))
                    self.assertEqual(len(lines), 1 + -(-len(answer.pairs) // int(allowance)))

    def test_command_and_module(self):
        """Both give the same amounts."""
        path = written(os.path.join(folder(self), 'long.account'), long_account())
        pairs = serpentgleam.margin(long_account()).pairs
        counts = [*range(0, len(pairs), 7), len(pairs)]
        amounts = [(count, serpentgleam.amount_so_far(long_account(), pairs[:count])) for count in counts]
        self.assertEqual(command('instalments', path, '7'), (0, text_of(path, amounts), ''))

    def test_json(self):
        status, output, errors = command('instalments', '--json', DOCUMENT, '1')
        self.assertEqual((status, output.count(b'\n'), errors), (0, 1, ''))
        self.assertEqual(json.loads(output), {'file': DOCUMENT, 'instalments': [
            {'pairs': pairs, 'amount': amount} for pairs, amount in DOCUMENT_AMOUNTS]})

    def test_csv(self):
        rows = ''.join(f'{DOCUMENT},{pairs},{amount},,,\n' for pairs, amount in DOCUMENT_AMOUNTS)
        self.assertEqual(command('instalments', '--csv', DOCUMENT, '1'), (0, (HEADER + rows).encode(), ''))

    def test_no_positions(self):
        for data in without_positions():
            self.assertEqual(command('instalments', '-', '8', data=data), (0, b'-\tpairs 0 0\n', ''))

    def test_standard_input(self):
        self.assertEqual(command('instalments', '-', '1', data=bytes_of(DOCUMENT)),
                         (0, text_of('-', DOCUMENT_AMOUNTS), ''))

    def test_output_file(self):
        place = folder(self)
        out = written(os.path.join(place, '8'), b'before')  # its name is also the allowance, which is no file
        self.assertEqual(command('instalments', INSTALMENTS, '8', '-o', '8', cwd=place), (0, b'', ''))
        self.assertEqual(bytes_of(out), text_of(INSTALMENTS, EXAMPLE_AMOUNTS))

    def test_odd_names(self):
        place = os.fsencode(folder(self))
        name = written(os.path.join(place, b'a\te\xe7'), bytes_of(WHOLE_REAIS))
        self.assertEqual(command('instalments', b'a\te\xe7', '1', cwd=place),
                         (0, b'a\\te\xe7\tpairs 0 107\na\\te\xe7\tpairs 1 207\n', ''))
        self.assertEqual(json.loads(command('instalments', '--json', name, '1')[1])['file_hex'], name.hex())


class Refusals(unittest.TestCase):
    def test_text(self):
        for path, number, row in ((WRONG_SIDE, 11, 2), ('/dev/null', 1, 0)):
            self.assertEqual(command('instalments', path, '8'),
                             (1, f'{path}\trefused {number} {row}\t{REASONS[number]}\n'.encode(), ''))

    def test_json_and_csv(self):
        status, output, errors = command('instalments', '--json', WRONG_SIDE, '8')
        self.assertEqual((status, json.loads(output), errors), (1, {
            'file': WRONG_SIDE, 'refused': {'number': 11, 'row': 2, 'reason': REASONS[11]}}, ''))
        self.assertEqual(command('instalments', '--csv', WRONG_SIDE, '8'),
                         (1, f'{HEADER}{WRONG_SIDE},,,11,2,{REASONS[11]}\n'.encode(), ''))


class Words(unittest.TestCase):
    def test_words(self):
        many, whole = 'instalments takes a file and an allowance', 'an allowance is a whole number from 1 on: '
        for words, sentence in (([], many), ([DOCUMENT], many), ([DOCUMENT, '1', '2'], many),
                                ([DOCUMENT, '0'], whole + '0'), ([DOCUMENT, '000'], whole + '000'),
                                ([DOCUMENT, 'x'], whole + 'x'), ([DOCUMENT, '1.0'], whole + '1.0'),
                                ([DOCUMENT, ''], whole), ([DOCUMENT, '٣'], whole + '٣'),
                                ([DOCUMENT, b'\xe7'], whole + '\\xe7'), (['--', DOCUMENT, '-1'], whole + '-1'),
                                (['none', '0'], whole + '0'), ([DOCUMENT, '-1'], 'there is no option -1'),
                                (['-q', DOCUMENT, '1'], 'there is no option -q'),
                                (['--json', '--csv', DOCUMENT, '1'], 'the output is JSON or CSV, and not both'),
                                ([DOCUMENT, '1', '-o', DOCUMENT], f'{DOCUMENT} is read, and cannot be the output too')):
            self.assertEqual(command('instalments', *words), (2, b'', f'serpentgleam: {sentence}\n{MORE}'))

    def test_file_that_is_not_there(self):
        self.assertEqual(command('instalments', 'none', '1'),
                         (2, b'', 'serpentgleam: none: No such file or directory\n'))

    def test_full_disk(self):
        path = written(os.path.join(folder(self), 'long.account'), long_account())
        place = folder(self)
        out = os.path.join(place, 'out')
        self.assertEqual(command('instalments', path, '1', '-o', out, preexec_fn=little_room),
                         (2, b'', f'serpentgleam: {out}: File too large; the file is not written\n'))
        self.assertEqual(os.listdir(place), [])

    def test_library_that_is_not_there_or_of_an_earlier_version(self):
        for shared, said in (('/x', r'the shared object of the library is not found \(/x: not there\)'),
                             ('libc.so.6', 'the shared object is not that of the library, or of an earlier version: ')):
            status, output, errors = command('instalments', '--csv', DOCUMENT, '1',
                                             env={**os.environ, library.VARIABLE: shared})
            self.assertEqual((status, output), (2, b''))
            self.assertRegex(errors, r'\Aserpentgleam: ' + said)


if __name__ == '__main__':
    unittest.main()
