"""The command: what it prints, its status, and its messages."""
import json
import os
import pty
import subprocess
import time
import unittest

from support import (COMMAND, DOCUMENT, EXAMPLES, LAID_OUT, SERIES_TEXT, TOP, VECTORS, WRONG_SIDE, bytes_of, command,
                     file_with, folder, written)

import serpentgleam
from serpentgleam import text, usage
from serpentgleam.library import VARIABLE
from serpentgleam.progress import FIRST_SHOWN

REASON = serpentgleam.REASONS[11]
ANSWER = ['pair 0 2 3 0', 'pair 0 1 4 3000', 'left 0 3 7500', 'premium 300', 'total 10800']


def named(name, lines):
    return ''.join(f'{name}\t{line}\n' for line in lines).encode()


class Margins(unittest.TestCase):
    def test_text_and_status(self):
        self.assertEqual(command('margin', DOCUMENT),
                         (0, named(DOCUMENT, ANSWER), 'serpentgleam: 1 file: 1 accepted, 0 refused\n'))
        self.assertEqual(command('margin', '--quiet', WRONG_SIDE),
                         (1, named(WRONG_SIDE, ['refused 11 2\t' + REASON]), ''))
        status, output, errors = command('margin', WRONG_SIDE, 'none.account', DOCUMENT)
        self.assertEqual((status, output),
                         (2, named(WRONG_SIDE, ['refused 11 2\t' + REASON]) + named(DOCUMENT, ANSWER)))
        self.assertEqual(errors, 'serpentgleam: none.account: No such file or directory\n'
                                 'serpentgleam: 3 files: 1 accepted, 1 refused, 1 not read\n')

    def test_json(self):
        objects = [json.loads(line) for line in command('margin', '--json', DOCUMENT, WRONG_SIDE)[1].splitlines()]
        self.assertEqual(objects, [
            {'file': DOCUMENT, 'lines': [
                {'kind': 'pair', 'written': 0, 'held': 2, 'contracts': 3, 'amount': 0},
                {'kind': 'pair', 'written': 0, 'held': 1, 'contracts': 4, 'amount': 3000},
                {'kind': 'left', 'row': 0, 'contracts': 3, 'amount': 7500}], 'premium': 300, 'total': 10800},
            {'file': WRONG_SIDE, 'refused': {'number': 11, 'row': 2, 'reason': REASON}}])
        self.assertEqual(list(objects[0]), ['file', 'lines', 'premium', 'total'])

    def test_csv(self):
        self.assertEqual(command('margin', '--csv', 'examples/document.account', 'examples/wrong_side.account',
                                 cwd=TOP)[1].decode().split('\n'), [
            'file,kind,written,held,row,contracts,amount,number,reason',
            'examples/document.account,pair,0,2,,3,0,,', 'examples/document.account,pair,0,1,,4,3000,,',
            'examples/document.account,left,,,0,3,7500,,', 'examples/document.account,premium,,,,,300,,',
            'examples/document.account,total,,,,,10800,,',
            f'examples/wrong_side.account,refused,,,2,,,11,{REASON}', ''])

    def test_standard_input(self):
        self.assertEqual(command('margin', '-q', '-', data=bytes_of(DOCUMENT)), (0, named('-', ANSWER), ''))
        self.assertEqual(command('margin', '-q', '-')[1], named('-', ['refused 1 0\t' + serpentgleam.REASONS[1]]))

    def test_names_from_a_list(self):
        names = '\n'.join(['', *EXAMPLES, '', 'none'])
        path = written(os.path.join(folder(self), 'list'), names.encode())
        expected = command('margin', DOCUMENT, *EXAMPLES, 'none')
        self.assertEqual(expected[0], 2)
        self.assertEqual(command('margin', DOCUMENT, '--from', path), expected)
        self.assertEqual(command('margin', '--from=-', DOCUMENT, data=names.encode()), expected)
        self.assertEqual(command('margin', '-0', '--from', '-', DOCUMENT, data=names.replace('\n', '\0').encode()),
                         expected)
        self.assertEqual(command('margin', '--from', '/dev/null'),
                         (0, b'', 'serpentgleam: 0 files: 0 accepted, 0 refused\n'))
        self.assertEqual(command('margin', DOCUMENT, '--from', 'none')[:2], (2, named(DOCUMENT, ANSWER)))

    def test_answers_come_before_the_list_ends(self):
        with subprocess.Popen([*COMMAND, 'margin', '-q', '--from', '-'], stdin=subprocess.PIPE,
                              stdout=subprocess.PIPE) as process:
            for _ in range(3):
                process.stdin.write(DOCUMENT.encode() + b'\n')
                process.stdin.flush()
                self.assertEqual(b''.join(process.stdout.readline() for _ in ANSWER), named(DOCUMENT, ANSWER))

    def test_a_folder(self):
        self.assertEqual(command('margin', '-q', TOP), (2, b'', f'serpentgleam: {TOP}: Is a directory\n'))


class Positions(unittest.TestCase):
    def test_amount(self):
        self.assertEqual(command('position', DOCUMENT, '0'), (0, named(DOCUMENT, ['amount 0 25000']), ''))
        self.assertEqual(command('position', '-', '002', data=bytes_of(DOCUMENT)),
                         (0, named('-', ['amount 2 300']), ''))
        self.assertEqual(json.loads(command('position', DOCUMENT, '2', '--json')[1]),
                         {'file': DOCUMENT, 'row': 2, 'amount': 300})
        self.assertEqual(command('position', '--csv', DOCUMENT, '2')[1].decode().split('\n')[1:],
                         [f'{DOCUMENT},amount,,,2,,300,,', ''])

    def test_refused(self):
        for row in ('3', '18446744073709551616', '9' * 6000):
            self.assertEqual(command('position', DOCUMENT, row),
                             (1, named(DOCUMENT, ['refused 13 0\t' + serpentgleam.REASONS[13]]), ''))
        self.assertEqual(command('position', WRONG_SIDE, '0', '--json')[0], 1)

    def test_words(self):
        for words, sentence in ((['x'], 'position takes a file and a row'),
                                ([DOCUMENT, 'x'], 'a row is a whole number from 0 on: x'),
                                ([DOCUMENT, '٣'], 'a row is a whole number from 0 on: ٣'),
                                (['none', '0'], 'none: No such file or directory')):
            status, output, errors = command('position', *words)
            self.assertEqual((status, output, errors.split('\n')[0]), (2, b'', 'serpentgleam: ' + sentence))


class Checks(unittest.TestCase):
    def check(self, name, data, *sentences):
        path = written(os.path.join(folder(self), name), data)
        status, output, _ = command('check', path)
        self.assertEqual(output.decode(), ''.join(f'{path}: {sentence}\n' for sentence in sentences))
        self.assertEqual(status, 1 if sentences else 0)

    def test_examples(self):
        texts = [name.replace('.account', '.txt') for name in EXAMPLES]
        status, output, errors = command('check', *EXAMPLES, *texts)
        self.assertEqual((status, errors), (1, 'serpentgleam: 26 files: 24 in order, 2 with faults\n'))
        self.assertEqual(output.decode().split('\n'), [
            f'{WRONG_SIDE}: position row 2, field barrier-price: refusal 11: a down barrier is below PV, unless '
            'knocked-in or knocked-out',
            f'{WRONG_SIDE.replace(".account", ".txt")}: line 10, position row 2, field barrier-price: refusal 11: '
            'a down barrier is below PV, unless knocked-in or knocked-out', ''])

    def test_every_fault_of_a_text(self):
        faulty = SERIES_TEXT + '\nheld Q=0 PE=3100 premium=3\nwritten Q=1 PE=1 series=4 PB=2 REB=3\n'
        faults = ('position row 0, field Q: refusal 8: Q is 1 to 100000',
                  'position row 1, field series: refusal 7: there is no such series row',
                  'position row 1, field REB: refusal 10: REB is 0 without a barrier')
        self.check('x.txt', faulty.encode(), 'line 3, ' + faults[0], 'line 4, ' + faults[1], 'line 4, ' + faults[2])
        self.check('x.account', text.file_from_text(faulty.encode()), *faults)
        self.check('x', b'held Q=x', 'line 1, field Q: x is not a whole number', 'line 1, field series: missing',
                   'line 1, field PE: missing')

    def test_counts(self):
        self.check('x.txt', (SERIES_TEXT * 33).encode() + b'held Q=1 PE=1 series=0\n' * 257,
                   'line 33, field series count: refusal 2: in the trailer the series count is 1 to 32, and here it '
                   'is 33',
                   'line 290, field position count: refusal 2: in the trailer the position count is 0 to 256, and here '
                   'it is 257')
        self.check('x.txt', b'',
                   'field series count: refusal 2: in the trailer the series count is 1 to 32, and here it is 0')
        self.check('x', b'', 'refusal 1: the file has 0 bytes, and an account file has 12 to 65536')
        data = file_with('held Q=1 PE=1')
        self.check('x', data[:-12] + b'\0\0\0\0\0\0\0\0\0\0\0\1',
                   'field series count: refusal 2: in the trailer the series count is 1 to 32, and here it is 0',
                   'field ending: refusal 2: in the trailer the ending is 00000000, and here it is 00000001',
                   'field distance: refusal 4: the distance in the trailer is 0, and its counts make it 12')

    def test_json_and_csv(self):
        (found,) = [json.loads(line) for line in command('check', '--json', WRONG_SIDE)[1].splitlines()]
        self.assertEqual(found, {'file': WRONG_SIDE, 'faults': [{
            'line': None, 'table': 'position', 'row': 2, 'field': 'barrier-price', 'refusal': 11,
            'sentence': 'a down barrier is below PV, unless knocked-in or knocked-out'}]})
        self.assertEqual(command('check', '--csv', WRONG_SIDE)[1].decode().split('\n'), [
            'file,line,table,row,field,refusal,sentence',
            f'{WRONG_SIDE},,position,2,barrier-price,11,"a down barrier is below PV, unless knocked-in or knocked-out"',
            ''])

    def test_the_first_fault_is_the_engine_s_answer(self):
        for data, answer in VECTORS:
            faults = text.check(data, False)
            self.assertEqual(bool(faults), answer.startswith('refused'))
            if faults:
                self.assertEqual(answer, f'refused {faults[0].refusal} {faults[0].row or 0}')
                self.assertIsNotNone(faults[-1].refusal)  # and it is not said again

    def test_an_answer_of_the_engine_that_is_another(self):
        found, text.all_row_faults = text.all_row_faults, lambda account: []
        self.addCleanup(setattr, text, 'all_row_faults', found)
        self.assertEqual([str(fault) for fault in text.check(bytes_of(WRONG_SIDE), False)],
                         [f"the engine's own answer, which decides: refused 11 2: {REASON}"])


class Conversions(unittest.TestCase):
    def test_there_and_back(self):
        for data, _ in LAID_OUT[::100]:
            status, written_text, errors = command('to-text', data=data)
            self.assertEqual((status, errors), (0, ''))
            self.assertEqual(command('to-file', '-', data=written_text)[:2], (0, data))

    def test_faulty_text_gives_no_file(self):
        place = folder(self)
        path = written(os.path.join(place, 'x.txt'), SERIES_TEXT.encode() + b'held Q=1\nheld Q=1 PE=31x0\n')
        self.assertEqual(command('to-file', path, '-o', os.path.join(place, 'x.account')), (
            1, b'', f'serpentgleam: {path}: line 2, field PE: missing\n'
                    f'serpentgleam: {path}: line 3, field PE: 31x0 is not a whole number\n'))
        self.assertEqual(os.listdir(place), ['x.txt'])

    def test_broken_rules_are_warned_of(self):
        status, data, errors = command('to-file', data=SERIES_TEXT.encode() + b'written Q=0 PE=1 premium=2 PB=1\n')
        self.assertEqual((status, data), (0, file_with('written Q=0 PE=1 premium=2 PB=1')))
        self.assertEqual(errors, ''.join(
            f'serpentgleam: warning: standard input: line 2, position row 0, field {sentence}\n' for sentence in (
                'Q: refusal 8: Q is 1 to 100000', 'premium: refusal 8: premium is 0 on a written row',
                'PB: refusal 9: PB of a call is above PE and at most 10000000')))

    def test_trailer(self):
        self.assertEqual(command('to-text', data=b'abc'), (
            1, b'', 'serpentgleam: standard input: refused 1 0: the file has 3 bytes, and an account file has 12 to '
                    '65536\n'))


class Words(unittest.TestCase):
    def check(self, words, sentence, more='serpentgleam --help says more'):
        self.assertEqual(command(*words), (2, b'', f'serpentgleam: {sentence}\nserpentgleam: {more}\n'))

    def test_help_and_version(self):
        self.assertEqual(command('--help'), (0, usage.COMMAND.encode(), ''))
        self.assertEqual(command('--version'), (0, f'serpentgleam {serpentgleam.__version__}\n'.encode(), ''))
        for word, said in (('margin', usage.MARGIN), ('position', usage.POSITION), ('factors', usage.FACTORS),
                           ('day', usage.DAY), ('instalments', usage.INSTALMENTS), ('load', usage.LOAD),
                           ('check', usage.CHECK), ('to-text', usage.TO_TEXT), ('to-file', usage.TO_FILE)):
            self.assertEqual(command(word, '--help'), (0, said.encode(), ''))
            self.assertIn(f'\n  {word} ', usage.COMMAND)

    def test_words_that_are_not_known(self):
        self.check([], 'a command is missing: margin, position, factors, day, instalments, load, check, to-text, '
                       'to-file')
        self.check(['margn'], 'there is no command margn; did you mean margin?')
        self.check(['to_text'], 'there is no command to_text; did you mean to-text?')
        self.check(['factor'], 'there is no command factor; did you mean factors?')
        self.check(['--verison'], 'there is no command --verison; did you mean --version?')
        self.check([b'\xe7'], 'there is no command \\xe7')

    def test_options(self):
        for words, sentence in ((['--jsn', 'x'], 'there is no option --jsn; did you mean --json?'),
                                (['-x', 'x'], 'there is no option -x'),
                                (['--form', 'x'], 'there is no option --form; did you mean --from?'),
                                (['--from'], 'option --from requires argument'),
                                (['--json', '--csv', 'x'], 'the output is JSON or CSV, and not both'),
                                (['-0', 'x'], '--null is about the names in a list, and --from names none'),
                                ([], 'no file is named; - is standard input'),
                                (['-', '--from', '-'], 'standard input can be read once only')):
            self.check(['margin', *words], sentence, 'serpentgleam margin --help says more')
        for words, sentence in ((['a', 'b'], 'one file is read, and here are a, b'),
                                (['--json'], 'there is no option --json')):
            self.check(['to-text', *words], sentence, 'serpentgleam to-text --help says more')

    def test_names_that_begin_with_a_dash(self):
        place = folder(self)
        written(os.path.join(place, '-x'), bytes_of(DOCUMENT))
        self.assertEqual(command('margin', '-q', '--', '-x', cwd=place), (0, named('-x', ANSWER), ''))

    def test_options_after_names(self):
        self.assertEqual(command('margin', DOCUMENT, '-q', DOCUMENT), (0, named(DOCUMENT, ANSWER) * 2, ''))

    def test_library_that_is_not_there(self):
        status, output, errors = command('margin', '--csv', DOCUMENT, env={**os.environ, VARIABLE: '/x'})
        self.assertEqual((status, output), (2, b''))
        self.assertRegex(errors, r'\Aserpentgleam: the shared object of the library is not found \(/x: not there\)')


class Terminal(unittest.TestCase):
    def on_terminal(self, *words):
        """What a call shows where standard error is a terminal; 128 names come on standard input, the last 64 once the
        first are answered and as much time has passed as goes by before counts are shown.
        """
        ours, theirs = pty.openpty()
        names, answers = (DOCUMENT + '\n').encode() * 64, named(DOCUMENT, ANSWER) * 64
        with subprocess.Popen([*COMMAND, *words], stdin=subprocess.PIPE, stdout=subprocess.PIPE,
                              stderr=theirs) as process:
            os.close(theirs)
            process.stdin.write(names)
            process.stdin.flush()
            self.assertEqual(process.stdout.read(len(answers)), answers)
            time.sleep(FIRST_SHOWN)
            process.stdin.write(names)
            process.stdin.close()
            shown = b''
            while True:
                try:
                    shown += os.read(ours, 4096)
                except OSError:  # the other side is closed
                    break
        os.close(ours)
        return shown.decode()

    def test_progress_on_long_runs(self):
        self.assertEqual(self.on_terminal('margin', '--from', '-'), '128 accepted, 0 refused\r\x1b[K'
                         'serpentgleam: 128 files: 128 accepted, 0 refused\r\n')
        self.assertEqual(self.on_terminal('margin', '-q', '--from', '-'), '')

    def test_no_account_file_on_a_screen(self):
        ours, theirs = pty.openpty()
        status, _, errors = command('to-file', DOCUMENT.replace('.account', '.txt'), stdout=theirs)
        os.close(theirs)
        os.close(ours)
        self.assertEqual(status, 2)
        self.assertIn('an account file is not for a screen', errors)


if __name__ == '__main__':
    unittest.main()
