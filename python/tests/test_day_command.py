"""The command `serpentgleam day`: its output file, its refusals, which write nothing, and its messages."""
import os
import pty
import subprocess
import unittest

from support import (AFTER_THE_DAY, BEFORE_THE_DAY, COMMAND, DOCUMENT, TOP, WRONG_SIDE, bytes_of, command, folder,
                     little_room, long_account, written)

from serpentgleam import REASONS, day, library

DAY = ('0', '3500', '2700', '2900')  # series, high, low and close of the example
MORE = 'serpentgleam: serpentgleam day --help says more\n'


class Written(unittest.TestCase):
    def setUp(self):
        self.folder = folder(self)
        self.out = os.path.join(self.folder, 'out.account')

    def test_a_new_file(self):
        self.assertEqual(command('day', BEFORE_THE_DAY, *DAY, '-o', self.out), (0, b'', ''))
        self.assertEqual(bytes_of(self.out), bytes_of(AFTER_THE_DAY))
        self.assertEqual(os.listdir(self.folder), ['out.account'])

    def test_in_place_of_another(self):
        written(self.out, b'before')
        os.chmod(self.out, 0o640)
        self.assertEqual(command('day', '--output=' + self.out, BEFORE_THE_DAY, *DAY), (0, b'', ''))
        self.assertEqual((bytes_of(self.out), os.stat(self.out).st_mode & 0o777), (bytes_of(AFTER_THE_DAY), 0o640))

    def test_in_place_of_the_file_that_is_read(self):
        link = os.path.join(self.folder, 'link')
        os.symlink('out.account', link)
        for read, out in ((self.out, self.out), (self.out, os.path.join(self.folder, '.', 'out.account')),
                          (link, self.out), (self.out, link)):
            written(self.out, bytes_of(BEFORE_THE_DAY))
            self.assertEqual(command('day', read, *DAY, '-o', out), (0, b'', ''))
            self.assertEqual(bytes_of(self.out), bytes_of(AFTER_THE_DAY))
            self.assertEqual((sorted(os.listdir(self.folder)), os.path.islink(link)), (['link', 'out.account'], True))

    def test_again(self):
        written(self.out, bytes_of(AFTER_THE_DAY))
        self.assertEqual(command('day', self.out, *DAY, '-o', self.out), (0, b'', ''))
        self.assertEqual(bytes_of(self.out), bytes_of(AFTER_THE_DAY))

    def test_standard_input(self):
        self.assertEqual(command('day', '-', *DAY, '-o', self.out, data=bytes_of(BEFORE_THE_DAY)), (0, b'', ''))
        self.assertEqual(bytes_of(self.out), bytes_of(AFTER_THE_DAY))

    def test_numbers_with_zeros_before_them(self):
        self.assertEqual(command('day', BEFORE_THE_DAY, '00', '03500', '2700', '0' * 99 + '2900', '-o', self.out)[0], 0)
        self.assertEqual(bytes_of(self.out), bytes_of(AFTER_THE_DAY))

    def test_names_that_are_numbers(self):
        written(os.path.join(self.folder, '0'), bytes_of(BEFORE_THE_DAY))
        self.assertEqual(command('day', '0', *DAY, '-o', '2900', cwd=self.folder), (0, b'', ''))
        self.assertEqual(bytes_of(self.folder, '2900'), bytes_of(AFTER_THE_DAY))

    def test_a_name_in_latin_1(self):
        out = os.path.join(os.fsencode(self.folder), b'a\xe7\xe3o')
        self.assertEqual(command('day', BEFORE_THE_DAY, *DAY, '-o', out), (0, b'', ''))
        self.assertEqual(bytes_of(out), bytes_of(AFTER_THE_DAY))

    def test_then_margin(self):
        self.assertEqual(command('day', BEFORE_THE_DAY, *DAY, '-o', self.out)[0], 0)
        self.assertTrue(command('margin', self.out)[1].endswith(b'\ttotal 93300\n'))


class Refused(unittest.TestCase):
    def setUp(self):
        self.folder = folder(self)
        self.out = os.path.join(self.folder, 'out')

    def check(self, words, number, row=0):
        """Refused so, with no file written and with one left as it was."""
        answer = (1, f'refused {number} {row}\n'.encode(), f'serpentgleam: {REASONS[number]}\n')
        self.assertEqual(command('day', *words, '-o', self.out), answer)
        self.assertEqual(os.listdir(self.folder), [])
        written(self.out, b'before')
        self.assertEqual(command('day', *words, '-o', self.out), answer)
        self.assertEqual(bytes_of(self.out), b'before')
        os.unlink(self.out)

    def test_no_such_series(self):
        for series in ('2', str(2 ** 64), '9' * 6000):
            self.check([BEFORE_THE_DAY, series, '0', '0', '0'], 16)

    def test_prices(self):
        for prices in (('2700', '3500', '2900'), ('3500', '2700', '3501'), ('3500', '2700', '2699'),
                       ('3500', '0', '2900'), ('10000001', '2700', '2900'), (str(2 ** 64 + 3500), '2700', '2900'),
                       ('9' * 6000, '9' * 6000, '9' * 6000)):
            self.check([BEFORE_THE_DAY, '0', *prices], 17)

    def test_the_file_first(self):
        self.check([WRONG_SIDE, '9', '0', '0', '0'], 11, 2)
        self.check(['/dev/null', *DAY], 1)

    def test_the_file_that_is_read_stays(self):
        read = written(self.out, bytes_of(BEFORE_THE_DAY))
        self.assertEqual(command('day', read, '0', '1', '2', '3', '-o', read)[0], 1)
        self.assertEqual(bytes_of(read), bytes_of(BEFORE_THE_DAY))


class Unwritten(unittest.TestCase):
    def setUp(self):
        self.folder = folder(self)
        self.out = written(os.path.join(self.folder, 'out'), long_account())

    def test_full_disk(self):
        self.assertEqual(command('day', self.out, '0', '3100', '2900', '3050', '-o', self.out, preexec_fn=little_room),
                         (2, b'', f'serpentgleam: {self.out}: File too large; the file is not written\n'))
        self.assertEqual((os.listdir(self.folder), bytes_of(self.out)), (['out'], long_account()))

    def test_folder_that_is_not_there(self):
        out = os.path.join(self.folder, 'none', 'out')
        self.assertEqual(command('day', BEFORE_THE_DAY, *DAY, '-o', out),
                         (2, b'', f'serpentgleam: {out}: No such file or directory; the file is not written\n'))

    def test_file_that_is_not_there(self):
        self.assertEqual(command('day', 'none', *DAY, '-o', self.out),
                         (2, b'', 'serpentgleam: none: No such file or directory\n'))
        self.assertEqual(bytes_of(self.out), long_account())
        self.assertEqual(command('day', TOP, *DAY, '-o', self.out),
                         (2, b'', f'serpentgleam: {TOP}: Is a directory\n'))

    def test_into_a_pipe(self):
        """An output that is a pipe is written as it is, and nothing is put in its place."""
        pipe = os.path.join(self.folder, 'pipe')
        os.mkfifo(pipe)
        with subprocess.Popen([*COMMAND, 'day', BEFORE_THE_DAY, *DAY, '-o', pipe]) as process:
            self.assertEqual(bytes_of(pipe), bytes_of(AFTER_THE_DAY))
        self.assertEqual(process.returncode, 0)

    def test_library_that_is_not_there(self):
        status, output, errors = command('day', self.out, *DAY, '-o', self.out,
                                         env={**os.environ, library.VARIABLE: '/x'})
        self.assertEqual((status, output), (2, b''))
        self.assertRegex(errors, r'\Aserpentgleam: the shared object of the library is not found \(/x: not there\)')
        self.assertEqual(bytes_of(self.out), long_account())

    def test_library_of_an_earlier_version(self):
        status, output, errors = command('day', self.out, *DAY, '-o', self.out,
                                         env={**os.environ, library.VARIABLE: 'libc.so.6'})
        self.assertEqual((status, output), (2, b''))
        self.assertRegex(errors, 'the shared object is not that of the library, or of an earlier version: ')
        self.assertEqual(bytes_of(self.out), long_account())


class Words(unittest.TestCase):
    def check(self, words, sentence):
        self.assertEqual(command('day', *words), (2, b'', f'serpentgleam: {sentence}\n{MORE}'))

    def test_words(self):
        many = "day takes a file, a series, and the day's high, low and close"
        for words, sentence in (([], many), ([DOCUMENT], many), ([DOCUMENT, *DAY[1:]], many),
                                ([DOCUMENT, *DAY, '1'], many),
                                ([DOCUMENT, 'x', *DAY[1:]], 'the series is a whole number from 0 on: x'),
                                ([DOCUMENT, '0', '3500.0', '1', '1'], 'the high is a whole number from 0 on: 3500.0'),
                                ([DOCUMENT, '0', '1', '', '1'], 'the low is a whole number from 0 on: '),
                                ([DOCUMENT, '0', '1', '1', '٣'], 'the close is a whole number from 0 on: ٣'),
                                ([DOCUMENT, '0', '1', '1', b'\xe7'], 'the close is a whole number from 0 on: \\xe7'),
                                (['--', DOCUMENT, '-1', '1', '1', '1'], 'the series is a whole number from 0 on: -1'),
                                ([DOCUMENT, '-1', '1', '1', '1'], 'there is no option -1'),
                                (['--json', DOCUMENT, *DAY], 'there is no option --json'),
                                (['-o'], 'option -o requires argument')):
            self.check(words, sentence)

    def test_an_output_is_needed(self):
        sentence = 'day writes an account file, and -o names where; it may be the file that is read'
        self.check([BEFORE_THE_DAY, *DAY], sentence)
        self.check(['none', *DAY], sentence)
        ours, theirs = pty.openpty()
        self.assertEqual(command('day', BEFORE_THE_DAY, *DAY, stdout=theirs)[0], 2)
        os.close(theirs)
        os.close(ours)


class Ways(unittest.TestCase):
    def test_command_and_module(self):
        """Both give the same file."""
        out = os.path.join(folder(self), 'out')
        for numbers in ((0, 3500, 2700, 2900), (1, 3500, 2700, 2900), (0, 3499, 2701, 2701), (1, 3000, 3000, 3000)):
            self.assertEqual(command('day', BEFORE_THE_DAY, *map(str, numbers), '-o', out)[0], 0)
            self.assertEqual(bytes_of(out), day(bytes_of(BEFORE_THE_DAY), *numbers))


if __name__ == '__main__':
    unittest.main()
