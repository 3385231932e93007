"""The command `serpentgleam load`: its output file, its refusals, which write nothing, and its messages."""
import os
import pty
import subprocess
import unittest

from drawn_loads import MODULUS, MOST_POSITIONS, MOST_SEED, load_of
from support import COMMAND, LOAD, bytes_of, command, folder, little_room, written

from serpentgleam import REASONS, library, load

ASKED = ('99', '8')  # seed and positions of the example
MORE = 'serpentgleam: serpentgleam load --help says more\n'


class Written(unittest.TestCase):
    def setUp(self):
        self.folder = folder(self)
        self.out = os.path.join(self.folder, 'out.account')

    def test_a_new_file(self):
        self.assertEqual(command('load', *ASKED, '-o', self.out), (0, b'', ''))
        self.assertEqual(bytes_of(self.out), bytes_of(LOAD))
        self.assertEqual(os.listdir(self.folder), ['out.account'])

    def test_edges(self):
        for seed in (1, MOST_SEED):
            for p in (1, MOST_POSITIONS):
                self.assertEqual(command('load', str(seed), str(p), '-o', self.out), (0, b'', ''))
                self.assertEqual(bytes_of(self.out), load_of(seed, p))

    def test_in_place_of_another(self):
        written(self.out, b'before')
        os.chmod(self.out, 0o640)
        self.assertEqual(command('load', '--output=' + self.out, *ASKED), (0, b'', ''))
        self.assertEqual((bytes_of(self.out), os.stat(self.out).st_mode & 0o777), (bytes_of(LOAD), 0o640))

    def test_again(self):
        for _ in range(3):
            self.assertEqual(command('load', *ASKED, '-o', self.out), (0, b'', ''))
            self.assertEqual(bytes_of(self.out), bytes_of(LOAD))

    def test_numbers_with_zeros_before_them(self):
        self.assertEqual(command('load', '0099', '0' * 99 + '8', '-o', self.out)[0], 0)
        self.assertEqual(bytes_of(self.out), bytes_of(LOAD))

    def test_names_that_are_numbers(self):
        written(os.path.join(self.folder, '99'), b'before')  # its name is also the seed, which is no file
        self.assertEqual(command('load', *ASKED, '-o', '99', cwd=self.folder), (0, b'', ''))
        self.assertEqual(bytes_of(self.folder, '99'), bytes_of(LOAD))

    def test_a_name_in_latin_1(self):
        out = os.path.join(os.fsencode(self.folder), b'a\xe7\xe3o')
        self.assertEqual(command('load', *ASKED, '-o', out), (0, b'', ''))
        self.assertEqual(bytes_of(out), bytes_of(LOAD))

    def test_then_margin(self):
        self.assertEqual(command('load', *ASKED, '-o', self.out)[0], 0)
        self.assertTrue(command('margin', self.out)[1].endswith(b'\ttotal 6040300\n'))
        self.assertEqual(command('check', self.out)[:2], (0, b''))


class Refused(unittest.TestCase):
    def setUp(self):
        self.folder = folder(self)
        self.out = os.path.join(self.folder, 'out')

    def check(self, seed, p):
        """Refused, with no file written and with one left as it was."""
        answer = (1, b'refused 20 0\n', f'serpentgleam: {REASONS[20]}\n')
        self.assertEqual(command('load', str(seed), str(p), '-o', self.out), answer)
        self.assertEqual(os.listdir(self.folder), [])
        written(self.out, b'before')
        self.assertEqual(command('load', str(seed), str(p), '-o', self.out), answer)
        self.assertEqual(bytes_of(self.out), b'before')
        os.unlink(self.out)

    def test_seeds(self):
        for seed in (0, MODULUS, 2 ** 32 + 1, 2 ** 64 + 1, '9' * 6000):
            self.check(seed, 8)

    def test_positions(self):
        for p in (0, 257, 2 ** 16 + 1, 2 ** 64 + 1, '9' * 6000):
            self.check(99, p)

    def test_both(self):
        self.check(0, 0)


class Unwritten(unittest.TestCase):
    def setUp(self):
        self.folder = folder(self)
        self.out = written(os.path.join(self.folder, 'out'), b'before')

    def test_full_disk(self):
        self.assertEqual(command('load', '99', '256', '-o', self.out, preexec_fn=little_room),
                         (2, b'', f'serpentgleam: {self.out}: File too large; the file is not written\n'))
        self.assertEqual((os.listdir(self.folder), bytes_of(self.out)), (['out'], b'before'))

    def test_folder_that_is_not_there(self):
        out = os.path.join(self.folder, 'none', 'out')
        self.assertEqual(command('load', *ASKED, '-o', out),
                         (2, b'', f'serpentgleam: {out}: No such file or directory; the file is not written\n'))

    def test_into_a_pipe(self):
        """An output that is a pipe is written as it is, and nothing is put in its place."""
        pipe = os.path.join(self.folder, 'pipe')
        os.mkfifo(pipe)
        with subprocess.Popen([*COMMAND, 'load', *ASKED, '-o', pipe]) as process:
            self.assertEqual(bytes_of(pipe), bytes_of(LOAD))
        self.assertEqual(process.returncode, 0)

    def test_library_that_is_not_there(self):
        status, output, errors = command('load', *ASKED, '-o', self.out, env={**os.environ, library.VARIABLE: '/x'})
        self.assertEqual((status, output), (2, b''))
        self.assertRegex(errors, r'\Aserpentgleam: the shared object of the library is not found \(/x: not there\)')
        self.assertEqual(bytes_of(self.out), b'before')

    def test_library_of_an_earlier_version(self):
        status, output, errors = command('load', *ASKED, '-o', self.out,
                                         env={**os.environ, library.VARIABLE: 'libc.so.6'})
        self.assertEqual((status, output), (2, b''))
        self.assertRegex(errors, 'the shared object is not that of the library, or of an earlier version: ')
        self.assertEqual(bytes_of(self.out), b'before')


class Words(unittest.TestCase):
    def check(self, words, sentence):
        self.assertEqual(command('load', *words), (2, b'', f'serpentgleam: {sentence}\n{MORE}'))

    def test_words(self):
        many = 'load takes a seed and a number of positions'
        for words, sentence in (([], many), (['99'], many), (['99', '8', '8'], many),
                                (['x', '8'], 'the seed is a whole number from 0 on: x'),
                                (['1.0', '8'], 'the seed is a whole number from 0 on: 1.0'),
                                (['', '8'], 'the seed is a whole number from 0 on: '),
                                (['99', '٣'], 'the number of positions is a whole number from 0 on: ٣'),
                                (['99', b'\xe7'], 'the number of positions is a whole number from 0 on: \\xe7'),
                                (['--', '-1', '8'], 'the seed is a whole number from 0 on: -1'),
                                (['--', '99', '-1'], 'the number of positions is a whole number from 0 on: -1'),
                                (['-1', '8'], 'there is no option -1'),
                                (['--json', *ASKED], 'there is no option --json'),
                                (['-o'], 'option -o requires argument')):
            self.check(words, sentence)

    def test_an_output_is_needed(self):
        sentence = 'load writes an account file, and -o names where'
        self.check(ASKED, sentence)
        self.check(['0', '8'], sentence)
        ours, theirs = pty.openpty()
        self.assertEqual(command('load', *ASKED, stdout=theirs)[0], 2)
        os.close(theirs)
        os.close(ours)


class Ways(unittest.TestCase):
    def test_command_and_module(self):
        """Both give the same file."""
        out = os.path.join(folder(self), 'out')
        for seed, p in ((1, 1), (99, 8), (2003, 100), (MOST_SEED - 1, 255)):
            self.assertEqual(command('load', str(seed), str(p), '-o', out)[0], 0)
            self.assertEqual(bytes_of(out), load(seed, p))


if __name__ == '__main__':
    unittest.main()
