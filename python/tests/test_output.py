"""Nothing is lost without a word: full disk, closed pipe, name in Latin-1, huge file, many processes into one pipe."""
import itertools
import json
import os
import resource
import signal
import subprocess
import time
import unittest

from support import (COMMAND, DOCUMENT, EXAMPLES, bytes_of, command, file_with, folder, little_room, long_account,
                     written)

from serpentgleam.text import text_from_file


def ending_signals():
    """In a process that is to be started: signals end it, also where these tests run in the background."""
    for number in (signal.SIGTERM, signal.SIGINT, signal.SIGHUP):
        signal.signal(number, signal.SIG_DFL)


class FullDisk(unittest.TestCase):
    def setUp(self):
        self.folder = folder(self)
        self.account = written(os.path.join(self.folder, 'long.account'), long_account())
        self.text = written(os.path.join(self.folder, 'long.txt'), text_from_file(long_account()))
        self.calls = (['margin', self.account], ['margin', '--json', self.account], ['margin', '--csv', self.account],
                      ['to-text', self.account], ['to-file', self.text], ['check', '--json', self.text])

    def test_no_room_at_all(self):
        for words in self.calls + (['position', DOCUMENT, '0'], ['factors', 'FCI', '720'], ['factors', 'FCI', '1801'],
                                   ['day', DOCUMENT, '1', '1', '1', '1', '-o', self.text], ['check', '--csv', DOCUMENT],
                                   ['load', '0', '8', '-o', self.text], ['instalments', DOCUMENT, '8'], ['--help'],
                                   ['--version'], ['margin', '--help']):
            with self.subTest(words), open('/dev/full', 'wb') as full:
                status, _, errors = command(*words, stdout=full)
                self.assertEqual((status, errors), (2, 'serpentgleam: standard output: No space left on device; the '
                                                       'output is not whole\n'))

    def test_short_write(self):
        for words in self.calls[:-1]:
            for unbuffered in ({}, {'PYTHONUNBUFFERED': '1'}):
                with self.subTest(words), open(os.path.join(self.folder, 'out'), 'wb') as out:
                    status, _, errors = command(*words, stdout=out, preexec_fn=little_room,
                                                env={**os.environ, **unbuffered})
                    self.assertEqual((status, errors), (2, 'serpentgleam: standard output: File too large; the '
                                                           'output is not whole\n'))

    def test_a_file_is_not_there_or_stays_as_it_was(self):
        for words in (*self.calls[:-1], ['day', self.account, '0', '3100', '2900', '3050'], ['load', '99', '256']):
            for before in (None, b'before'):
                place = folder(self)
                out = os.path.join(place, 'out')
                if before:
                    written(out, before)
                status, _, errors = command(*words, '-o', out, preexec_fn=little_room)
                self.assertEqual((status, errors),
                                 (2, f'serpentgleam: {out}: File too large; the file is not written\n'))
                self.assertEqual(os.listdir(place), ['out'] if before else [])
                self.assertEqual(before and bytes_of(out), before)


class WholeFile(unittest.TestCase):
    def setUp(self):
        self.folder = folder(self)
        self.out = os.path.join(self.folder, 'out')

    def test_content_and_permissions(self):
        self.assertEqual(command('to-text', DOCUMENT, '-o', self.out)[:2], (0, b''))
        self.assertEqual(bytes_of(self.out), text_from_file(bytes_of(DOCUMENT)))
        mask = os.umask(0)
        os.umask(mask)
        self.assertEqual(os.stat(self.out).st_mode & 0o777, 0o666 & ~mask)
        os.chmod(self.out, 0o640)
        self.assertEqual(command('to-text', EXAMPLES[1], '-o', self.out)[0], 0)
        self.assertEqual(os.stat(self.out).st_mode & 0o777, 0o640)
        self.assertEqual(bytes_of(self.out), text_from_file(bytes_of(EXAMPLES[1])))
        self.assertEqual(os.listdir(self.folder), ['out'])

    def test_link_and_device(self):
        link = os.path.join(self.folder, 'link')
        os.symlink('out', link)
        self.assertEqual(command('margin', '-q', DOCUMENT, '-o', link), (0, b'', ''))
        self.assertTrue(os.path.islink(link) and bytes_of(self.out).endswith(b'total 10800\n'))
        self.assertEqual(command('margin', '-q', DOCUMENT, '-o', '/dev/stdout')[1], bytes_of(self.out))
        self.assertEqual(command('margin', '-q', DOCUMENT, '-o', '/dev/full')[0], 2)

    def test_folder_that_is_not_there(self):
        out = os.path.join(self.folder, 'none', 'out')
        self.assertEqual(command('to-text', DOCUMENT, '-o', out),
                         (2, b'', f'serpentgleam: {out}: No such file or directory; the file is not written\n'))

    def test_the_input_is_not_written_over(self):
        text = written(self.out, text_from_file(bytes_of(DOCUMENT)))
        status, _, errors = command('to-file', text, '-o', os.path.join(self.folder, '.', 'out'))
        self.assertEqual(status, 2)
        self.assertIn('is read, and cannot be the output too', errors)
        self.assertEqual(bytes_of(text), text_from_file(bytes_of(DOCUMENT)))

    def test_ended_before_the_end(self):
        for number in (signal.SIGTERM, signal.SIGINT, signal.SIGHUP):
            process = subprocess.Popen([*COMMAND, 'margin', '--from', '-', '-o', self.out], stdin=subprocess.PIPE,
                                       stderr=subprocess.PIPE, preexec_fn=ending_signals)
            process.stdin.write(os.fsencode(DOCUMENT) + b'\n')
            process.stdin.flush()
            while not os.listdir(self.folder):
                time.sleep(0.01)
            process.send_signal(number)
            errors = process.communicate()[1]
            self.assertEqual(process.returncode, 128 + number)
            self.assertNotIn(b'Traceback', errors)
            self.assertEqual(os.listdir(self.folder), [])


class ClosedPipe(unittest.TestCase):
    def check(self, *words):
        """The reader is gone before anything is written."""
        reader, writer = os.pipe()
        os.close(reader)
        status, _, errors = command(*words, stdout=writer)
        os.close(writer)
        self.assertEqual((status, errors), (2, 'serpentgleam: standard output was closed before all was written\n'))

    def test_every_command(self):
        for words in (['margin', *EXAMPLES], ['margin', '--json', *EXAMPLES], ['position', DOCUMENT, '0'],
                      ['factors', 'FCI', '720'], ['day', DOCUMENT, '1', '1', '1', '1', '-o', 'none/out'],
                      ['instalments', DOCUMENT, '8'], ['load', '0', '8', '-o', 'none/out'],
                      ['check', '--csv', *EXAMPLES], ['to-text', DOCUMENT],
                      ['to-file', DOCUMENT.replace('.account', '.txt')], ['--help'], ['--version']):
            self.check(*words)

    def test_reader_that_goes_early(self):
        process = subprocess.Popen([*COMMAND, 'margin', *[DOCUMENT] * 5000], stdout=subprocess.PIPE,
                                   stderr=subprocess.PIPE)
        self.assertEqual(process.stdout.readline(), os.fsencode(DOCUMENT) + b'\tpair 0 2 3 0\n')
        process.stdout.close()
        self.assertEqual(process.stderr.read(), b'serpentgleam: standard output was closed before all was written\n')
        self.assertEqual(process.wait(), 2)
        process.stderr.close()

    def test_standard_files_that_are_closed(self):
        shell = ['sh', '-c', 'exec "$@" >&-', '_', *COMMAND]
        run = subprocess.run([*shell, 'margin', DOCUMENT], stderr=subprocess.PIPE, check=False)
        self.assertEqual((run.returncode, run.stderr),
                         (2, b'serpentgleam: standard output: Bad file descriptor; the output is not whole\n'))
        out = os.path.join(folder(self), 'out')
        text = written(out + '.txt', b'series call PV=3000 fa=1.2 fb=0.8 f3=0.05 M=5\nheld Q=0 PE=1\n')
        shell[2] = 'exec "$@" 2>&- <&-'
        self.assertEqual(subprocess.run([*shell, 'to-file', text, '-o', out], check=False).returncode, 0)
        self.assertEqual(bytes_of(out), file_with('held Q=0 PE=1'))
        self.assertEqual(subprocess.run([*shell, 'margin', '-'], check=False).returncode, 2)


class Names(unittest.TestCase):
    def setUp(self):
        self.folder = os.fsencode(folder(self))
        self.name = written(os.path.join(self.folder, b'a\xe7\xe3o.account'), bytes_of(DOCUMENT))

    def test_latin_1(self):
        lines = (b'pair 0 2 3 0', b'pair 0 1 4 3000', b'left 0 3 7500', b'premium 300', b'total 10800')
        for words in ([self.name], ['--from', '-']):
            self.assertEqual(command('margin', '-q', *words, data=self.name + b'\n'),
                             (0, b''.join(self.name + b'\t' + line + b'\n' for line in lines), ''))
        rows = command('margin', '--csv', self.name)[1].split(b'\n')
        self.assertEqual(rows[1], self.name + b',pair,0,2,,3,0,,')
        answer = json.loads(command('margin', '--json', self.name)[1])
        self.assertEqual(list(answer), ['file', 'file_hex', 'lines', 'premium', 'total'])
        self.assertEqual(answer['file'], self.name.decode('utf-8', 'backslashreplace'))
        self.assertEqual(bytes.fromhex(answer['file_hex']), self.name)

    def test_latin_1_in_messages_and_as_output(self):
        shown = self.name.decode('utf-8', 'backslashreplace')
        self.assertEqual(command('to-text', self.name + b'x'),
                         (2, b'', f'serpentgleam: {shown}x: No such file or directory\n'))
        self.assertEqual(command('to-text', DOCUMENT, '-o', self.name)[0], 0)
        self.assertEqual(bytes_of(self.name), text_from_file(bytes_of(DOCUMENT)))
        self.assertEqual(command('check', '-q', self.name)[0], 1)

    def test_other_locales(self):
        for locale in ('C', 'POSIX', 'C.UTF-8', 'pt_BR.ISO-8859-1'):
            for form in ((), ('--json',), ('--csv',)):
                status, output, _ = command('margin', *form, self.name, env={**os.environ, 'LC_ALL': locale})
                self.assertEqual((status, output), command('margin', *form, self.name)[:2])

    def test_line_feed_and_tab_in_a_name(self):
        name = written(os.path.join(self.folder, b'a\nb\tc\\'), bytes_of(DOCUMENT))
        output = command('margin', '-q', '--null', '--from', '-', data=name + b'\0')[1]
        self.assertTrue(output.startswith(os.path.join(self.folder, b'a\\nb\\tc\\\\\tpair 0 2 3 0\n')), output)


class HugeFile(unittest.TestCase):
    def test_refused_with_1(self):
        huge = os.path.join(folder(self), 'huge')
        with open(huge, 'wb') as file:
            file.truncate(5 << 30)
        little_memory = {'preexec_fn': lambda: resource.setrlimit(resource.RLIMIT_AS, (1 << 29, 1 << 29))}
        for name in (huge, '/dev/zero'):
            self.assertRegex(command('margin', '-q', name, **little_memory)[1].decode(), r'\trefused 1 0\t')
            self.assertRegex(command('position', name, '0', **little_memory)[1].decode(), r'\trefused 1 0\t')
            self.assertEqual(command('day', name, '0', '1', '1', '1', '-o', huge, **little_memory)[:2],
                             (1, b'refused 1 0\n'))
            self.assertRegex(command('instalments', name, '8', **little_memory)[1].decode(), r'\trefused 1 0\t')
            self.assertRegex(command('check', name, **little_memory)[1].decode(), ': refusal 1: the file has more than')
            self.assertRegex(command('to-text', name, **little_memory)[2], 'refused 1 0: the file has more than 65536')
            self.assertRegex(command('to-file', name, **little_memory)[2], 'the text has more than 2097152 bytes')
            self.assertRegex(command('margin', '--from', name, **little_memory)[2], 'this is no list of names')


class Waiting(unittest.TestCase):
    def test_a_pipe_that_lets_nobody_wait(self):
        """An output that another program has set so that a write to a full pipe fails at once."""
        reader, writer = os.pipe()
        os.set_blocking(writer, False)
        with subprocess.Popen([*COMMAND, 'margin', '-q', *[DOCUMENT] * 3000], stdout=writer) as process:
            os.close(writer)
            time.sleep(0.5)
            with open(reader, 'rb') as output:
                self.assertEqual(output.read(), command('margin', '-q', *[DOCUMENT] * 3000)[1])
        self.assertEqual(process.returncode, 0)


class ManyProcesses(unittest.TestCase):
    def setUp(self):
        self.names = [written(os.path.join(folder(self), 'x' * 100 + '.account'), long_account()) for _ in range(160)]
        self.answer = command('margin', '-q', self.names[0])[1]
        self.assertGreater(len(self.answer), 4 * 4096)

    def run_eight(self, stdout):
        """Eight processes at a time, started with one output."""
        return subprocess.Popen(['xargs', '-0', '-P', '8', '-n', '10', *COMMAND, 'margin', '-q'], stdout=stdout,
                                stdin=subprocess.PIPE)

    def check(self, output):
        """The answers stand one after the other, each whole."""
        lines = [line.split(b'\t') for line in output.splitlines()]
        answers = [(name, b'\n'.join(words for _, words in group))
                   for name, group in itertools.groupby(lines, lambda line: line[0])]
        expected = b'\n'.join(line.split(b'\t')[1] for line in self.answer.splitlines())
        self.assertEqual(sorted(answers), sorted((os.fsencode(name), expected) for name in self.names))

    def test_into_one_pipe(self):
        process = self.run_eight(subprocess.PIPE)
        process.stdin.write('\0'.join(self.names).encode())
        process.stdin.close()
        pieces = []
        while piece := os.read(process.stdout.fileno(), 3000):  # a slow reader, so that every writer waits at times
            pieces.append(piece)
            if len(pieces) % 20 == 0:
                time.sleep(0.002)
        process.stdout.close()
        self.assertEqual(process.wait(), 0)
        self.check(b''.join(pieces))

    def test_into_one_file(self):
        path = os.path.join(folder(self), 'out')
        with open(path, 'wb') as out:
            process = self.run_eight(out)
            process.communicate('\0'.join(self.names).encode())
        self.check(bytes_of(path))


if __name__ == '__main__':
    unittest.main()
