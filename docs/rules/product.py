"""The product's answers: an account's text made into its file, what the proved programs print, and what the library's
calls for a list of lines, for instalments, for taking pairs apart and for a load answer.
"""
import ctypes
import subprocess
import sys
from functools import lru_cache
from pathlib import Path

ROOT = Path(__file__).resolve().parents[2]

# The text form of an account, and the library. This is the one place that says where their modules are.
sys.path.insert(0, str(ROOT / 'python'))
from serpentgleam import library
from serpentgleam.layout import file_of
from serpentgleam.lines import read_account


def file_from_text(text, trailer=None):
    """The bytes of the account file; the trailer's four values can be given, to make a file that is refused."""
    return file_of(read_account(text.encode('utf-8')), trailer)


def output_of(program, data):
    """The bytes that a proved program writes for its standard input."""
    path = ROOT / 'target' / 'bin' / program
    if not path.exists():
        sys.exit(f'{path.relative_to(ROOT)} is not there: bash library/programs.sh {program}')
    return subprocess.run([path], input=data, capture_output=True, check=True).stdout


def lines_of(program, data):
    """The lines that it prints."""
    return output_of(program, data).decode('ascii').splitlines()


def printed(file):
    """The lines that margin prints for a file's bytes."""
    return lines_of('margin', file)


@lru_cache(maxsize=None)
def factors_printed():
    """What factors_list prints for each code and number of days: fa and fb, or the refusal."""
    lines = [line.split(' ', 2) for line in lines_of('factors_list', b'')]
    return {(int(code), int(days)): answer for code, days, answer in lines}


def file_after(file, day):
    """What day_batch writes for a day and a file: the line `day` or `refused` with number and row, and the file then.

    It takes any number of cases, each as its length in four little-endian bytes and then its bytes: the day as four
    numbers of eight bytes, and the file. After the file it writes a line feed.
    """
    case = b''.join(number.to_bytes(8, 'little') for number in day) + file
    line, after = output_of('day_batch', len(case).to_bytes(4, 'little') + case).split(b'\n', 1)
    return line.decode('ascii'), after.removesuffix(b'\n')


def found(calls):
    """Calls that the library's shared object has."""
    try:
        return calls()
    except library.NotFound as missing:
        sys.exit(str(missing))


def told(answer):
    """The number that a call answers, or its refusal, as words."""
    return f'refused {answer.refusal} {answer.row}' if answer.refusal else str(answer.value)


def in_list(entries):
    """Entries of five numbers as C's list of lines."""
    numbers = [number for entry in entries for number in entry]
    return (ctypes.c_uint64 * len(numbers))(*numbers)


def entries_of(lines):
    """Such a list as entries of five numbers."""
    return [tuple(lines[at:at + library.LINE_NUMBERS]) for at in range(0, len(lines), library.LINE_NUMBERS)]


def answer_and_list(call, file, entries, *numbers):
    """What a call that writes to the list answers, and the list after it."""
    lines = in_list(entries)
    answer = told(call(file, len(file), lines, len(entries), *numbers))
    return answer, entries_of(lines)


def margined(file, entries):
    """What serpentgleam_margin answers, its lines and total, and the list after it."""
    lines = in_list(entries)
    answer = found(library.calls).margin(file, len(file), lines, len(entries))
    refused = f'refused {answer.refusal} {answer.row}'
    return refused if answer.refusal else f'{answer.lines} lines, total {answer.total}', entries_of(lines)


def paired(file, entries, count, allowance):
    """What serpentgleam_pair answers, and the list after it."""
    return answer_and_list(found(library.instalment_calls).pair, file, entries, count, allowance)


def taken_apart(file, entries, count, k):
    """What serpentgleam_take_apart answers, and the list after it."""
    return answer_and_list(found(library.take_apart_call), file, entries, count, k)


def amount_so_far(file, entries, count):
    """What serpentgleam_amount_so_far answers."""
    call = found(library.instalment_calls).amount_so_far
    return told(call(file, len(file), in_list(entries), len(entries), count))


def loaded(seed, p, before):
    """What serpentgleam_load answers for a buffer that holds some bytes, and the buffer after it."""
    lent = ctypes.create_string_buffer(before, len(before))
    answer = told(found(library.load_call)(seed, p, lent, len(before)))
    return answer, lent.raw


def instalments_printed(name, allowance):
    """The lines that the command prints for an account file, by its path from the top, without the file's name."""
    found(library.instalment_calls)
    words = [sys.executable, ROOT / 'python' / 'bin' / 'serpentgleam', 'instalments', name, str(allowance)]
    run = subprocess.run(words, capture_output=True, check=True, cwd=ROOT)
    return [line.split('\t')[1] for line in run.stdout.decode('utf-8').splitlines()]
