"""Many accounts in one input, as margin_batch takes them; the vectors, its input and output in the gate; and those of
day_batch, which takes days and accounts.
"""
import os

CRATES = os.path.join(os.path.dirname(os.path.dirname(os.path.abspath(__file__))), 'crates')


def framed(files):
    """The files one after the other, each as its length in four little-endian bytes and then its bytes."""
    return b''.join(len(file).to_bytes(4, 'little') + file for file in files)


def files_of(data):
    """The files of such an input."""
    files, at = [], 0
    while at < len(data):
        end = at + 4 + int.from_bytes(data[at:at + 4], 'little')
        files.append(data[at + 4:end])
        at = end
    return files


def answers_of(output):
    """Each account's answer, without the empty line after it."""
    return output.decode().split('\n\n')[:-1]


def amounts_of(lines):
    """Of each file the lines of position_amounts, up to the refusal that ends them."""
    amounts = []
    for line in lines:
        amounts.append(line)
        if line.startswith('refused'):
            yield amounts
            amounts = []


def vector_bytes(name, program='margin_batch'):
    """What stands in a program's file `stdin` or `stdout`."""
    with open(os.path.join(CRATES, program, name), 'rb') as file:
        return file.read()


def vectors():
    """The accounts of the reference, each with the reference's answer."""
    return list(zip(files_of(vector_bytes('stdin')), answers_of(vector_bytes('stdout')), strict=True))


def days():
    """The reference's days: an account, its day (series, high, low, close), the line for it, the account after it.

    On standard input the day is four numbers of eight little-endian bytes before the account's own bytes; the output
    has for each the line, `day` or `refused` with number and row, then the account and a line feed.
    """
    cases, output = [], vector_bytes('stdout', 'day_batch')
    for case in files_of(vector_bytes('stdin', 'day_batch')):
        numbers, file = [int.from_bytes(case[at:at + 8], 'little') for at in range(0, 32, 8)], case[32:]
        line, output = output.split(b'\n', 1)
        after, output = output[:len(file)], output[len(file) + 1:]
        cases.append((file, numbers, line.decode(), after))
    return cases
