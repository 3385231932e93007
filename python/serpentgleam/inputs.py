"""What the command reads: account files and texts by their names, and lists of names. Names are as in sys.argv."""
import os

from .layout import LONGEST_FILE
from .lines import LONGEST_TEXT

STANDARD_INPUT = '-'
PIECE = 65_536  # bytes of a list of names that are read at a time


class Unread(Exception):
    """A file that cannot be read; the message names it and says why."""


def shown(name):
    """A name for messages: bytes that are not UTF-8 and what a screen would not show are written as their numbers."""
    text = os.fsencode(name).decode('utf-8', 'backslashreplace')
    return ''.join(character if character.isprintable() else f'\\x{ord(character):02x}' for character in text)


def called(name):
    """What messages call a file that is read."""
    return 'standard input' if name == STANDARD_INPUT else shown(name)


def why_not(name, error):
    """The sentence for an error of the operating system about a file."""
    return f'{called(name)}: {getattr(error, "strerror", None) or error}'


def read_at_most(name, most):
    """The first bytes of a file or of standard input, `most` of them or fewer where it ends before."""
    try:
        source = 0 if name == STANDARD_INPUT else os.open(name, os.O_RDONLY | os.O_CLOEXEC)
        try:
            pieces, missing = [], most
            while missing and (piece := os.read(source, missing)):
                pieces.append(piece)
                missing -= len(piece)
        finally:
            if source:
                os.close(source)
    except (OSError, ValueError) as error:  # ValueError: a name with a zero byte
        raise Unread(why_not(name, error)) from error
    return b''.join(pieces)


def read_account_file(name):
    """An account file's bytes; of one that is too long one byte more than it may have, so that it is refused."""
    return read_at_most(name, LONGEST_FILE + 1)


def read_text_file(name):
    """A text's bytes; of one that is too long one byte more than it may have."""
    return read_at_most(name, LONGEST_TEXT + 1)


def read_either(name):
    """The bytes of a text or an account file, and whether they are a text.

    The endings .txt and .account decide; of other names it is a text that has bytes and none of them zero.
    """
    if name.endswith('.account'):
        return read_account_file(name), False
    data = read_text_file(name)
    is_text = name.endswith('.txt') or bool(data) and b'\0' not in data
    return data if is_text else data[:LONGEST_FILE + 1], is_text


def names_in(list_name, ending, before_waiting):
    """The names of a list, each followed by the byte `ending`; `before_waiting` is called before more is read."""
    try:
        with open(0 if list_name == STANDARD_INPUT else list_name, 'rb', closefd=list_name != STANDARD_INPUT) as source:
            rest = b''
            while True:
                before_waiting()
                piece = source.read1(PIECE)
                *names, rest = (rest + piece).split(ending)
                if len(rest) > PIECE:
                    raise ValueError(f'a name of more than {PIECE} bytes; this is no list of names')
                if not piece:
                    names.append(rest)
                yield from (os.fsdecode(name) for name in names if name)
                if not piece:
                    return
    except (OSError, ValueError) as error:
        raise Unread(why_not(list_name, error)) from error
