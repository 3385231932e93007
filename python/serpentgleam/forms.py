"""How the text writes a value: as a whole number, a factor or bytes. Reading raises ValueError with a sentence."""
import re
from typing import Callable, NamedTuple

MILLION = 1_000_000
TOO_LARGE = 1 << 64  # larger than any field holds


class Form(NamedTuple):
    """Reading a value from its text, and writing it."""
    read: Callable[[str], int]
    write: Callable[[int], str]


def number_of(digits):
    """The number that decimal digits write, or TOO_LARGE for every number above it, which has 20 digits."""
    digits = digits.lstrip('0') or '0'
    return min(int(digits), TOO_LARGE) if len(digits) <= 20 else TOO_LARGE


def read_whole(text):
    if not re.fullmatch('[0-9]+', text):
        raise ValueError(f'{text} is not a whole number')
    return number_of(text)


def read_factor(text):
    """A decimal in millionths, digit by digit, so that no place is lost."""
    decimal = re.fullmatch(r'([0-9]+)\.([0-9]{1,6})', text)
    if not decimal:
        raise ValueError(f'{text} is not a decimal with a point and one to six places, such as 1.2')
    whole, places = decimal.groups()
    return number_of(whole) * MILLION + int(places.ljust(6, '0'))


def write_factor(millionths):
    whole, places = divmod(millionths, MILLION)
    return f'{whole}.{f"{places:06}".rstrip("0") or "0"}'


def hexadecimal(width):
    """The form of a field that is looked at byte by byte, in the order of the file."""
    def read(text):
        if not re.fullmatch(f'[0-9a-fA-F]{{{2 * width}}}', text):
            raise ValueError(f'{text} is not {width} bytes as {2 * width} hexadecimal digits')
        return int.from_bytes(bytes.fromhex(text), 'little')

    def write(value):
        return value.to_bytes(width, 'little').hex()

    return Form(read, write)


WHOLE = Form(read_whole, str)
FACTOR = Form(read_factor, write_factor)
