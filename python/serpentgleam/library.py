"""Finds and loads the shared object of the proved library, and says what its calls take and give. Amounts are the
library's: of one before version 0.6.0 they are rounded up to one centavo and not to whole reais. One before version
0.9.0 refuses rows with blocked contracts."""
import ctypes
import functools
import os
from typing import Callable, NamedTuple

NAME = 'libserpentgleam.so.1'
VARIABLE = 'SERPENTGLEAM_LIBRARY_SO'
MOST_POSITIONS = 256             # of any account
MOST_LINES = 2 * MOST_POSITIONS  # entries of a list that is long enough for every account: twice its positions
LINE_NUMBERS = 5                 # of one line
MOST_LOAD = 8228                 # bytes of a buffer that is long enough for every load


class NotFound(Exception):
    """The shared object is in none of its places, or cannot be loaded. The message says which they are."""


class Result(ctypes.Structure):
    """struct serpentgleam_result."""
    _fields_ = [(name, ctypes.c_uint64) for name in ('refusal', 'row', 'lines', 'total')]


class Answer(ctypes.Structure):
    """struct serpentgleam_answer."""
    _fields_ = [(name, ctypes.c_uint64) for name in ('refusal', 'row', 'value')]


class FactorsResult(ctypes.Structure):
    """struct serpentgleam_factors."""
    _fields_ = [(name, ctypes.c_uint64) for name in ('refusal', 'row', 'fa', 'fb')]


def places():
    """Where the shared object is looked for, the first that is there is taken; this is the only list of them.

    An installation has the package in PREFIX/share/serpentgleam/serpentgleam and the shared object in PREFIX/lib; the
    repository has them in python/serpentgleam and target/staticlib. NAME alone is where the operating system looks.
    """
    if os.environ.get(VARIABLE):
        return [os.environ[VARIABLE]]
    package = os.path.dirname(os.path.abspath(__file__))
    two_above = os.path.dirname(os.path.dirname(package))
    if os.path.basename(two_above) == 'share':
        return [os.path.join(os.path.dirname(two_above), 'lib', NAME), NAME]
    return [os.path.join(two_above, 'target', 'staticlib', NAME), NAME]


@functools.lru_cache(maxsize=None)
def load():
    """The shared object of the first place that has one."""
    tried = []
    for place in places():
        if os.sep in place and not os.path.exists(place):
            tried.append(f'{place}: not there')
            continue
        try:
            return ctypes.CDLL(place)
        except OSError as error:
            tried.append(str(error) if place in str(error) else f'{place}: {error}')
    raise NotFound('the shared object of the library is not found (' + '; '.join(tried) + '). '
                   f'In the repository library/shared_object.sh makes it; {VARIABLE} names another')


def call(name, gives, *takes):
    """A call of the shared object by its name in the C header, without its prefix."""
    try:
        loaded = load()['serpentgleam_' + name]
    except AttributeError as error:
        raise NotFound(f'the shared object is not that of the library, or of an earlier version: {error}') from error
    loaded.argtypes, loaded.restype = takes, gives
    return loaded


class Calls(NamedTuple):
    """The library's calls that read a file, by their names in the C header, without its prefix."""
    margin: Callable
    position_amount: Callable


@functools.lru_cache(maxsize=None)
def calls():
    """The calls that read a file. Its bytes are handed over without a copy."""
    file = (ctypes.c_char_p, ctypes.c_size_t)
    return Calls(call('margin', Result, *file, ctypes.c_void_p, ctypes.c_size_t),
                 call('position_amount', ctypes.c_int64, *file, ctypes.c_uint64))


@functools.lru_cache(maxsize=None)
def factors_call():
    """The call for factors, apart from the others: a library before version 0.3.0 has those and not this one."""
    return call('factors', FactorsResult, ctypes.c_uint64, ctypes.c_uint64)


@functools.lru_cache(maxsize=None)
def day_call():
    """The call for a day, which writes to the file's bytes; a library before version 0.5.0 does not have it."""
    return call('day', Answer, ctypes.c_void_p, ctypes.c_size_t, *[ctypes.c_uint64] * 4)


FILE_AND_LIST = (ctypes.c_char_p, ctypes.c_size_t, ctypes.c_void_p, ctypes.c_size_t, ctypes.c_uint64)  # with the count


class InstalmentCalls(NamedTuple):
    """The library's calls for pairing in instalments, by their names in the C header, without its prefix."""
    pair: Callable
    amount_so_far: Callable


@functools.lru_cache(maxsize=None)
def instalment_calls():
    """The calls for pairing in instalments; a library before version 0.7.0 does not have them."""
    return InstalmentCalls(call('pair', Answer, *FILE_AND_LIST, ctypes.c_uint64),
                           call('amount_so_far', Answer, *FILE_AND_LIST))


@functools.lru_cache(maxsize=None)
def take_apart_call():
    """The call that takes pairs apart; a library before version 0.8.0 does not have it."""
    return call('take_apart', Answer, *FILE_AND_LIST, ctypes.c_uint64)


@functools.lru_cache(maxsize=None)
def load_call():
    """The call for a load, which writes to a buffer; a library before version 0.10.0 does not have it."""
    return call('load', Answer, ctypes.c_uint64, ctypes.c_uint64, ctypes.c_void_p, ctypes.c_size_t)


def list_of_lines():
    """A list that has room for the lines of any account, as C sees it."""
    return (ctypes.c_uint64 * (MOST_LINES * LINE_NUMBERS))()
