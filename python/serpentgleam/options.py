"""The words after a command: its options and the names it is given."""
import getopt
from typing import List, NamedTuple, Optional

from .inputs import shown
from .suggestions import meant

LONG = {'o': 'output', '0': 'null', 'q': 'quiet', 'h': 'help'}  # the long option of a letter
VALUED = ('output', 'from')


class WrongWords(Exception):
    """What is wrong with the words of a call."""


class Options(NamedTuple):
    """The options that were given, each with its value, or None or False."""
    help: bool = False
    json: bool = False
    csv: bool = False
    quiet: bool = False
    null: bool = False
    output: Optional[str] = None
    list: Optional[str] = None
    names: List[str] = []


def long_words(allowed):
    """The allowed long options, as getopt takes them."""
    return [word + '=' * (word in VALUED) for word in allowed]


def letters(allowed):
    """Their letters, as getopt takes them."""
    return ''.join(letter + ':' * (word in VALUED) for letter, word in LONG.items() if word in allowed)


def wrong_option(error, allowed):
    """The sentence for an error that getopt found."""
    option = shown(error.opt)
    if 'not recognized' in error.msg:
        dashes = '--' if len(option) > 1 else '-'
        return f'there is no option {dashes}{option}' + meant(dashes + option, ['--' + word for word in allowed])
    return shown(error.msg)


def read_options(words, allowed):
    """The options and names in the words after a command that takes these options."""
    allowed = ('help', *allowed)
    try:
        found, names = getopt.gnu_getopt(words, letters(allowed), long_words(allowed))
    except getopt.GetoptError as error:
        raise WrongWords(wrong_option(error, allowed)) from error
    given = {'names': names}
    for option, value in found:
        word = LONG.get(option.lstrip('-'), option.lstrip('-'))
        given['list' if word == 'from' else word] = value if word in VALUED else True
    options = Options(**given)
    if options.json and options.csv:
        raise WrongWords('the output is JSON or CSV, and not both')
    if options.null and options.list is None:
        raise WrongWords('--null is about the names in a list, and --from names none')
    return options
