"""The command `serpentgleam`. usage.py says what each of its commands does."""
import os
import signal
import sys
from typing import Callable, NamedTuple, Tuple

from . import __version__, library, usage
from .answers import Refusal, Refused
from .codes import NAMES, code_named
from .engine import (amount_so_far_or_refusal, day_or_refusal, factors_or_refusal, load_or_refusal, margin_or_refusal,
                     pair, position_amount)
from .forms import number_of
from .inputs import (STANDARD_INPUT, Unread, called, names_in, read_account_file, read_either, read_text_file, shown)
from .lines import Unreadable
from .options import Options, WrongWords, read_options
from .output import Unwritten, keep_standard_files_apart, output_to, say
from .progress import Tally
from .reports import Amount, Asked, Csv, JsonLines, PlainText, SoFar, legible
from .suggestions import meant
from .text import check, file_and_broken_rules, text_from_file

DONE, REFUSED, FAILED = 0, 1, 2
DAY_NUMBERS = ('the series', 'the high', 'the low', 'the close')  # after the file's name
LOAD_NUMBERS = ('the seed', 'the number of positions')


class Command(NamedTuple):
    """A command: what it says of itself, the options it takes, and what it does, which gives the exit status."""
    usage: str
    options: Tuple[str, ...]
    run: Callable[[Options], int]


def form_of(options):
    """The form of the output that the options name."""
    return JsonLines() if options.json else Csv() if options.csv else PlainText()


def is_same_file(name, other):
    """Whether two names are of one file that is there."""
    try:
        return os.path.samefile(name, other)
    except (OSError, ValueError):
        return False


def output_of(options):
    """The output that the options name. A file that is named to be read is not written over."""
    if options.output is None:
        return output_to(None, None)
    read = options.names if options.list is None else [*options.names, options.list]
    if any(is_same_file(name, options.output) for name in read):
        raise WrongWords(f'{shown(options.output)} is read, and cannot be the output too')
    return output_to(options.output, shown(options.output))


def all_names(options, output):
    """The names given as words, then those of the list. What is collected is written before the list is waited for."""
    yield from options.names
    if options.list is not None:
        yield from names_in(options.list, b'\0' if options.null else b'\n', output.flush)


def check_names(options):
    """Some files are named, and standard input once at most."""
    if not options.names and options.list is None:
        raise WrongWords('no file is named; - is standard input')
    if [*options.names, options.list].count(STANDARD_INPUT) > 1:
        raise WrongWords('standard input can be read once only')


def over_files(options, tally, header, answer_one):
    """Writes what `answer_one` gives for each file: its bytes, and whether the file is in order."""
    check_names(options)
    library.calls()  # a library that is not there is named before anything is written
    with output_of(options) as output:
        output.write(header)
        try:
            for name in all_names(options, output):
                try:
                    answer, in_order = answer_one(name)
                except Unread as error:
                    tally.add_unread(str(error))
                    continue
                output.write(answer)
                tally.add(in_order)
        except Unread as error:  # the list of names
            tally.add_unread(str(error))
    tally.summary()
    return FAILED if tally.unread else REFUSED if tally.faulty else DONE


def run_margin(options):
    form = form_of(options)

    def answer_one(name):
        answer = margin_or_refusal(read_account_file(name))
        return form.answer(name, answer), not isinstance(answer, Refusal)

    return over_files(options, Tally('accepted', 'refused', options.quiet), form.answer_header, answer_one)


def run_check(options):
    form = form_of(options)

    def answer_one(name):
        faults = check(*read_either(name))
        return form.faults(name, faults), not faults

    return over_files(options, Tally('in order', 'with faults', options.quiet), form.fault_header, answer_one)


def is_whole(word):
    """Whether a word is a whole number."""
    return word.isascii() and word.isdigit()


def numbers_named(names, words):
    """The numbers that some words say, by their names for messages."""
    for name, word in zip(names, words):
        if not is_whole(word):
            raise WrongWords(f'{name} is a whole number from 0 on: {shown(word)}')
    return [number_of(word) for word in words]


def run_position(options):
    if len(options.names) != 2:
        raise WrongWords('position takes a file and a row')
    name, row = options.names
    if not is_whole(row):
        raise WrongWords(f'a row is a whole number from 0 on: {shown(row)}')
    form, row = form_of(options), number_of(row)
    try:
        answer, status = Amount(row, position_amount(read_account_file(name), row)), DONE
    except Refused as error:
        answer, status = error.refusal, REFUSED
    with output_of(options) as output:
        output.write(form.answer_header)
        output.write(form.answer(name, answer))
    return status


def code_and_days(words):
    """The two numbers that the words after `factors` say."""
    if len(words) != 2:
        raise WrongWords('factors takes a code and a number of days')
    code, days = words
    try:
        number = number_of(code) if is_whole(code) else code_named(shown(code))
    except ValueError as error:
        raise WrongWords(str(error)) from error
    if not is_whole(days):
        raise WrongWords(f'days are a whole number from 0 on: {shown(days)}')
    return number, number_of(days)


def run_factors(options):
    code, days = code_and_days(options.names)
    form, answer = form_of(options), factors_or_refusal(code, days)
    with output_of(options._replace(names=[])) as output:
        output.write(form.factor_header)
        output.write(form.factors(Asked(NAMES.get(code, code), days), answer))
    if not isinstance(answer, Refusal):
        return DONE
    if isinstance(form, PlainText):  # the others have the sentence among their fields
        say(answer.reason)
    return REFUSED


def file_and_day(words):
    """The file's name and the four numbers that the words after `day` say."""
    if len(words) != 1 + len(DAY_NUMBERS):
        raise WrongWords("day takes a file, a series, and the day's high, low and close")
    name, *numbers = words
    return name, numbers_named(DAY_NUMBERS, numbers)


def write_file(answer, options):
    """Writes an account file's bytes where the options say; or prints the refusal, and then nothing is written."""
    if isinstance(answer, Refusal):
        print_text(f'refused {answer.number} {answer.row}\n')
        say(answer.reason)
        return REFUSED
    with output_to(options.output, shown(options.output)) as output:
        output.write(answer)
    return DONE


def run_day(options):
    name, numbers = file_and_day(options.names)
    if options.output is None:  # the line of a refusal, which stands on standard output, is not taken for a file
        raise WrongWords('day writes an account file, and -o names where; it may be the file that is read')
    return write_file(day_or_refusal(read_account_file(name), *numbers), options)


def run_load(options):
    if len(options.names) != len(LOAD_NUMBERS):
        raise WrongWords('load takes a seed and a number of positions')
    numbers = numbers_named(LOAD_NUMBERS, options.names)
    if options.output is None:  # as for a day
        raise WrongWords('load writes an account file, and -o names where')
    return write_file(load_or_refusal(*numbers), options)


def file_and_allowance(words):
    """The file's name and the number that the words after `instalments` say."""
    if len(words) != 2:
        raise WrongWords('instalments takes a file and an allowance')
    name, allowance = words
    if not is_whole(allowance) or number_of(allowance) == 0:  # with 0 no pair is made, however many calls there are
        raise WrongWords(f'an allowance is a whole number from 1 on: {shown(allowance)}')
    return name, number_of(allowance)


def amounts_so_far(data, allowance):
    """The account before any pair and after each call that made some, until all are made; or the refusal."""
    pairs, answers = (), []
    while True:
        amount = amount_so_far_or_refusal(data, pairs)
        if isinstance(amount, Refusal):
            return amount
        answers.append(SoFar(len(pairs), amount))
        made = pair(data, pairs, allowance)
        if not made:
            return answers
        pairs += made


def run_instalments(options):
    name, allowance = file_and_allowance(options.names)
    form, answer = form_of(options), amounts_so_far(read_account_file(name), allowance)
    with output_of(options._replace(names=[name])) as output:
        output.write(form.instalment_header)
        output.write(form.instalments(name, answer))
    return REFUSED if isinstance(answer, Refusal) else DONE


def one_name(options):
    """The one file that is named, or standard input."""
    if len(options.names) > 1:
        raise WrongWords('one file is read, and here are ' + ', '.join(map(shown, options.names)))
    return options.names[0] if options.names else STANDARD_INPUT


def convert(options, read, converted):
    """Writes the first of what `converted` gives for the bytes that are read; the second are faults to warn of."""
    name = one_name(options)
    try:
        result, faults = converted(read(name))
    except Unreadable as error:
        for fault in error.faults:
            say(f'{called(name)}: {legible(str(fault))}')
        return REFUSED
    for fault in faults:
        say(f'warning: {called(name)}: {legible(str(fault))}')
    with output_of(options) as output:
        output.write(result)
    return DONE


def run_to_text(options):
    return convert(options, read_account_file, lambda data: (text_from_file(data), []))


def run_to_file(options):
    if options.output is None and os.isatty(1):
        raise WrongWords('an account file is not for a screen; -o names a file for it')
    return convert(options, read_text_file, file_and_broken_rules)


FORMS = ('json', 'csv', 'output')
FILES = (*FORMS, 'from', 'null', 'quiet')
COMMANDS = {
    'margin': Command(usage.MARGIN, FILES, run_margin),
    'position': Command(usage.POSITION, FORMS, run_position),
    'factors': Command(usage.FACTORS, FORMS, run_factors),
    'day': Command(usage.DAY, ('output',), run_day),
    'instalments': Command(usage.INSTALMENTS, FORMS, run_instalments),
    'load': Command(usage.LOAD, ('output',), run_load),
    'check': Command(usage.CHECK, FILES, run_check),
    'to-text': Command(usage.TO_TEXT, ('output',), run_to_text),
    'to-file': Command(usage.TO_FILE, ('output',), run_to_file),
}


def print_text(text):
    """Writes a text to standard output."""
    with output_to(None, None) as output:
        output.write(text.encode())
    return DONE


def run(words):
    """Does what the words say; gives the exit status."""
    if not words:
        raise WrongWords('a command is missing: ' + ', '.join(COMMANDS))
    word, *rest = words
    if word in ('--help', '-h', 'help'):
        return print_text(usage.COMMAND)
    if word in ('--version', '-V'):
        return print_text(f'serpentgleam {__version__}\n')
    if word not in COMMANDS:
        raise WrongWords(f'there is no command {shown(word)}' + meant(word, [*COMMANDS, '--help', '--version']))
    command = COMMANDS[word]
    options = read_options(rest, command.options)
    return print_text(command.usage) if options.help else command.run(options)


def end_in_order(number, _frame):
    """On a signal that ends the process: leaves no temporary file behind."""
    sys.exit(128 + number)


def main(words=None):
    """Runs the command on the words of the call; gives the exit status. Nothing that goes wrong shows a traceback."""
    keep_standard_files_apart()
    for number in (signal.SIGTERM, signal.SIGHUP):
        if signal.getsignal(number) == signal.SIG_DFL:
            signal.signal(number, end_in_order)
    words = sys.argv[1:] if words is None else words
    try:
        return run(words)
    except WrongWords as error:
        say(str(error))
        known = [word for word in words[:1] if word in COMMANDS]
        say(' '.join(['serpentgleam', *known, '--help']) + ' says more')
    except (Unread, Unwritten, library.NotFound) as error:
        say(str(error))
    except KeyboardInterrupt:
        say('interrupted; the output is not whole')
        return 128 + signal.SIGINT
    except Exception as error:  # a fault of the command itself
        say(f'this should not happen: {type(error).__name__}: {error}')
    return FAILED
