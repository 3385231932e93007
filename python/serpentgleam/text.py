"""An account as text that people write and read, turned into the account file and back; every fault of either."""
from .answers import Refusal
from .engine import margin_or_refusal
from .faults import Fault, all_row_faults, trailer_faults
from .layout import TRAILER, account_of, file_of
from .lines import Unreadable, read_account, read_text, write_account

EXAMPLE = r'''
    # A written call, hedged in part
    cover text="from the branch, 14 August\n"
    series call PV=3000 fa=1.2 fb=0.8 f3=0.05 M=5
    written series=0 Q=10 PE=3100 european
    held series=0 Q=4 PE=3250 european
    held series=0 Q=3 PE=3000 premium=20 european
    written series=0 Q=1 PE=3100 PB=3300 up-and-out=3500 REB=40 european
'''

COUNTED = {'series count': 'series', 'position count': 'position'}  # what the trailer's counts count
MOST = {field.name: field.limits.most for field in TRAILER.fields if field.name in COUNTED}


def file_from_text(text):
    """The bytes of the account file for the bytes of a text."""
    return file_of(read_account(text))


def text_from_file(data):
    """The bytes of the text for the bytes of an account file."""
    faults = trailer_faults(data)
    if faults:
        raise Unreadable([Fault(sentence=f'refused {faults[0].refusal} 0: {faults[0].sentence}')])
    return ''.join(line + '\n' for line in write_account(account_of(data))).encode('utf-8')


def line_of_fault(fault, numbers):
    """The line of the faulty row, or of the first row too many. `numbers` has the lines of the rows by their table."""
    if fault.row is not None:
        return numbers[fault.table][fault.row]
    counted = numbers.get(COUNTED.get(fault.field), [])
    return counted[MOST[fault.field]] if counted and len(counted) > MOST[fault.field] else None


def file_and_broken_rules(data):
    """The account file of a text, and each rule that it breaks, with its line."""
    account, text = read_text(data)
    file = file_of(account)
    numbers = {table: text.line_numbers(table) for table in COUNTED.values()}
    faults = trailer_faults(file) + all_row_faults(account)
    return file, [fault._replace(line=line_of_fault(fault, numbers)) for fault in faults]


def file_and_faults(data, is_text):
    """The account file of a text or of itself, and its faults. A text that cannot be read gives None for the file."""
    if not is_text:
        return data, trailer_faults(data) or all_row_faults(account_of(data))
    try:
        return file_and_broken_rules(data)
    except Unreadable as error:
        return None, error.faults


def check(data, is_text):
    """Each fault of a text or an account file; where the engine's answer is another one, that too, for it decides."""
    file, faults = file_and_faults(data, is_text)
    if file is None:
        return faults
    answer = margin_or_refusal(file)
    expected = Refusal(faults[0].refusal, faults[0].row or 0) if faults else None
    if expected == (answer if isinstance(answer, Refusal) else None):
        return faults
    own = str(answer) if isinstance(answer, Refusal) else 'the file is accepted'
    return faults + [Fault(sentence=f"the engine's own answer, which decides: {own}")]
