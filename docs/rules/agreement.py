"""Where hand arithmetic and product meet: what the product prints, if it is what the hand arithmetic says."""
from . import apart, blocked, instalments, load, product
from .day import refused, text_after
from .pairing import answer_of
from .product import file_after, file_from_text, printed
from .terms import rows_from


class Differs(Exception):
    """The product does not answer what documents 01 and 02 say by the hand arithmetic."""


def same(what, product, hand):
    """The product's answer; raises Differs where the hand arithmetic has another."""
    if product != hand:
        raise Differs(f'{what}\nthe product has {product}\nby hand it is   {hand}')
    return product


def agreed(text):
    """The lines that margin prints for an account's text."""
    return same(text, printed(file_from_text(text)), answer_of(rows_from(text)).lines)


def agreed_day(text, day):
    """An account's text after a day that is in order: day_batch writes its file, and for the same day once more too."""
    after = text_after(text, day)
    made = ('day', file_from_text(after))
    for before in (text, after):
        same(f'{before}{day}', file_after(file_from_text(before), day), made)
    agreed(after)
    return after


def agreed_refusal(text, day):
    """The line that day_batch writes for a day that is refused; the file after it is as it was."""
    file = file_from_text(text)
    return same(f'{text}{day}', file_after(file, day), (refused(text, day), file))[0]


def agreed_amounts(text, name, allowance):
    """The lines that the command prints for an account in instalments; after the last pair the amount is the total."""
    rows = rows_from(text)
    hand = [(count, instalments.amount_after(rows, count)) for count in instalments.counts_between(rows, allowance)]
    same(name, agreed(text)[-1], f'total {hand[-1][1]}')
    return same(f'{name} {allowance}', product.instalments_printed(name, allowance),
                [f'pairs {count} {amount}' for count, amount in hand])


def agreed_margin(text, entries):
    """What serpentgleam_margin answers for an account's text and a list, and the list after it."""
    return same(f'{text}{entries}', product.margined(file_from_text(text), entries),
                blocked.margined(rows_from(text), entries))


def agreed_call(text, entries, count, allowance):
    """What serpentgleam_pair answers for an account's text and a list, and the list after it."""
    return same(f'{text}{entries} {count} {allowance}', product.paired(file_from_text(text), entries, count, allowance),
                instalments.paired(rows_from(text), entries, count, allowance))


def agreed_amount(text, entries, count):
    """What serpentgleam_amount_so_far answers for them."""
    return same(f'{text}{entries} {count}', product.amount_so_far(file_from_text(text), entries, count),
                instalments.amount_so_far(rows_from(text), entries, count))


def agreed_apart(text, entries, count, k):
    """What serpentgleam_take_apart answers for them and a number of pairs, and the list after it."""
    return same(f'{text}{entries} {count} {k}', product.taken_apart(file_from_text(text), entries, count, k),
                apart.taken_apart(rows_from(text), entries, count, k))


def agreed_load(seed, p, before):
    """What serpentgleam_load answers for a seed, a number of positions and a buffer, and the buffer after it."""
    hand = ('refused 20 0', before)
    if not load.refused(seed, p, len(before)):
        text = load.text_of(seed, p)
        file = file_from_text(text)
        agreed(text)
        hand = (str(load.size(p)), file + before[len(file):])
    return same(f'load {seed} {p} {len(before)}', product.loaded(seed, p, before), hand)
