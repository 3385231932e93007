"""The examples of a block, and the accounts of the folder examples."""
import re

from .product import ROOT
from .terms import SERIES_TEXT


def examples_in(block):
    """Each example of a block, as it is shown and as an account's text. `call:` stands for the usual call series."""
    for example in block.strip('\n').split('\n\n'):
        text = re.sub(r'^(call|put):', lambda found: SERIES_TEXT[found[1]] + '\n', example, flags=re.MULTILINE)
        yield example, text


def in_block(parts):
    """Examples in a block that is shown as it is."""
    return '```text\n' + '\n\n'.join(parts) + '\n```'


def short(example):
    """An example's rows for a table: without the words that all rows of the tables share."""
    notes = [line[2:] + ':' for line in example.split('\n') if line.startswith('#')]
    rows = [re.sub(r' Q=10| european', '', line) for line in example.split('\n') if not line.startswith('#')]
    return '<br>'.join(notes + [f'`{row}`' for row in rows])


def priced(arithmetic, product):
    """The last cell of a table: the amount, and the product's lines."""
    return '<br>'.join(([arithmetic] if arithmetic else []) + [f'`{line}`' for line in product])


def account_text_of(name):
    """The text of an account of the folder examples, by its path from the top."""
    return (ROOT / name).read_text('utf-8')


def account_bytes(name):
    """The bytes of the account file beside such a text."""
    return (ROOT / name).with_suffix('.account').read_bytes()
