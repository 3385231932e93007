"""The words of a series line and of a position line: from words to the values of a row, and back."""
from typing import NamedTuple, Optional, Tuple

from .layout import POSITION, SERIES, Table
from .suggestions import meant


class Word(NamedTuple):
    """A word alone or, where it takes a field's value, NAME=VALUE. `sets` has the values that it gives by itself."""
    name: str
    takes: Optional[str]
    sets: dict
    fields: Tuple[str, ...]  # all that it gives


class Line(NamedTuple):
    """A kind of line: its table, its table's fields and its words by name, these in the order of writing; and words
    that it took before, by name with a sentence.
    """
    table: Table
    fields: dict
    words: dict
    former: dict

    @property
    def defaults(self):
        return {name: field.default for name, field in self.fields.items()}


def alone(name, **sets):
    return Word(name, None, sets, tuple(sets))


def valued(field, name=None, **sets):
    return Word(name or field, field, sets, (*sets, field))


def flag(name):
    bit = next(field.bits for field in POSITION.fields if field.name == name)
    return alone(name, **{name: bit})


def line_of(table, *words, former=()):
    fields = {field.name: field for field in table.fields}
    return Line(table, fields, {word.name: word for word in words}, dict(former))


SERIES_LINE = line_of(
    SERIES, alone('call', type=0), alone('put', type=1), valued('type'),
    valued('PV'), valued('fa'), valued('fb'), valued('f3'), valued('M'), valued('spare'))

POSITION_LINE = line_of(
    POSITION, alone('held', side=0), alone('written', side=1), valued('side'),
    valued('series'), valued('Q'), valued('PE'), valued('PB', limiter=2), valued('PB', 'PB-without-flag', limiter=0),
    valued('barrier-price', 'up-and-in', kind=1), valued('barrier-price', 'down-and-in', kind=2),
    valued('barrier-price', 'up-and-out', kind=3), valued('barrier-price', 'down-and-out', kind=4),
    valued('kind'), valued('barrier-price'), valued('REB'), valued('premium'), valued('blocked'),
    flag('knocked-in'), flag('knocked-out'), flag('european'), flag('before-annex'), valued('other-flags'),
    former={'spare': 'no word of a position line any more: bytes 5 to 7 of its row are the number of contracts '
                     'blocked, written blocked=...'})


def write_words(line, row):
    """The words of a row, without those whose fields all have their defaults or are given by a word before."""
    given, texts = set(), []
    for word in line.words.values():
        fitting = given.isdisjoint(word.fields) and all(row[name] == value for name, value in word.sets.items())
        if fitting and any(row[name] != line.fields[name].default for name in word.fields):
            given.update(word.fields)
            value = '=' + line.fields[word.takes].form.write(row[word.takes]) if word.takes else ''
            texts.append(word.name + value)
    return texts


def read_value(field, text):
    """The field's value, or ValueError with a sentence."""
    value = field.form.read(text)
    if value & ~field.bits:
        step = field.bits & -field.bits
        steps = f' in steps of {step}' if step > 1 else ''
        raise ValueError(f'{text} does not fit the field, which holds '
                         f'{field.form.write(0)} to {field.form.write(field.bits)}{steps}')
    return value


def read_word(line, text, given):
    """The values that a word gives, or ValueError with a sentence. `given` has the words so far, by their fields."""
    name, equals, value = text.partition('=')
    word = line.words.get(name)
    if word is None:
        if name in line.former:
            raise ValueError(line.former[name])
        raise ValueError(f'no such word in a {line.table.name} line, which takes {", ".join(line.words)}'
                         + meant(name, line.words))
    before = [given[field] for field in word.fields if field in given]
    given.update((field, name) for field in word.fields)
    if before:
        raise ValueError('given twice' if before[0] == name else f'the line has {before[0]} already')
    if equals and not word.takes:
        raise ValueError('takes no value')
    if word.takes and not value:
        raise ValueError(f'needs a value, written {name}=... without spaces')
    return {**word.sets, word.takes: read_value(line.fields[word.takes], value)} if word.takes else word.sets


def fault_of_missing(line, field):
    ways = [word.name for word in line.words.values() if field in word.fields]
    return 'missing' if ways == [field] else f'missing, given by {", ".join(ways[:-1])} or {ways[-1]}'


def read_words(line, texts, defaults):
    """The row that the words give, and the faults, each a field and a sentence. Without a default a field is needed."""
    row, given, faults = dict(defaults), {}, []
    for text in texts:
        try:
            row.update(read_word(line, text, given))
        except ValueError as error:
            faults.append((text.partition('=')[0] or text, str(error)))
    missing = [name for name in defaults if defaults[name] is None and name not in given]
    return row, faults + [(name, fault_of_missing(line, name)) for name in missing]
