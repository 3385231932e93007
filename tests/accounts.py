"""Account files by short names of their fields, for the scripts beside this one. serpentgleam.layout packs them."""
import os

from top import path

from serpentgleam import layout

FLAGS = [field for field in layout.POSITION.fields if field.offset == 4]


def number(data):
    return int.from_bytes(bytes(data), 'little')


def series(pv=3000, fa=1_200_000, fb=800_000, f3=50_000, m=5, option=0, spare=(0, 0, 0)):
    return {'PV': pv, 'fa': fa, 'fb': fb, 'f3': f3, 'M': m, 'type': option, 'spare': number(spare)}


def position(series=0, side=1, kind=0, flags=4, blocked=0, q=10, pe=3100, pb=0, price=0, reb=0, premium=0):
    return {'series': series, 'side': side, 'kind': kind, **{flag.name: flags & flag.bits for flag in FLAGS},
            'blocked': blocked, 'Q': q, 'PE': pe, 'PB': pb, 'barrier-price': price, 'REB': reb, 'premium': premium}


def account(rows, positions, s=None, p=None, distance=None, tail=(0, 0, 0, 0), cover=b''):
    """The file's bytes. What the trailer says can be given; the distance is that of the counts it says."""
    s = len(rows) if s is None else s
    p = len(positions) if p is None else p
    distance = layout.distance(s, p) if distance is None else distance
    return layout.file_of(layout.Account(cover, rows, positions), (s, p, distance, number(tail)))


def one(**fields):
    """An account of one call series and one position row with these fields."""
    return account([series()], [position(**fields)])


def last(**fields):
    """The same row as the last of three, after two that are in order."""
    return account([series()], [position(), position(), position(**fields)])


CALL = [series()]
PUT = [series(option=1)]
EXAMPLE = account(CALL, [position(), position(side=0, q=4, pe=3250), position(side=0, q=3, pe=3000, premium=20)],
                  cover=b'Serpentgleam example account\n')


def write(name, data):
    """Writes a file of the repository."""
    os.makedirs(os.path.dirname(path(name)), exist_ok=True)
    with open(path(name), 'wb') as out:
        out.write(data)
