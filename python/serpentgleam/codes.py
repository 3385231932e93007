"""The codes of the circular's table of factors, by their names and numbers."""

CODES = {'FCI': 0, 'FPI': 1, 'OFC': 2, 'OFV': 3}
NAMES = {number: name for name, number in CODES.items()}


def code_named(name):
    """The number of a code by its name, in capitals or small letters; raises ValueError with a sentence."""
    if name.isascii() and name.upper() in CODES:
        return CODES[name.upper()]
    raise ValueError(f'there is no code {name}; the codes are FCI, FPI, OFC and OFV, or 0 to 3')
