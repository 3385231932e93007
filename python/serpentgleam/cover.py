"""The cover sheet, any bytes, as `cover` lines: text where it can be printed, hexadecimal digits elsewhere."""
import re

ESCAPES = {'n': '\n', 'r': '\r', 't': '\t', '"': '"', '\\': '\\'}
LETTERS = {character: '\\' + letter for letter, character in ESCAPES.items()}
TEXT_LENGTH = 80  # characters on one line
HEX_LENGTH = 32   # bytes on one line
LINE_SENTENCE = ('a cover line is cover text="..." or cover hex=..., with \\" for a quote in the text, '
                 'and nothing but a comment after it')


def can_be_printed(text):
    return all(character.isprintable() or character in LETTERS for character in text)


def pieces(whole, length):
    return [whole[at:at + length] for at in range(0, len(whole), length)]


def lines_of_piece(piece):
    """The lines for one line of the cover sheet, its line feed included."""
    try:
        text = piece.decode('utf-8')
    except UnicodeDecodeError:
        text = None
    if text is not None and can_be_printed(text):
        for part in pieces(text, TEXT_LENGTH):
            yield 'cover text="' + ''.join(LETTERS.get(character, character) for character in part) + '"'
        return
    for part in pieces(piece, HEX_LENGTH):
        legible = ''.join(chr(byte) if 0x20 <= byte < 0x7f else '.' for byte in part)
        yield f'cover hex={part.hex()}  # {legible}'


def write_cover(cover):
    return [line for piece in re.findall(b'[^\n]*\n|[^\n]+', cover) for line in lines_of_piece(piece)]


def unescape(text):
    def character(escape):
        if escape[1] not in ESCAPES:
            raise ValueError(f'{escape[0]} is not one of ' + ' '.join(LETTERS.values()))
        return ESCAPES[escape[1]]
    return re.sub(r'\\(.)', character, text)


def read_hex(digits):
    if not re.fullmatch('([0-9a-fA-F]{2})+', digits):
        raise ValueError(f'{digits or "an empty value"} is not an even number of hexadecimal digits')
    return bytes.fromhex(digits)


def read_cover(rest):
    """The bytes that a line gives after its word `cover`, and the faults, each a field and a sentence."""
    found = re.fullmatch(r'\s*(?:(text)="((?:[^"\\]|\\.)*)"|(hex)=([^\s#]*))\s*(?:#.*)?', rest)
    if not found:
        begun = re.match(r'\s*(text|hex)=', rest)
        return b'', [(begun[1] if begun else 'cover', LINE_SENTENCE)]
    try:
        return (unescape(found[2]).encode('utf-8') if found[1] else read_hex(found[4])), []
    except ValueError as error:
        return b'', [(found[1] or found[3], str(error))]
