"""The library's call for the premiums of an account: what its margin has beside the amounts of its lines, and the same
refusals.
"""
import ctypes
import unittest

from support import DOCUMENT, SERIES_TEXT, VECTORS, bytes_of, without_positions

from serpentgleam import Refusal, library, margin_or_refusal
from serpentgleam.text import file_from_text


def premiums(data):
    """Refusal, row and value of the call, for these bytes or for NULL."""
    call = library.load().serpentgleam_premiums
    call.argtypes, call.restype = [ctypes.c_char_p, ctypes.c_size_t], library.Answer
    answer = call(data, len(data or b''))
    return answer.refusal, answer.row, answer.value


class Premiums(unittest.TestCase):
    def test_document(self):
        self.assertEqual(premiums(bytes_of(DOCUMENT)), (0, 0, 300))

    def test_vectors(self):
        with_premiums = 0
        for data, _ in VECTORS:
            answer = margin_or_refusal(data)
            expected = (*answer, 0) if isinstance(answer, Refusal) else (0, 0, answer.premium)
            self.assertEqual(premiums(data), expected)
            with_premiums += expected[2] > 0
        self.assertGreater(with_premiums, 0)

    def test_no_positions(self):
        for data in without_positions():
            self.assertEqual(premiums(data), (0, 0, 0))

    def test_no_bytes(self):
        for data in (None, b''):
            self.assertEqual(premiums(data), (1, 0, 0))

    def test_the_most_that_there_can_be(self):
        series = SERIES_TEXT.replace('M=5', 'M=1000')
        rows = 'held Q=100000 PE=3000 premium=10000000 european\n' * 256
        self.assertEqual(premiums(file_from_text((series + rows).encode())), (0, 0, 256 * 100_000 * 10_000_000 * 1_000))


if __name__ == '__main__':
    unittest.main()
