"""How far a run over many files is, and its summary, on standard error."""
import os
import time

from .output import say, show

FIRST_SHOWN = 1.0  # seconds after the start
SHOWN_AGAIN = 0.2  # seconds after the last time
LOOKED_AT = 64     # files after which the clock is looked at
ERASE_LINE = '\r\x1b[K'


class Tally:
    """Counts files that are in order, faulty or not read, the first two by their words. On a terminal the counts are
    shown while a long run lasts; `quiet` leaves out these and the summary.
    """

    def __init__(self, in_order_word, faulty_word, quiet):
        self.in_order = self.faulty = self.unread = 0
        self.in_order_word, self.faulty_word, self.quiet = in_order_word, faulty_word, quiet
        self.terminal = not quiet and os.isatty(2)
        self.next_time = time.monotonic() + FIRST_SHOWN
        self.line_shown = False

    @property
    def files(self):
        return self.in_order + self.faulty + self.unread

    def add(self, in_order):
        """Counts a file that was read."""
        self.in_order += in_order
        self.faulty += not in_order
        if self.terminal and self.files % LOOKED_AT == 0 and time.monotonic() >= self.next_time:
            self.show()

    def add_unread(self, sentence):
        """Counts a file that cannot be read, and says why."""
        self.erase()
        say(sentence)
        self.unread += 1

    def counts(self):
        unread = f', {self.unread} not read' if self.unread else ''
        return f'{self.in_order} {self.in_order_word}, {self.faulty} {self.faulty_word}{unread}'

    def show(self):
        """Shows the counts in place of those before."""
        self.erase()
        show(self.counts())
        self.line_shown = True
        self.next_time = time.monotonic() + SHOWN_AGAIN

    def erase(self):
        if self.line_shown:
            show(ERASE_LINE)
            self.line_shown = False

    def summary(self):
        """Says the counts at the end of a run."""
        self.erase()
        if not self.quiet:
            say(f'{self.files} file{"s" * (self.files != 1)}: {self.counts()}')
