"""What the command says of itself."""
from .text import EXAMPLE

COMMAND = '''usage: serpentgleam COMMAND ..

  margin FILE..          pairs, rows left, premium and total of account files, or why they are refused
  position FILE ROW      the amount of one position row by itself
  factors CODE DAYS      the factors fa and fb of a series, by the circular's row of a code and the days to expiry
  day FILE SERIES ..     the account file after a day: high, low and close of a series
  instalments FILE ..    an account's amount before any pair and after each call, so many pairs a call
  load SEED P            the account file of a seed and a number of positions, the same on every machine
  check FILE..           every fault of texts and account files, with line, row and field
  to-text [FILE]         an account file as text
  to-file [TEXT]         the account file of a text
  COMMAND --help         what a command takes
  --version

Amounts are in centavos: those of lines and of written positions are rounded up to whole reais, multiples of 100,
premiums are exact, totals not rounded. Factors are whole millionths; rows are counted from 0. Status 0: all accepted;
1: something refused or faulty; 2: a wrong word, or a file that cannot be read or written.
'''

CSV_AND_OUTPUT = '''  --csv                  CSV, the first row names the fields
  -o, --output OUTPUT    into this file, which appears whole when all is done or not at all
'''

FORMS = '''  --json                 JSON Lines, an object for each file
''' + CSV_AND_OUTPUT

NAMES = '''  FILE                   - is standard input
  --from LIST            the files whose names stand in LIST, a line for each; - is standard input
  -0, --null             names in LIST end in a zero byte, as find -print0 writes them
'''

QUIET = '''  -q, --quiet            no summary on standard error
'''

MARGIN = '''usage: serpentgleam margin [--json | --csv] [-o OUTPUT] [-q] [--from LIST [-0]] [FILE..]

Prints each line of an answer after its file's name and a tab: as the program margin prints it, and the sentence of a
refusal after another tab. A summary stands on standard error. A file that cannot be read is named there and has no
answer; the others are answered. An account without positions has premium 0 and total 0 and no other line. The line of
a held row left counts its blocked contracts too. Amounts are in centavos: that of a pair or of a row left is rounded up
to a multiple of 100, premiums are exact, the total is their sum.

''' + NAMES + FORMS + QUIET + '''
Text     pair WRITTEN-ROW HELD-ROW CONTRACTS AMOUNT, left ROW CONTRACTS AMOUNT, premium AMOUNT, total AMOUNT, or
         refused NUMBER ROW. In a file's name \\t \\n \\r \\\\ are a tab, line feed, carriage return and backslash.
JSON     file, lines (each with kind, written, held, contracts and amount, or kind, row, contracts and amount), premium,
         total; or file and refused (number, row, reason). Amounts can be above 2^53, which not every reader of JSON
         takes whole. In a name, bytes that are not UTF-8 are written \\xNN, and file_hex has all its bytes.
CSV      file, kind (pair, left, premium, total or refused), written, held, row, contracts, amount, number, reason.

Several processes may write to one pipe or file: none writes into another's answer.
'''

POSITION = '''usage: serpentgleam position [--json | --csv] [-o OUTPUT] FILE ROW

Prints the file's name, a tab and amount ROW AMOUNT, in centavos: of a written position its margin by itself, rounded up
to a multiple of 100, of a held one its unsettled premium, exact. Or refused NUMBER ROW, and after a tab why; the number
is 13 where there is no such row.

  FILE                   - is standard input
''' + FORMS

FACTORS = '''usage: serpentgleam factors [--json | --csv] [-o OUTPUT] CODE DAYS

Prints FA FB: the high and the low stress factor that the circular's row of a code gives for the days to expiry, in
millionths as a series row of an account file holds them. In an account's text they are decimals: 1863083 is written
fa=1.863083. Or refused 14 0, and why on standard error, where the code is not 0 to 3 or the days are above 1800.

  CODE                   FCI, FPI, OFC or OFV, in capitals or small letters, or its number: 0, 1, 2 or 3
  DAYS                   calendar days to expiry, 0 to 1800
  --json                 a JSON object
''' + CSV_AND_OUTPUT + '''
JSON     code, days, fa, fb; or code, days and refused (number, row, reason). The code is a name, or a number where it
         has none; a number above 2^64 is written as 2^64.
CSV      code, days, fa, fb, number, row, reason
'''

DAY = '''usage: serpentgleam day -o OUTPUT FILE SERIES HIGH LOW CLOSE

Writes the account file brought up to date after a day. PV of the series becomes the close. In the series' rows a
knock-in is marked knocked-in (flag 1) and a knock-out knocked-out (flag 16) where the day touched its barrier: the high
at or above an up barrier, or the low at or below a down barrier. Every other byte stays, the cover sheet and blocked
contracts too. The same day once more changes nothing.

Nothing is printed. Or refused NUMBER ROW, and why on standard error: the number is that of the file's refusal, or 16
where there is no such series, or 17 where the high is below the low, the close is not between them, or one of the three
is not 1 to 10000000. Then OUTPUT is not written.

  FILE                   - is standard input
  SERIES                 the series row, counted from 0
  HIGH LOW CLOSE         prices of the day in whole ticks
  -o, --output OUTPUT    into this file, which appears whole or not at all; it may be FILE itself
'''

INSTALMENTS = '''usage: serpentgleam instalments [--json | --csv] [-o OUTPUT] FILE ALLOWANCE

Pairs an account in instalments and prints, after the file's name and a tab, pairs PAIRS AMOUNT: how many pairs are made
and the amount so far in centavos, that of the pairs, of each row's contracts left (0 if held) and of the premiums. The
first line is that before any pair, then there is one for each call that made pairs; the last is that after all pairs,
whose amount is the total of margin. A pair can raise the amount, by at most 100 centavos. Or refused NUMBER ROW, and
after a tab why.

  FILE                   - is standard input
  ALLOWANCE              the most pairs that a call makes, 1 or more
''' + FORMS + '''
JSON     file, instalments (each with pairs and amount); or file and refused (number, row, reason)
CSV      file, pairs, amount, number, row, reason
'''

LOAD = '''usage: serpentgleam load -o OUTPUT SEED P

Writes the account file of a load: one series and P positions, whose prices, factors, sides, barriers and contracts are
drawn in a fixed order by a generator that begins with the seed. The same SEED and P give the same bytes on every
machine, and every such file is accepted. All positions are European; none has a limiter, a premium or blocked
contracts, and there is no cover sheet. The file has 36 + 32 x P bytes.

Nothing is printed. Or refused 20 0, and why on standard error, where the seed is not 1 to 2147483646 or P is not 1 to
256. Then OUTPUT is not written.

  SEED                   1 to 2147483646
  P                      how many positions the account has, 1 to 256
  -o, --output OUTPUT    into this file, which appears whole or not at all
'''

CHECK = '''usage: serpentgleam check [--json | --csv] [-o OUTPUT] [-q] [--from LIST [-0]] [FILE..]

Prints every fault of texts and account files, with the file's name, the line of a text, the row, the field and the
number of the refusal, where it has them. Nothing else is written. The engine's own answer decides: where it is not the
first fault, it is printed too. Files whose names end in .txt are texts, in .account account files; others are texts
where they have no zero byte.

''' + NAMES + FORMS + QUIET + '''
JSON     file, faults (each with line, table, row, field, refusal, sentence; null where it has none)
CSV      file, line, table, row, field, refusal, sentence; a row for each fault
'''

TO_TEXT = '''usage: serpentgleam to-text [-o OUTPUT] [FILE]

Writes an account file as text; without FILE that of standard input. Under a row that is out of order stands why, with
the number of the refusal: a help for reading, the engine's own answer decides. Back through to-file the text gives the
same bytes. A file refused with 1, 2 or 4 has no rows to show; then one sentence says what is wrong with its trailer.

  -o, --output OUTPUT    into this file, which appears whole when all is done or not at all
'''

TO_FILE = '''usage: serpentgleam to-file [-o OUTPUT] [TEXT]

Writes the account file of a text; without TEXT that of standard input. A faulty text gives no file: each fault is named
with line and field. A text that breaks a rule of account files gives its file; each rule is named on standard error.

  -o, --output OUTPUT    into this file, which appears whole when all is done or not at all

The text:
''' + EXAMPLE + r'''
One line a series, one a position, # begins a comment. After the first word the words are in any order. Series rows and
position rows are each counted from 0 in the order of their lines. An account without positions has series lines alone.

series         call or put, PV, fa, fb, f3, M. A factor is always a decimal with its point and at most six places (1.0,
               0.05): without the point it is an error, so that nobody takes 1200000 millionths for a factor of 1200000.
held, written  series (may be left out where there is only one), Q, PE; if the position has it PB (the limiter), one
               barrier with its price (up-and-in=, down-and-in=, up-and-out= or down-and-out=), REB, premium, blocked
               (of a held one: how many of its contracts are pledged elsewhere and serve in no pair, at most Q), and the
               words knocked-in and knocked-out (already), european, before-annex (opened before it).
cover          text="..." with \n \r \t \" \\ for what cannot stand there, or hex=...; several lines follow one another.

Raw values, for rows that are refused: type=7 in place of call or put; position side=3 in place of held or written;
kind=9 and barrier-price=3500 in place of a barrier; PB-without-flag=3300; other-flags=160 for flags that have no word;
blocked=11 on a written line or above Q; of a series line spare=01ff00. Every value is written that fits its field.
'''
