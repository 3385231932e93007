"""The C header says what the module says: version, limits, kinds of lines, codes, refusals and their sentences. The
manual page names every command and option.
"""
import re
import unittest

from support import bytes_of

import serpentgleam
from serpentgleam import engine, layout, library, usage

HEADER = bytes_of('include', 'serpentgleam.h').decode()
MANUAL = bytes_of('man', 'serpentgleam.1').decode().replace('\\-', '-')
DEFINED = dict(re.findall(r'^#define SERPENTGLEAM_(\w+) (.+)$', HEADER, re.MULTILINE))
NUMBERS = {name: int(said) for name, said in DEFINED.items() if said.isdecimal()}
MEMBERS = re.findall(r'"(\w+)"', re.search(r'members = \[(.*)\]', bytes_of('Cargo.toml').decode())[1])


def limit(table, name):
    """The most that a field may say."""
    return next(field.limits.most for field in table.fields if field.name == name)


def fields_of(name):
    """The fields of a struct of the header, which are all of 64 bits."""
    inside = re.search(rf'^struct serpentgleam_{name} \{{\n((?:    uint64_t \w+;\n)+)\}};$', HEADER, re.MULTILINE)[1]
    return re.findall(r'(\w+);', inside)


class Versions(unittest.TestCase):
    def test_header(self):
        self.assertEqual(DEFINED['VERSION'], f'"{serpentgleam.__version__}"')
        self.assertEqual([NUMBERS['VERSION_' + part] for part in ('MAJOR', 'MINOR', 'PATCH')],
                         [int(part) for part in serpentgleam.__version__.split('.')])

    def test_cargo(self):
        self.assertIn('library', MEMBERS)
        for member in MEMBERS:
            said = re.findall(r'^version = "(.*)"$', bytes_of(member, 'Cargo.toml').decode(), re.MULTILINE)
            self.assertEqual(said, [serpentgleam.__version__], member)

    def test_manual(self):
        self.assertIn(f'"Serpentgleam {serpentgleam.__version__}"', MANUAL)


class Numbers(unittest.TestCase):
    def test_limits(self):
        self.assertEqual({name: number for name, number in NUMBERS.items() if name.startswith('MOST_')}, {
            'MOST_BYTES': layout.LONGEST_FILE,
            'MOST_SERIES': limit(layout.TRAILER, 'series count'),
            'MOST_POSITIONS': limit(layout.TRAILER, 'position count'),
            'MOST_LINES': library.MOST_LINES,
            'MOST_DAYS': 1800,
            'MOST_SEED': 2 ** 31 - 2,
            'MOST_LOAD': library.MOST_LOAD,
        })

    def test_most_days(self):
        self.assertIsInstance(serpentgleam.factors_or_refusal('FCI', NUMBERS['MOST_DAYS']), serpentgleam.Factors)
        self.assertEqual(serpentgleam.factors_or_refusal('FCI', NUMBERS['MOST_DAYS'] + 1),
                         (NUMBERS['REFUSED_FACTORS_ASKED_FOR'], 0))

    def test_most_of_a_load(self):
        refusal = (NUMBERS['REFUSED_LOAD_ASKED_FOR'], 0)
        seed, positions = NUMBERS['MOST_SEED'], NUMBERS['MOST_POSITIONS']
        self.assertEqual(len(serpentgleam.load(seed, positions)), NUMBERS['MOST_LOAD'])
        self.assertEqual(serpentgleam.load_or_refusal(seed + 1, positions), refusal)
        self.assertEqual(serpentgleam.load_or_refusal(seed, positions + 1), refusal)

    def test_kinds_of_lines(self):
        self.assertEqual((NUMBERS['PAIR'], NUMBERS['LEFT']), (engine.PAIR, engine.PAIR + 1))

    def test_codes(self):
        self.assertEqual({name: number for name, number in NUMBERS.items() if re.fullmatch('[FO][A-Z]{2}', name)},
                         serpentgleam.CODES)

    def test_refusals(self):
        refusals = [number for name, number in NUMBERS.items() if name.startswith('REFUSED_')]
        self.assertEqual(refusals, list(serpentgleam.REASONS))
        self.assertEqual(NUMBERS['REFUSED_ROW_ASKED_FOR'], engine.NO_SUCH_ROW)

    def test_sentences(self):
        cases = re.findall(r'case SERPENTGLEAM_(\w+):\s+return "(.*)";', HEADER)
        self.assertEqual(len(cases), len(re.findall(r'^ *case ', HEADER, re.MULTILINE)))
        self.assertEqual([(NUMBERS[name], sentence) for name, sentence in cases], list(serpentgleam.REASONS.items()))

    def test_no_such_refusal(self):
        sentence = re.search(r'default:\s+return "(.*)";', HEADER)[1]
        for number in (0, 3, 15, 21):
            self.assertEqual(serpentgleam.Refusal(number, 0).reason, sentence)

    def test_structures(self):
        for name, structure in (('result', library.Result), ('answer', library.Answer),
                                ('factors', library.FactorsResult)):
            self.assertEqual(fields_of(name), [field for field, _ in structure._fields_])
        self.assertEqual(len(fields_of('line')), library.LINE_NUMBERS)


class Manual(unittest.TestCase):
    def test_every_command_and_option(self):
        commands = re.findall(r'^  ([a-z][a-z-]*) ', usage.COMMAND, re.MULTILINE)
        self.assertEqual(commands, re.findall(r'^\.TP\n\.B ([a-z][a-z-]*)$', MANUAL, re.MULTILINE))
        helps = '\n'.join(text for name, text in vars(usage).items() if name.isupper())
        options = re.findall(r'^  ((?:-\w, )?--[a-z]+)', helps, re.MULTILINE)
        said = re.findall(r'^\.TP\n\.BR? (-.*)$', MANUAL, re.MULTILINE)
        self.assertEqual({re.sub(r'["\s]|\\fI.*', '', option) for option in said},
                         {option.replace(' ', '') for option in [*options, '--help']})


if __name__ == '__main__':
    unittest.main()
