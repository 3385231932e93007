"""Templates of proof files: one line a need, with the facts by name. proofs_by_name/README.md has the language."""
import re
from dataclasses import dataclass, field

from proof_walk import ProofError

LET = re.compile(r'^(let|list) ([A-Za-z][\w-]*) = (.+)$')
LOOP = re.compile(r'^(Inv|μ)-(\S+) .+ = .+$')
USE = re.compile(r'^use \S.*$')
NEEDS = re.compile(r'^([\w-]+(?:, [\w-]+)*): (.+)$')
LET_USED = re.compile(r'%([A-Za-z][\w-]*)')
PARAMETER_AFTER = re.compile(r'\.(last|kept)(\d+)')
AT_ENTRY = re.compile(r'\$\$([\w-]+)')
ARGUMENT = re.compile(r'\$([\w-]+)')
FORMS = 'NEED: TERM, let X = TERM, list X = TERMS, Inv-LOOP .. = TERM, μ-LOOP .. = TERM, use MODULE.{NAME}'
FACT = re.compile(r'@([A-Za-z][\w-]*)')


@dataclass
class Template:
    """What a template says, each part by its name; `loops` has the lines of invariants and falling numbers in order."""
    terms: dict = field(default_factory=dict)
    lets: dict = field(default_factory=dict)
    loops: dict = field(default_factory=dict)
    uses: list = field(default_factory=list)


def whole_lines(text):
    """The lines of a template with their numbers, continuations joined, comments and empty lines left out."""
    lines = []
    for number, line in enumerate(text.split('\n'), 1):
        if not line.strip() or line.startswith('#'):
            continue
        if line[0] == ' ' and lines:
            lines[-1] = (lines[-1][0], f'{lines[-1][1]} {line.strip()}')
        else:
            lines.append((number, line.strip()))
    return lines


def put_once(names, name, value, number):
    """Puts a value under its name, and refuses a name that has one; `number` is the line that says it."""
    if name in names:
        raise ProofError(f'line {number}: {name} is there twice')
    names[name] = value


def template_of(text):
    """The template that a text is."""
    template = Template()
    for number, line in whole_lines(text):
        if found := LET.match(line):
            put_once(template.lets, found[2], f'({found[3]})' if found[1] == 'let' else found[3], number)
        elif found := LOOP.match(line):
            put_once(template.loops, f'{found[1]}-{found[2]}', line, number)
        elif USE.match(line):
            template.uses.append(line)
        elif found := NEEDS.match(line):
            for need in found[1].split(', '):
                put_once(template.terms, need, found[2], number)
        else:
            raise ProofError(f'line {number} is none of {FORMS}')
    return template


def with_lets(template, term, inside=()):
    """A term with what its %X stand for."""
    def value(found):
        """What one %X stands for."""
        name = found[1]
        if name not in template.lets:
            raise ProofError(f'there is no %{name}; there are {" ".join(template.lets) or "none"}')
        if name in inside:
            raise ProofError(f'%{name} stands in itself')
        return with_lets(template, template.lets[name], (*inside, name))
    return LET_USED.sub(value, term)


def argument_path(walk, need, name):
    """The steps from a need to an argument of the function."""
    if name not in walk.arguments():
        raise ProofError(f'at {need} there is no argument {name}; there are {" ".join(walk.arguments())}')
    return f'{walk.path(need, "args")} .{name}'


def term_of(template, walk, need):
    """The term that proves a need, with steps in the place of names."""
    if need not in template.terms:
        return 'search needs'
    term = with_lets(template, template.terms[need])
    term = PARAMETER_AFTER.sub(lambda found: f'.{found[1]}' + ' .1' * int(found[2]) + ' .0', term)
    term = AT_ENTRY.sub(lambda found: f'(now ({argument_path(walk, need, found[1])}))', term)
    term = ARGUMENT.sub(lambda found: f'({argument_path(walk, need, found[1])})', term)
    return FACT.sub(lambda found: walk.path(need, found[1]), term)
