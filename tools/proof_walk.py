"""The walk through a function as the prover writes it down: places, what is known and what is to be proved at each.

A place is a record with a fact or two and the place before it. A need is what is to be proved at a place; a proof file
refers to a fact by the steps back from there, as `c .before .before .pre`.
"""
import itertools
import re
from dataclasses import dataclass, field

RECORD = re.compile(r'^ +pub record (\S+) : Type 0 where')
FIELD = re.compile(r'^ +pub ([^\s:]+) :(.*)$')
NEED = re.compile(r'^ +Need-(\S+) =(.*)$')
STARTS_FROM = re.compile(r'\(c : (\S+?)\)')
LOOP = re.compile(r'^ *abbrev pub InvT-(\S+) :')


class ProofError(Exception):
    """What is wrong with a template or with what it is for, in words for who wrote it."""


@dataclass
class Walk:
    """Records by name, each with the type of its fields; the place of each need; the names of the loops."""
    records: dict = field(default_factory=dict)
    needs: dict = field(default_factory=dict)
    loops: list = field(default_factory=list)

    def arguments(self):
        """The names of the function's arguments."""
        return list(self.records.get('Args', {}))

    def places_back(self, need):
        """The places from a need's own back to the start, each with its facts and their types."""
        name = self.needs[need]
        while name:
            fields = dict(self.records[name])
            name = fields.pop('before', None)
            yield fields

    def facts_in_reach(self, need):
        """The facts at a need, the nearest first; of two of one name only the nearest can be named."""
        return list(dict.fromkeys(fact for fields in self.places_back(need) for fact in fields))

    def path(self, need, fact):
        """The steps from a need to the nearest fact of that name."""
        steps = 'c'
        for fields in self.places_back(need):
            if fact in fields:
                return f'{steps} .{fact}'
            steps += ' .before'
        raise ProofError(f'at {need} there is no fact {fact}; there are {" ".join(self.facts_in_reach(need))}')


def walk_of(text):
    """The walk that a generated file Lts.antt holds."""
    walk, record, depth = Walk(), None, 0
    lines = text.split('\n')
    for line, after in zip(lines, lines[1:] + ['']):
        indent = len(line) - len(line.lstrip())
        if line.strip() and indent <= depth:
            record = None
        if found := RECORD.match(line):
            record, depth = walk.records.setdefault(found[1], {}), indent
        elif (found := FIELD.match(line)) and record is not None:
            record[found[1]] = found[2].strip() or after.strip()
        elif found := NEED.match(line):
            walk.needs[found[1]] = STARTS_FROM.search(f'{found[2]} {after}')[1]
        elif found := LOOP.match(line):
            walk.loops.append(found[1])
    return walk


def parts_of(walk, kind):
    """What the type of a fact holds, where the walk has it as a record."""
    return list(walk.records.get(kind.split(' ')[0], {}))


def facts_shown(walk, need):
    """The facts at a need as a template names them, the nearest first, each with what it holds."""
    facts = {}
    for fields in walk.places_back(need):
        for fact, kind in fields.items():
            facts.setdefault(fact, parts_of(walk, kind))
    return [f'@{fact}' + ''.join(f' .{part}' for part in parts)
            for fact, parts in facts.items() if fact not in ('κs', 'args') and 'slice-known' not in fact]


def shown(walk):
    """The lines of `show`: arguments, loops, needs and the facts at them; needs with the same facts stand together."""
    lines = [f'arguments: {" ".join(walk.arguments())}']
    lines += [f'loops: {" ".join(walk.loops)}'] * bool(walk.loops)
    for facts, needs in itertools.groupby(walk.needs, lambda need: facts_shown(walk, need)):
        lines.append(f'{", ".join(needs)}:')
        lines += [f'    {fact}' for fact in facts]
    return lines
