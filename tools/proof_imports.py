"""Where the names of a proof file come from: the crate's own laws and definitions, those of the crates beneath it, and
the names of the logic in the table here. A name of another home is imported by the template itself."""
import os
import re

from proof_walk import ProofError

LOGIC = {
    'Prim.Native.Nat': 'min max ℕ',
    'borrow.Author.Needs': 'needs',
    'borrow.Author.Tests': 'eq-eqb eqb-true eqb-false le-ltb lt-ltb ltb-true ltb-false ne-eqb not-true not-false',
    'denote.Ref': 'now',
    'lib.ListN': 'length length-set set',
    'mathlib.Core.Bool': 'true false false≢true true≢false',
    'mathlib.Core.Logic': 'inl inr',
    'mathlib.Core.Path': 'refl sym ap ap₂ subst',
    'native.Mathlib.Omega': 'arith',
}
OPERATORS = {'mathlib.Core.Path': '≡ ∙', 'Prim.Native.Nat': '≤ < + - * / %'}
DECLARED = re.compile(r'^ *(?:abbrev |unfoldable )?pub (record |data )?([^\s:]+)')
USE = re.compile(r'^use ([^{]+)\.\{(.+)\}$')
FIELD_TAKEN = re.compile(r'\.[\w·-]+')
FIELD_GIVEN = re.compile(r'(?<=[{;]) *[\w-]+ =')
TYPED_BINDER = re.compile(r'\(([^\s():]+(?: [^\s():]+)*) :')
LAMBDA = re.compile(r'λ ([^.]*)\.')
LET = re.compile(r'\blet (\S+)')
WORD = re.compile(r'[^\s(),;{}λ]+')


def public_names(text):
    """The names that a file of laws or definitions offers; the fields of its records are none."""
    names, inside = [], None
    for line in text.split('\n'):
        depth = len(line) - len(line.lstrip())
        if line.strip() and inside is not None and depth <= inside:
            inside = None
        if (found := DECLARED.match(line)) and inside is None:
            names.append(found[2])
            inside = depth if found[1] else None
    return names


def homes_in(folder, prefix):
    """Each public name of the files of a folder, with the modules that have it; `prefix` is how a module is called."""
    homes = {}
    for name in sorted(os.listdir(folder)) if os.path.isdir(folder) else []:
        module, ending = os.path.splitext(name)
        if ending == '.antt' and module != 'Lib':
            with open(os.path.join(folder, name), encoding='utf-8') as source:
                for found in public_names(source.read()):
                    homes.setdefault(found, set()).add(f'{prefix}.{module}')
    return homes


def homes_of(top, crate, beneath):
    """The homes of every name that a proof file of a crate may take: the crate's own come before all others."""
    own, others = {}, {}
    for kind in ('specs', 'proofs'):
        for name, homes in homes_in(os.path.join(top, 'crates', crate, kind), f'Rattle·{crate}·{kind}.{kind}').items():
            own.setdefault(name, set()).update(homes)
        for other in beneath:
            for name, homes in homes_in(os.path.join(top, 'crates', other, kind), f'Rattle·{other}.{kind}').items():
                others.setdefault(name, set()).update(homes)
    logic = {name: {home} for home, names in LOGIC.items() for name in names.split()}
    return others | logic | own


def names_taken(parameters, term):
    """The names and operators in a term that it does not bind itself."""
    bare = FIELD_GIVEN.sub('', FIELD_TAKEN.sub('', term))
    bound = set(parameters.split()) | set(LET.findall(bare))
    for names in TYPED_BINDER.findall(bare):
        bound |= set(names.split())
    for binder in LAMBDA.findall(bare):
        bound |= set(re.sub(r'\(.*\)', '', binder).split())
    return set(WORD.findall(bare)) - bound


def home_of(name, homes):
    """The one module that a name comes from, or None where nothing offers it."""
    found = homes.get(name, set())
    if len(found) > 1:
        which = ' and '.join(sorted(found))
        raise ProofError(f'{name} is in {which}: the template says which, as use MODULE.{{{name}}}')
    return next(iter(found), None)


def import_lines(names, uses, homes):
    """The lines that import these names; `uses` are the template's own lines, which come before what is found."""
    operators = {operator: home for home, symbols in OPERATORS.items() for operator in symbols.split()}
    imports, lines = {}, set()
    for use in uses:
        if found := USE.match(use):
            imports.setdefault(found[1], set()).update(name.strip() for name in found[2].split(','))
        else:
            lines.add(use)
    given = set().union(*imports.values())
    for name in names - given:
        if name in operators:
            imports.setdefault(operators[name], set()).add(f'_{name}_')
        elif home := home_of(name, homes):
            imports.setdefault(home, set()).add(name)
    return sorted(lines | {f'use {home}.{{{", ".join(sorted(names))}}}' for home, names in imports.items()})
