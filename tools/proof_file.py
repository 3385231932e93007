"""The text of a proof file, made of a template and the walk through the function."""
from proof_imports import import_lines, names_taken
from proof_template import term_of
from proof_walk import ProofError


def agrees(template, walk):
    """Refuses a template that speaks of needs or loops that the function does not have."""
    for need in template.terms:
        if need not in walk.needs:
            raise ProofError(f'there is no need {need}; there are {" ".join(walk.needs)}')
    there = sorted(f'{kind}-{loop}' for loop in walk.loops for kind in ('Inv', 'μ'))
    if sorted(template.loops) != there:
        given = ' '.join(template.loops) or 'none'
        raise ProofError(f'the loops ask for {" ".join(there) or "no line"}; given are {given}')


def loop_declarations(template):
    """Name, type, parameters and term of each invariant and each falling number."""
    for name, line in template.loops.items():
        kind, loop = name.split('-', 1)
        head, term = line.split(' = ', 1)
        yield f'abbrev {name}', f'tie.{"InvT" if kind == "Inv" else "MeasureT"}-{loop}', head[len(name) + 1:], term


def need_declarations(template, walk):
    """Name, type, parameters and term of the proof of each need."""
    loops = ''.join(f' {name}' for name in template.loops)
    for need in walk.needs:
        yield need, f'tie.Need-{need}{loops}', 'c κs' if '-requires' in need else 'c', term_of(template, walk, need)


def proof_file(crate, function, template, walk, homes):
    """The text of the proof file of a function, MOD.FN or FN; it is not in the formatter's layout yet."""
    agrees(template, walk)
    declarations = [*loop_declarations(template), *need_declarations(template, walk)]
    taken = set().union(*(names_taken(parameters, term) for _, _, parameters, term in declarations)) - set(walk.needs)
    base = f'Rattle·{crate}·proofs.proofs.{function}'
    uses = [*template.uses, f'use {base}.Statement.{{statement}}', f'use {base}.Tie as tie']
    paragraphs = ['\n'.join(import_lines(taken, uses, homes))]
    for name, kind, parameters, term in declarations:
        paragraphs.append(f'{name} : {kind}\n{name.removeprefix("abbrev ")} {parameters} = {term}')
    theorem = function.split('.')[-1].replace('_', '-') + '-spec'
    proofs = '\n'.join(f'    {name}' for name in (*template.loops, *walk.needs))
    paragraphs.append(f'pub {theorem} : {{M : Type 1}} → statement M\n{theorem} =')
    return '\n\n'.join(paragraphs) + f'\n    tie.close\n    (tie.spec\n{proofs})\n'
