#!/usr/bin/env python3
"""Writes proof files from templates that name facts: python3 tools/proofs_by_name.py COMMAND ..

    write CRATE [MOD.FN ..]   the proof files of these functions, or of every function of the crate that has a template
    show CRATE MOD.FN         what is to be proved of a function, and the facts at each need
    check [CRATE ..]          status 0 where every proof file that has a template is what the template gives

The templates are proofs_by_name/CRATE/MOD.FN.txt, or FN.txt for a function of the crate's lib.rt; README.md beside them
says how they are written. The steps are asked of `rt dev CRATE`, so that a crate that does not parse gives none.

For the older kit, rattle-kit-5b-plain. Today's has no `rt dev`, names facts and goals itself and finds most proofs, so that no
proof file of today's crates is written from a template.
"""
import contextlib
import os
import re
import subprocess
import sys
import tempfile

from proof_file import proof_file
from proof_imports import homes_of
from proof_template import template_of
from proof_walk import ProofError, shown, walk_of

TOP = os.path.dirname(os.path.dirname(os.path.abspath(__file__)))
TEMPLATES = os.path.join(TOP, 'proofs_by_name')


def text_of(path):
    """What a file holds."""
    with open(path, encoding='utf-8') as source:
        return source.read()


def put(path, text):
    """Writes a file, and the folders that it stands in."""
    os.makedirs(os.path.dirname(path), exist_ok=True)
    with open(path, 'w', encoding='utf-8') as target:
        target.write(text)


def crates_beneath():
    """The crates that each crate may name, by crates.txt."""
    lines = [line.split(':') for line in text_of(os.path.join(TOP, 'crates.txt')).split('\n') if ':' in line]
    return {crate.split()[0]: names.split() for crate, names in lines if not crate.startswith('#')}


def crates_with_templates():
    """The crates that have a folder of templates."""
    return sorted(name for name in os.listdir(TEMPLATES) if os.path.isdir(os.path.join(TEMPLATES, name)))


def functions_with_templates(crate):
    """The functions of a crate that have a template, MOD.FN or FN."""
    folder = os.path.join(TEMPLATES, crate)
    names = sorted(os.listdir(folder)) if os.path.isdir(folder) else []
    return [name.removesuffix('.txt') for name in names if name.endswith('.txt')]


def stands(crate, function):
    """Whether a crate's code has a function, MOD.FN, or FN of its lib.rt or main.rt."""
    *modules, name = function.split('.')
    files = ['/'.join(modules) + '.rt'] if modules else ['lib.rt', 'main.rt']
    paths = [os.path.join(TOP, 'crates', crate, 'src', file) for file in files]
    return any(re.search(rf'\bfn {name}\b', text_of(path)) for path in paths if os.path.isfile(path))


def proof_path(crate, function):
    """Where the proof file of a function stands, from the top of the repository."""
    return '/'.join(('crates', crate, 'proofs', *function.split('.'), 'Proof.antt'))


@contextlib.contextmanager
def generated_of(crate):
    """A folder with what the prover makes of a crate. Whether the crate is proved yet does not matter."""
    if crate not in crates_beneath():
        raise ProofError(f'there is no crate {crate} in crates.txt')
    with tempfile.TemporaryDirectory() as folder:
        run = subprocess.run(['rt', 'dev', crate, '--generated', folder], cwd=TOP, capture_output=True, text=True)
        inside = os.path.join(folder, f'Rattle·{crate}·proofs', 'proofs')
        if not os.path.isdir(inside):
            raise ProofError(f'rt dev {crate} gave no steps and ended in\n{(run.stdout + run.stderr)[-2000:]}')
        yield inside


def walk_in(generated, crate, function):
    """The walk through a function, out of what the prover made of its crate."""
    path = os.path.join(generated, *function.split('.'), 'Lts.antt')
    if not os.path.isfile(path):
        raise ProofError(f'crate {crate} has no function {function}, or it asks for no proof')
    return walk_of(text_of(path))


def laid_out(texts):
    """Proof files in the formatter's layout, by path: `rt fmt` is run in a folder that holds nothing else."""
    with tempfile.TemporaryDirectory() as folder:
        put(os.path.join(folder, 'crates.txt'), '')
        for path, text in texts.items():
            put(os.path.join(folder, path), text)
        run = subprocess.run(['rt', 'fmt'], cwd=folder, capture_output=True, text=True)
        if run.returncode:
            raise ProofError(f'rt fmt says\n{(run.stdout + run.stderr)[-2000:]}')
        return {path: text_of(os.path.join(folder, path)) for path in texts}


def proof_files(crate, functions):
    """What the templates of these functions give, by path, in the formatter's layout."""
    texts = {}
    homes = homes_of(TOP, crate, crates_beneath().get(crate, []))
    with generated_of(crate) as generated:
        for function in functions:
            path = os.path.join(TEMPLATES, crate, f'{function}.txt')
            try:
                template = template_of(text_of(path))
                walk = walk_in(generated, crate, function)
                texts[proof_path(crate, function)] = proof_file(crate, function, template, walk, homes)
            except ProofError as error:
                raise ProofError(f'proofs_by_name/{crate}/{function}.txt: {error}') from error
    return laid_out(texts)


def written(path):
    """A proof file as it stands, or nothing where there is none."""
    return text_of(os.path.join(TOP, path)) if os.path.isfile(os.path.join(TOP, path)) else ''


def functions_asked(crate, functions):
    """These functions, or all that have a template where none is named; refuses those that have none."""
    there = functions_with_templates(crate)
    if not there:
        raise ProofError(f'{crate} has no templates; there are some for {" ".join(crates_with_templates())}')
    for function in functions:
        if function not in there:
            raise ProofError(f'{crate} has no template for {function}; it has {" ".join(there)}')
    return functions or there


def write(crate, *functions):
    """Writes what the templates give, and says of which proof files that changed anything."""
    texts = proof_files(crate, functions_asked(crate, functions))
    changed = [path for path, text in texts.items() if text != written(path)]
    for path in changed:
        put(os.path.join(TOP, path), texts[path])
        print(f'{path}: written')
    print(f'{len(texts)} proof files, {len(changed)} changed')
    return 0


def show(crate, function):
    """Prints what is to be proved of a function, and the facts at each need."""
    with generated_of(crate) as generated:
        print('\n'.join(shown(walk_in(generated, crate, function))))
    return 0


def check(*crates):
    """Names the proof files that are not what their templates give."""
    count, different = 0, []
    for crate in crates or crates_with_templates():
        texts = proof_files(crate, functions_asked(crate, ()))
        count += len(texts)
        different += [path for path, text in texts.items() if text != written(path)]
    for path in different:
        print(f'{path}: not what its template gives; see proofs_by_name/README.md')
    print(f'{count} proof files with templates, {len(different)} differ')
    return 1 if different else 0


def main(words):
    """Exit status 0 where all is done or in order, 1 where a template is at fault or a file differs, 2 for help."""
    command, rest = (words or [''])[0], words[1:]
    fits = {'write': len(rest) >= 1, 'show': len(rest) == 2, 'check': True}
    if not fits.get(command):
        print(__doc__, end='', file=sys.stderr)
        return 2
    try:
        return {'write': write, 'show': show, 'check': check}[command](*rest)
    except (ProofError, OSError) as error:
        print(f'proofs_by_name.py: {error}', file=sys.stderr)
        return 1


if __name__ == '__main__':
    sys.exit(main(sys.argv[1:]))
