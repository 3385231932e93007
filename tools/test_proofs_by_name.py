#!/usr/bin/env python3
"""Tests of proofs_by_name.py that need no prover: templates, steps, imports, and what is said of faults."""
import contextlib
import io
import os
import tempfile
import unittest
from unittest import mock

import proofs_by_name
from proof_file import proof_file
from proof_imports import homes_of, import_lines, names_taken, public_names
from proof_template import template_of, term_of, whole_lines
from proof_walk import ProofError, shown, walk_of
from proofs_by_name import proof_path

# What the prover writes of a function that calls `find` and then, in a loop, adds to i.
WALK = walk_of('''
abbrev pub InvT-loop : Type 1
        pub record Args : Type 0 where
          pub list : Kinds.Den {n = 3}
          pub n : Kinds.Den κs
      pub record Start : Type 0 where
        pub κs : Lifetimes.Lfts 3
        pub args : Args κs
        pub pre : Pre· κs
      abbrev pub Need-find-requires : Type 0
      Need-find-requires = (c : Start) → (κs : Lifetimes.Lfts 1) → s1 .asks
      pub record After-find : Type 0 where
        pub before : Start
        pub find : After-find·own before
        pub record At-loop·own : Type 0 where
          pub i : Rows.sc-here
          pub inv : Inv·0
      pub record At-loop : Type 0 where
        pub before :
            After-find
        pub loop : At-loop·own before
      abbrev pub Need-add-i : Type 0
      Need-add-i =
          (c : At-loop) →
          s8 .asks
      abbrev pub Need-returns : Type 0
      Need-returns = (c : At-loop) → s9 .asks
      pub laid : (c : Start) → at52
''')
LOOP = 'Inv-loop list n i₀ i = i ≤ n\nμ-loop list n i₀ i = n - i\n'


def term(need, text):
    """The term for a need by a template."""
    return term_of(template_of(text), WALK, need)


def proof(text, homes=None):
    """The proof file of the function `walks::steps::count_up` by a template."""
    return proof_file('walks', 'steps.count_up', template_of(text), WALK, homes or {})


class Walks(unittest.TestCase):
    def test_needs_and_loops(self):
        self.assertEqual(WALK.needs, {'find-requires': 'Start', 'add-i': 'At-loop', 'returns': 'At-loop'})
        self.assertEqual((WALK.loops, WALK.arguments()), (['loop'], ['list', 'n']))

    def test_paths(self):
        self.assertEqual(WALK.path('find-requires', 'pre'), 'c .pre')
        self.assertEqual(WALK.path('add-i', 'loop'), 'c .loop')
        self.assertEqual(WALK.path('add-i', 'find'), 'c .before .find')
        self.assertEqual(WALK.path('add-i', 'pre'), 'c .before .before .pre')

    def test_nearest_of_one_name(self):
        walk = walk_of('  pub record A : Type 0 where\n    pub x : P\n  pub record B : Type 0 where\n    pub before : A\n'
                       '    pub x : Q\n  Need-y = (c : B) → R\n')
        self.assertEqual((walk.path('y', 'x'), walk.facts_in_reach('y')), ('c .x', ['x']))

    def test_show(self):
        self.assertEqual(shown(WALK), [
            'arguments: list n', 'loops: loop', 'find-requires:', '    @pre',
            'add-i, returns:', '    @loop .i .inv', '    @find', '    @pre'])


class Templates(unittest.TestCase):
    def test_lines(self):
        text = '# a comment\n\nreturns: first\n    second\nadd-i: third\n'
        self.assertEqual(whole_lines(text), [(3, 'returns: first second'), (5, 'add-i: third')])

    def test_names_become_steps(self):
        self.assertEqual(term('add-i', 'add-i: omega (arith, @loop .inv, @pre .few)'),
                         'omega (arith, c .loop .inv, c .before .before .pre .few)')
        self.assertEqual(term('returns', 'returns: law $n $$list'),
                         'law (c .before .before .args .n) (now (c .before .before .args .list))')
        self.assertEqual(term('returns', 'returns: (@find .last0, @find .kept2)'),
                         '(c .before .find .last .0, c .before .find .kept .1 .1 .0)')

    def test_one_term_for_several_needs(self):
        text = 'add-i, returns: @pre'
        self.assertEqual(term('add-i', text), term('returns', text))

    def test_need_without_a_term(self):
        self.assertEqual(term('returns', 'add-i: tt'), 'search needs')

    def test_let_and_list(self):
        text = 'let few = @pre .few\nlist both = $n %few\nreturns: law %both (x % 256)'
        self.assertEqual(term('returns', text),
                         'law (c .before .before .args .n) (c .before .before .pre .few) (x % 256)')

    def test_faults(self):
        for text, words in (('returns: %more', 'there is no %more; there are none'),
                            ('let a = %b\nlet b = %a\nreturns: %a', '%a stands in itself'),
                            ('returns: @seek', 'at returns there is no fact seek; there are loop find κs args pre'),
                            ('returns: $m', 'at returns there is no argument m; there are list n'),
                            ('returns: tt\nreturns: tt', 'line 2: returns is there twice'),
                            ('add-i: tt\nreturns tt', 'line 2 is none of ')):
            with self.subTest(text), self.assertRaises(ProofError) as caught:
                term('returns', text)
            self.assertTrue(str(caught.exception).startswith(words), caught.exception)


class Imports(unittest.TestCase):
    def test_public_names(self):
        text = ('pub law : A\nlaw = b\n\nhidden : A\n\npub record Row : Type 0 where\n  pub field : A\n\n'
                'abbrev pub short : A\n  pub record Inner where\n    pub held : A\npub last : A\n')
        self.assertEqual(public_names(text), ['law', 'Row', 'short', 'Inner', 'last'])

    def test_names_taken(self):
        names = {'law', 'other', 'row', 'room', 's', 'l', 'e', '≤'}
        for parameters, term_, taken in (('c', 'law (c .before .row) other', {'law', 'other'}),
                                         ('l s', 'l ≤ s', {'≤'}),
                                         ('c', 'λ s (l : s ≤ 0). law l', {'law', '≤'}),
                                         ('c', '(s l : law) → s ≤ l', {'law', '≤'}),
                                         ('c', 'record { row = law; room = record { row = row } }', {'law', 'row'}),
                                         ('c', 'let e = law in rw e', {'law'})):
            with self.subTest(term_):
                self.assertEqual(names_taken(parameters, term_) & names, taken)

    def test_lines(self):
        homes = {'law': {'Rattle·walks·proofs.proofs.Laws'}, 'bound': {'Rattle·walks·proofs.proofs.Laws'}}
        self.assertEqual(import_lines({'law', 'bound', '≤', 'unknown'}, ['use A.B as b', 'use A.C.{d}'], homes), [
            'use A.B as b', 'use A.C.{d}', 'use Prim.Native.Nat.{_≤_}',
            'use Rattle·walks·proofs.proofs.Laws.{bound, law}'])

    def test_template_says_which(self):
        homes = {'same': {'A', 'B'}}
        self.assertEqual(import_lines({'same'}, ['use B.{same}'], homes), ['use B.{same}'])
        with self.assertRaisesRegex(ProofError, r'same is in A and B: the template says which, as use MODULE.\{same\}'):
            import_lines({'same'}, [], homes)

    def test_homes(self):
        with tempfile.TemporaryDirectory() as top:
            for folder, module in (('own/proofs', 'Laws'), ('own/specs', 'Things'), ('other/specs', 'Words'),
                                   ('other/specs', 'Lib'), ('third/specs', 'Far')):
                path = os.path.join(top, 'crates', folder, f'{module}.antt')
                proofs_by_name.put(path, f'pub {module}-name : A\npub twice : A\n')
            homes = homes_of(top, 'own', ['other'])
        self.assertEqual(homes['Laws-name'], {'Rattle·own·proofs.proofs.Laws'})
        self.assertEqual(homes['Words-name'], {'Rattle·other.specs.Words'})
        self.assertEqual(homes['twice'], {'Rattle·own·proofs.proofs.Laws', 'Rattle·own·specs.specs.Things'})
        self.assertEqual(homes['arith'], {'native.Mathlib.Omega'})
        self.assertFalse({'Lib-name', 'Far-name'} & homes.keys())


class ProofFiles(unittest.TestCase):
    def test_whole_file(self):
        text = proof(LOOP + 'add-i: omega (arith, @loop .inv)\nfind-requires: @pre', {'arith': {'native.Mathlib.Omega'},
                                                                                     'needs': {'borrow.Author.Needs'}})
        self.assertEqual(text, '''use Prim.Native.Nat.{_-_, _≤_}
use Rattle·walks·proofs.proofs.steps.count_up.Statement.{statement}
use Rattle·walks·proofs.proofs.steps.count_up.Tie as tie
use borrow.Author.Needs.{needs}
use native.Mathlib.Omega.{arith}

abbrev Inv-loop : tie.InvT-loop
Inv-loop list n i₀ i = i ≤ n

abbrev μ-loop : tie.MeasureT-loop
μ-loop list n i₀ i = n - i

find-requires : tie.Need-find-requires Inv-loop μ-loop
find-requires c κs = c .pre

add-i : tie.Need-add-i Inv-loop μ-loop
add-i c = omega (arith, c .loop .inv)

returns : tie.Need-returns Inv-loop μ-loop
returns c = search needs

pub count-up-spec : {M : Type 1} → statement M
count-up-spec =
    tie.close
    (tie.spec
    Inv-loop
    μ-loop
    find-requires
    add-i
    returns)
''')

    def test_faults(self):
        for text, words in ((LOOP + 'add-j: tt', 'there is no need add-j; there are find-requires add-i returns'),
                            ('add-i: tt', 'the loops ask for Inv-loop μ-loop; given are none')):
            with self.subTest(text), self.assertRaises(ProofError) as caught:
                proof(text)
            self.assertEqual(str(caught.exception), words)


class Commands(unittest.TestCase):
    def run_with(self, *words):
        """Exit status, standard output and standard error, in a repository of one crate with two templates."""
        output, errors = io.StringIO(), io.StringIO()
        with tempfile.TemporaryDirectory() as top, mock.patch.multiple(
                proofs_by_name, TOP=top, TEMPLATES=os.path.join(top, 'proofs_by_name'), laid_out=dict,
                generated_of=lambda crate: contextlib.nullcontext(top), walk_in=lambda *_: WALK):
            proofs_by_name.put(os.path.join(top, 'crates.txt'), '# Crates\nwalks:\n')
            proofs_by_name.put(os.path.join(top, 'proofs_by_name', 'walks', 'count.txt'), LOOP)
            proofs_by_name.put(os.path.join(top, 'proofs_by_name', 'walks', 'steps.count_up.txt'), LOOP)
            with contextlib.redirect_stdout(output), contextlib.redirect_stderr(errors):
                status = [proofs_by_name.main(list(line)) for line in words][-1]
        return status, output.getvalue(), errors.getvalue()

    def test_paths_of_proof_files(self):
        self.assertEqual(proof_path('walks', 'steps.count_up'), 'crates/walks/proofs/steps/count_up/Proof.antt')
        self.assertEqual(proof_path('walks', 'count'), 'crates/walks/proofs/count/Proof.antt')

    def test_check_names_what_differs(self):
        status, output, _ = self.run_with(('write', 'walks', 'count'), ('check',))
        self.assertEqual((status, output.split('\n')[2:]), (1, [
            'crates/walks/proofs/steps/count_up/Proof.antt: not what its template gives; see proofs_by_name/README.md',
            '2 proof files with templates, 1 differ', '']))

    def test_written_files_are_in_order(self):
        status, output, _ = self.run_with(('write', 'walks'), ('write', 'walks'), ('check', 'walks'))
        self.assertEqual((status, output.split('\n')[2:]), (0, [
            '2 proof files, 2 changed', '2 proof files, 0 changed', '2 proof files with templates, 0 differ', '']))

    def test_faults(self):
        self.assertEqual(self.run_with(('write', 'walks', 'counts')), (
            1, '', 'proofs_by_name.py: walks has no template for counts; it has count steps.count_up\n'))
        for command in ('write', 'check'):
            self.assertEqual(self.run_with((command, 'runs')), (
                1, '', 'proofs_by_name.py: runs has no templates; there are some for walks\n'))
        self.assertEqual(self.run_with(('show', 'walks'))[0], 2)
        self.assertEqual(self.run_with(())[2], proofs_by_name.__doc__)

    def test_unknown_crate_and_function(self):
        with self.assertRaisesRegex(ProofError, 'there is no crate walk in crates.txt'):
            with proofs_by_name.generated_of('walk'):
                pass
        with tempfile.TemporaryDirectory() as folder, self.assertRaisesRegex(ProofError, 'walks has no function a.f'):
            proofs_by_name.walk_in(folder, 'walks', 'a.f')


class Repository(unittest.TestCase):
    def test_every_template_is_read_and_is_of_a_function(self):
        for crate in proofs_by_name.crates_with_templates():
            self.assertIn(crate, proofs_by_name.crates_beneath())
            for function in proofs_by_name.functions_with_templates(crate):
                with self.subTest(f'{crate} {function}'):
                    path = os.path.join(proofs_by_name.TEMPLATES, crate, f'{function}.txt')
                    template_of(proofs_by_name.text_of(path))
                    self.assertTrue(proofs_by_name.stands(crate, function))


if __name__ == '__main__':
    unittest.main()
