"""Random models of EMF: EMF must read what the tools make of a model as an equal model, except for what a note says.

EMF_CASES is the number of models (25 if it is not set), EMF_SEED the first seed (1 if it is not set).
"""

import contextlib
import importlib.machinery
import importlib.util
import io
import os
import re
import sys
import unittest
from pathlib import Path

import emf
from support import PROGRAM, TOP, ToolTest, run_program

CASES = int(os.environ.get('EMF_CASES', '25'))
FIRST = int(os.environ.get('EMF_SEED', '1'))
BASE = 'http://m.example/d/'
FEATURE = re.compile(r'\b(?:a|r|o|id)[0-9]+')  # the names of features, which are all different, begin so


def tearDownModule():
    """Ends the process of EMF."""
    emf.close()


def load(name):
    """A tool as a module: a process for each run would take most of the time."""
    loader = importlib.machinery.SourceFileLoader(f'tool_{name}', str(TOP / 'tools' / name))
    module = importlib.util.module_from_spec(importlib.util.spec_from_loader(loader.name, loader))
    loader.exec_module(module)
    return module


def run(tool, made, *words):
    """Runs a tool that writes to a file; returns its notes."""
    old, told = sys.argv, io.StringIO()
    sys.argv = [tool, '-o', str(made), *map(str, words)]
    try:
        with contextlib.redirect_stderr(told):
            load(tool).main()
    finally:
        sys.argv = old
    return told.getvalue().splitlines()


def without(lines, features):
    """The lines without those of some features."""
    return [line for line in lines if not set(FEATURE.findall(line.partition(' ')[0])) & features]


@unittest.skipIf(emf.MISSING, emf.WHY)
class Random(ToolTest):
    """The random models."""

    def test_cases(self):
        """Each model passes, and EMF itself refuses few of them."""
        counts = {'files': 0, 'notes': 0, 'refused by EMF itself': 0}
        for seed in range(FIRST, FIRST + CASES):
            with self.subTest(seed=seed):
                self.check(seed, counts)
        self.assertGreater(counts['files'], 0)
        self.assertLess(counts['refused by EMF itself'], CASES / 20 + 1)
        print(f'random: {CASES} cases', *(f'{count} {what}' for what, count in counts.items()), sep=', ')

    def check(self, seed, counts):
        """Checks the model of one seed."""
        folder = Path(self.room.name, str(seed))
        made = folder / 'made'
        made.mkdir(parents=True)
        emf.ask('random', seed, folder)
        ecore, files = sorted(folder.glob('*.ecore')), sorted(folder.glob('*.xmi'))
        self.assertEqual(emf.ask('packages', *ecore), [])
        before = emf.ask('sorted', *files)
        if any(line.startswith('error') for line in before):
            counts['refused by EMF itself'] += 1
            return
        notes = self.convert(ecore, files, made)
        after = emf.ask('sorted', *[made / file.name for file in files])
        counts['files'] += len(files)
        counts['notes'] += len(notes)
        told = {name for note in notes for name in FEATURE.findall(note)}
        self.assertEqual(without(after, told), without(before, told), notes)
        self.check_program(ecore, files, made)

    def convert(self, ecore, files, made):
        """Converts files to documents and back; returns the notes."""
        notes = []
        for file in files:
            others = [other for other in files if other is not file]
            words = ['--ecore', *ecore, '--uri', BASE + file.name, *(['--beside', *others] if others else [])]
            document = made / f'{file.stem}.json'
            notes += run('xmi2doc', document, *words, file)
            notes += run('doc2xmi', made / file.name, *words, document)
            again = made / 'again.json'
            second = run('xmi2doc', again, '--ecore', *ecore, '--uri', BASE + file.name, made / file.name)
            if not others and not notes:
                self.assertEqual((again.read_text(), second), (document.read_text(), []))
        return notes

    def check_program(self, ecore, files, made):
        """Checks that the program loads the documents, and saves the same bytes."""
        if not PROGRAM.exists():
            self.skipTest(f'no program at {PROGRAM}')
        meta = made / 'meta.json'
        run('ecore2mm', meta, *ecore)
        texts = [(made / f'{file.stem}.json').read_text() for file in files]
        script = ''.join(f'resource "{BASE}{file.name}"\n' for file in files)
        script += ''.join(f'load r{place} {text}' for place, text in enumerate(texts))
        script += ''.join(f'save r{place}\n' for place in range(len(files)))
        printed = run_program(meta.read_text(), script).split('\n')
        self.assertEqual([text + '\n' for text in printed[-len(files) - 1:-1]], texts, printed[:2 * len(files)])
