"""bench/measure_emf: EMF does the same work as the program, over the same metamodel. Skipped without EMF, a JDK or /usr/bin/time.
bench/hostile and bench/journal: their tables are those of docs/SPEED.md. Skipped without /usr/bin/time."""

import json
import re
import subprocess
import sys
import unittest
from pathlib import Path

import emf
from support import ENVIRONMENT, PROGRAM, TOP, ToolTest

TIME = Path('/usr/bin/time')
ROW = re.compile(r'(\| [a-z, ]+ \|) \d+\.\d{3} s \| \d+\.\d\d s, \d+ MB \| \d+\.\d\d s, \d+ MB (\| `\w+` \|)')
SMALL = ['--size', '1000', '--runs', '1', '--warmups', '1', '--turns', '1']


def works(rows):
    """The work and the workload of each row of a table."""
    return [ROW.fullmatch(row).groups() for row in rows.splitlines()]


@unittest.skipIf(emf.MISSING, emf.WHY)
class Measured(ToolTest):
    """The program in Java, and the script that runs it."""

    def test_metamodel(self):
        """The package that the program in Java makes is the metamodel of examples/library.json."""
        path = emf.compiled((TOP / 'bench/emf').glob('*.java'), self.room.name)
        ecore = Path(self.room.name, 'library.ecore')
        subprocess.run(['java', '-cp', path, 'EmfBench', 'ecore', str(ecore)], check=True)
        self.assertEqual(json.loads(self.tool('ecore2mm', ecore)), json.loads((TOP / 'examples/library.json').read_text()))

    @unittest.skipUnless(TIME.exists(), f'no {TIME}: the package time is not installed')
    def test_table(self):
        """The table has the heads and the works of the one in docs/SPEED.md. There is no row for work that gives other results than the
        workload says."""
        command = [sys.executable, str(TOP / 'bench/measure_emf'), str(PROGRAM), *SMALL]
        done = subprocess.run(command, env=ENVIRONMENT, stdout=subprocess.PIPE, stderr=subprocess.PIPE)
        self.assertEqual((done.returncode, done.stderr.decode()), (0, ''))
        versions, table = done.stdout.decode().split('\n\n')
        self.assertRegex(versions, r'version "\d')
        head, rows = table.split('|---|---|---|---|---|\n')
        page = (TOP / 'docs/SPEED.md').read_text().split(head)[1].split('\n\n')[0].split('\n', 1)[1]
        self.assertEqual(works(rows), works(page))


@unittest.skipUnless(TIME.exists(), f'no {TIME}: the package time is not installed')
class Tables(ToolTest):
    """The scripts that print tables of the page, on little work."""

    def table(self, name, *words):
        """The tables that a script prints."""
        command = [sys.executable, str(TOP / 'bench' / name), str(PROGRAM), *words]
        done = subprocess.run(command, env=ENVIRONMENT, stdout=subprocess.PIPE, stderr=subprocess.PIPE)
        self.assertEqual((done.returncode, done.stderr.decode()), (0, ''))
        return done.stdout.decode().split('\n\n')

    def test_hostile(self):
        """Each document gets the answer that the script names, and the rows are those of the page."""
        documents, metamodels = self.table('hostile', '--runs', '1', '--small')
        titles = [row.split(' | ')[0] for row in documents.splitlines()]
        page = (TOP / 'docs/SPEED.md').read_text().splitlines()
        begin = next(number for number, line in enumerate(page) if line.startswith(titles[0]))
        self.assertEqual(titles[2:], [line.split(' | ')[0] for line in page[begin + 2 : begin + len(titles)]])
        self.assertEqual(len(metamodels.splitlines()), 5)

    def test_journal(self):
        """Each line is in its journal, and the heads of the tables are those of the page."""
        dialogues, starts = self.table('journal', '--trips', '5', '--runs', '1', '--sizes', '100,200')
        page = (TOP / 'docs/SPEED.md').read_text()
        for table, count in ((dialogues, 5), (starts, 4)):
            self.assertIn(table.splitlines()[0], page)
            self.assertEqual(len(table.splitlines()), count)
