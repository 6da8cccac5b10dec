"""XMI files in folders: the files of Debian's EMF packages are opened, edited and saved, and EMF reads them again."""

import os
import subprocess
import sys
import tempfile
import unittest
import zipfile
from functools import lru_cache
from pathlib import Path
from unittest import mock

from support import CLIENT, LIBRARY, PROGRAM, TOP, ClientTest

sys.path.insert(0, str(TOP / 'bench'))

from java_emf import JARS, MISSING, WHY, compiled  # noqa: E402

from mmrepo import NotSaved, Repository  # noqa: E402

MODELS, WORKBENCH = [Path(f'/usr/share/java/eclipse-{name}.jar') for name in ('e4-ui-model-workbench', 'ui-workbench')]
NO_MODELS = 'the packages libeclipse-e4-ui-model-workbench-java and libeclipse-ui-workbench-java are not installed'
READER = Path(__file__).parent / 'ReadModels.java'

# Two packages, each of which refers to a class of the other by its name.
FIRST = """<?xml version="1.0" encoding="UTF-8"?>
<ecore:EPackage xmi:version="2.0" xmlns:xmi="http://www.omg.org/XMI" xmlns:xsi="http://www.w3.org/2001/XMLSchema-instance"
    xmlns:ecore="http://www.eclipse.org/emf/2002/Ecore" name="first" nsURI="http://m.example/first" nsPrefix="first">
  <eClassifiers xsi:type="ecore:EClass" name="A" eSuperTypes="sub/second.ecore#//B"/>
</ecore:EPackage>
"""
SECOND = """<?xml version="1.0" encoding="UTF-8"?>
<ecore:EPackage xmi:version="2.0" xmlns:xmi="http://www.omg.org/XMI" xmlns:xsi="http://www.w3.org/2001/XMLSchema-instance"
    xmlns:ecore="http://www.eclipse.org/emf/2002/Ecore" name="second" nsURI="http://m.example/second" nsPrefix="second">
  <eClassifiers xsi:type="ecore:EClass" name="B">
    <eStructuralFeatures xsi:type="ecore:EReference" name="as" upperBound="-1">
      <eType xsi:type="ecore:EClass" href="../first.ecore#//A"/>
    </eStructuralFeatures>
  </eClassifiers>
</ecore:EPackage>
"""


@lru_cache()
def reader():
    """The folder of the compiled class of ReadModels.java, and its class path; it is compiled once."""
    room = tempfile.TemporaryDirectory()
    return room, compiled([READER], room.name)


def read_by_emf(ecore, models):
    """What EMF reads of models: for each file the counts of its objects, errors and proxies, and its first value."""
    command = ['java', '-cp', reader()[1], 'ReadModels', *map(str, ecore), '--', *map(str, models)]
    done = subprocess.run(command, stdout=subprocess.PIPE, stderr=subprocess.PIPE)
    assert done.returncode == 0, done.stderr.decode()
    rows = (line.split(' ', 4) for line in done.stdout.decode().splitlines())
    return {name: (int(objects), int(errors), int(proxies), first) for name, objects, errors, proxies, first in rows}


@unittest.skipIf(MISSING, WHY)
class Emf(ClientTest):
    """A folder of XMI files."""

    def setUp(self):
        super().setUp()
        patch = mock.patch.dict(os.environ, {'PYTHONDONTWRITEBYTECODE': '1'})
        patch.start()
        self.addCleanup(patch.stop)
        self.top = Path(self.room.name, 'models')
        self.top.mkdir()

    def taken(self, jar, suffix, folder):
        """Extracts the files of a jar that have a suffix into a folder, and returns their paths."""
        with zipfile.ZipFile(jar) as read:
            names = [name for name in read.namelist() if name.endswith(suffix)]
            for name in names:
                Path(folder, Path(name).name).write_bytes(read.read(name))
        return sorted(Path(folder, Path(name).name) for name in names)

    def meta(self, ecore):
        """The metamodel document that `tools/ecore2mm` makes of Ecore files."""
        path = Path(self.room.name, 'meta.json')
        command = [sys.executable, str(TOP / 'tools/ecore2mm'), *map(str, ecore), '-o', str(path)]
        subprocess.run(command, check=True, stderr=subprocess.PIPE)
        return path

    def ecore(self):
        """The Ecore file of Ecore itself, in a folder outside of the model."""
        room = Path(self.room.name, 'ecore')
        room.mkdir()
        return next(file for file in self.taken(JARS[1], '.ecore', room) if file.name == 'Ecore.ecore')

    def test_ecore_files(self):
        """Each of EMF's own Ecore files is opened as an instance of Ecore, renamed and saved, and EMF reads the new names."""
        files = self.taken(JARS[1], '.ecore', self.top)
        self.assertGreaterEqual(len(files), 6)
        before, texts = read_by_emf([], files), {file: file.read_bytes() for file in files}
        ecore = self.ecore()
        with Repository(self.meta([ecore]), PROGRAM) as repo:
            folder = repo.open(self.top, ecore=[ecore], suffixes=['.ecore'])
            self.assertEqual(len(folder.resources), len(files))
            # The files refer to Ecore and XMLType by the URIs of these packages.
            self.assertEqual({it.kind for it in folder.findings}, {'OUTSIDE'})
            self.assertEqual(repo.save_all(), [])
            self.assertEqual({file: file.read_bytes() for file in files}, texts)
            for resource in folder.resources:
                resource.contents[0].name += '_2'
            self.assertEqual(repo.save_all(), files)
        after = read_by_emf([], files)
        self.assertEqual(after, {name: (*counts[:3], f'{counts[3]}_2') for name, counts in before.items()})
        self.assertEqual({counts[1:3] for counts in after.values()}, {(0, 0)})

    def check(self, meta, *words):
        """Runs `check` on the folder; returns its status and its lines."""
        command = [sys.executable, '-m', 'mmrepo', 'check', str(meta), 'models', '--jobs', '2', *map(str, words)]
        environment = {**os.environ, 'PYTHONPATH': str(CLIENT), 'MMREPO': str(PROGRAM)}
        done = subprocess.run(command, cwd=self.room.name, env=environment, stdout=subprocess.PIPE)
        return done.returncode, done.stdout.decode().splitlines()

    def test_ecore_files_checked(self):
        """EMF's own files have no findings if references to EMF's packages are accepted; a planted fault is found."""
        files = self.taken(JARS[1], '.ecore', self.top)
        ecore = self.ecore()
        words = ['--ecore', ecore, '--suffix', '.ecore', '--accept', 'http://www.eclipse.org/emf/']
        status, lines = self.check(self.meta([ecore]), *words)
        self.assertEqual((status, len(lines)), (0, 1))
        count = int(lines[0].split(' ')[-2].replace(',', ''))
        self.assertEqual(lines, [f'no findings in {len(files)} files with {count:,} objects'])
        self.assertGreater(count, 500)
        wrong = self.top / 'EcoreAnnotation.ecore'
        wrong.write_text(wrong.read_text().replace('http://www.eclipse.org/emf/2002/Ecore#//EBoolean', 'Ecore.ecore#//@eClassifiers.999'))
        status, lines = self.check(self.meta([ecore]), *words)
        self.assertEqual(status, 1)
        self.assertIn('"Ecore.ecore#//@eClassifiers.999" leads to no object of Ecore.ecore', lines[0])
        self.assertEqual(len(lines), 2)

    def test_across_files(self):
        """References by name become references by position, which follow an edit of the other file."""
        first, second = self.top / 'first.ecore', self.top / 'sub/second.ecore'
        second.parent.mkdir()
        first.write_text(FIRST)
        second.write_text(SECOND)
        ecore = self.ecore()
        with Repository(self.meta([ecore]), PROGRAM) as repo:
            folder = repo.open(self.top, ecore=[ecore], suffixes=['.ecore'], strict=True)
            made = repo.create('EClass')
            made.name = 'C'
            folder.resources[1].contents[0].eClassifiers.insert(0, made)
            self.assertEqual(repo.save_all(), [first, second])
        self.assertIn('href="sub/second.ecore#//@eClassifiers.1"', first.read_text())
        self.assertIn('href="../first.ecore#//@eClassifiers.0"', second.read_text())
        self.assertEqual({name: counts[1:] for name, counts in read_by_emf([], [first, second]).items()}, {
            'first.ecore': (0, 0, 'first'), 'second.ecore': (0, 0, 'second')
        })

    @unittest.skipUnless(MODELS.exists() and WORKBENCH.exists(), NO_MODELS)
    def test_application(self):
        """The application model of Eclipse has ids. They are left out, so the file is overwritten only by force."""
        ecore = [self.taken(MODELS, name, self.room.name)[0] for name in ('UIElements.ecore', 'ModelFragment.ecore')]
        file, = self.taken(WORKBENCH, '.e4xmi', self.top)
        before, text = read_by_emf(ecore, [file]), file.read_bytes()
        words = [word for name in ecore for word in ('--ecore', name)]
        left_out = 'LegacyIDE.e4xmi: xmi:id LegacyIDE.e4xmi: 24 ids left out; references go by position'
        told = [f'models/{left_out}', '1 finding in 1 of 1 file with 24 objects']
        self.assertEqual(self.check(self.meta(ecore), *words, '--suffix', '.e4xmi'), (1, told))
        with Repository(self.meta(ecore), PROGRAM) as repo:
            folder = repo.open(self.top, ecore=ecore, suffixes=['.e4xmi'])
            self.assertEqual([it.line for it in folder.findings], [left_out])
            folder.resources[0].contents[0].elementId = 'edited'
            with self.assertRaises(NotSaved) as found:
                repo.save_all()
            self.assertEqual([it.kind for it in found.exception.findings], ['LEFT_OUT'])
            self.assertEqual(file.read_bytes(), text)
            self.assertEqual(repo.save_all(force=True), [file])
        self.assertEqual(read_by_emf(ecore, [file]), {'LegacyIDE.e4xmi': (*before['LegacyIDE.e4xmi'][:3], 'edited')})

    def test_faulty(self):
        """A file that the tool or the program refuses is a finding."""
        (self.top / 'a.xmi').write_text('no XML')
        (self.top / 'b.xmi').write_text(FIRST.replace('name="A"', 'naem="A"'))
        (self.top / 'c.json').write_text('{"format":2,"roots":[{"class":"EClass","features":{"name":"C"}}]}')
        ecore = self.ecore()
        with Repository(self.meta([ecore]), PROGRAM) as repo:
            folder = repo.open(self.top, ecore=[ecore])
            self.assertEqual([it.line for it in folder.findings], [
                'a.xmi: xmi2doc: a.xmi:1: not XML: syntax error', 'b.xmi: xmi2doc: b.xmi:4: class EClass has no feature naem'
            ])
            self.assertEqual([it.path.name for it in folder.resources], ['c.json'])

    def test_no_tools(self):
        """Without the tools an XMI file is a finding that says how to name their folder."""
        (self.top / 'a.xmi').write_text(FIRST)
        with Repository(LIBRARY, PROGRAM) as repo, mock.patch.dict(os.environ, {'MMREPO_TOOLS': self.room.name}):
            folder = repo.open(self.top, ecore=['none.ecore'])
        self.assertEqual([it.line for it in folder.findings], [
            'a.xmi: no tool xmi2doc: name the folder of the tools by MMREPO_TOOLS in the environment'
        ])
