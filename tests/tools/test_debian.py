"""The .ecore files of Debian's libeclipse-emf-ecore-java, as metamodels and as instances of Ecore. Skipped without the package."""

import unittest
import zipfile
from pathlib import Path

from support import URI, ToolTest, load_and_save, run_program, run_tool

JAR = Path('/usr/share/java/eclipse-emf-ecore.jar')
WHY = f'no {JAR}: the package libeclipse-emf-ecore-java is not installed'


@unittest.skipUnless(JAR.exists(), WHY)
class Debian(ToolTest):
    """All files of the package."""

    def setUp(self):
        super().setUp()
        with zipfile.ZipFile(JAR) as jar:
            names = [name for name in jar.namelist() if name.endswith('.ecore')]
            self.files = [self.file(Path(name).name, jar.read(name)) for name in sorted(names)]
        self.ecore = next(file for file in self.files if file.name == 'Ecore.ecore')

    def test_there_are_files(self):
        """The package has at least six files."""
        self.assertGreaterEqual(len(self.files), 6)

    def test_metamodels(self):
        """Each file becomes a metamodel that the program accepts."""
        for file in self.files:
            with self.subTest(file=file.name):
                meta = self.tool('ecore2mm', file)
                self.assertEqual(run_program(meta, 'new Nope__\n'), 'refused 3 NO_CLASS\n')

    def test_all_together(self):
        """All files together become one metamodel."""
        meta = self.tool('ecore2mm', *self.files)
        self.assertEqual(run_program(meta, 'new EClass\nclass #0\n'), '#0\nclass EClass\n')

    def test_instances(self):
        """Each file is read as an instance of Ecore, loaded, saved, written as XMI, and read again as the same document."""
        meta = self.tool('ecore2mm', self.ecore)
        options = ['--ecore', self.ecore, '--uri', URI]
        for file in self.files:
            with self.subTest(file=file.name):
                document = self.tool('xmi2doc', *options, '--beside', self.ecore, file)
                answer, saved = load_and_save(meta, document)
                self.assertEqual((answer[:7], saved), ('loaded ', document))
                made = self.file('again.ecore', self.tool('doc2xmi', *options, self.file('saved.json', saved)))
                again = run_tool('xmi2doc', *options, made)
                self.assertEqual((again.status, again.out, again.err), (0, document, ''))

    def test_written_instances_are_metamodels(self):
        """Ecore, read as an instance of itself and written again, becomes the same metamodel."""
        document = self.file('ecore.json', self.tool('xmi2doc', '--ecore', self.ecore, self.ecore))
        made = self.file('made.ecore', self.tool('doc2xmi', '--ecore', self.ecore, document))
        self.assertEqual(self.tool('ecore2mm', made), self.tool('ecore2mm', self.ecore))
