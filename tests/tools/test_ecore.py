"""`tools/ecore2mm`: in the folder ecore, NAME.json is the document of NAME.ecore, or of the files in NAME.args; NAME.notes has its notes.
"""

import json
import re

from support import HERE, ToolTest, run_program, run_tool

FOLDER = HERE / 'ecore'
CASES = sorted(file.stem for file in FOLDER.glob('*.json'))


def words_of(name):
    """The Ecore files of a case."""
    args = FOLDER / f'{name}.args'
    return [f'ecore/{word}' for word in (args.read_text().split() if args.exists() else [f'{name}.ecore'])]


class Bending(ToolTest):
    """The rules of docs/ECORE.md for metamodels, one case for each."""


def add_case(name):
    """Adds the test of a case."""

    def test(self):
        ended = run_tool('ecore2mm', *words_of(name))
        self.assertEqual(ended.status, 0, ended.err)
        self.assertEqual(json.loads(ended.out), json.loads((FOLDER / f'{name}.json').read_text()))
        told = [line[len('ecore2mm: '):] for line in ended.err.splitlines()]
        self.assertEqual(sorted(told), sorted((FOLDER / f'{name}.notes').read_text().splitlines()))
        self.assertEqual(run_program(ended.out, 'new Nope__\n'), 'refused 3 NO_CLASS\n')

    setattr(Bending, f'test_{name}', test)


for case in CASES:
    add_case(case)


def package(classifiers):
    """The text of a package with classifiers."""
    return (
        '<ecore:EPackage xmlns:xsi="http://www.w3.org/2001/XMLSchema-instance" '
        f'xmlns:ecore="http://www.eclipse.org/emf/2002/Ecore" name="p" nsURI="http://m.example/p">{classifiers}</ecore:EPackage>'
    )


def eclass(name, features='', more=''):
    """The text of a class."""
    return f'<eClassifiers xsi:type="ecore:EClass" name="{name}" {more}>{features}</eClassifiers>'


def attribute(name, more=''):
    """The text of an attribute."""
    return f'<eStructuralFeatures xsi:type="ecore:EAttribute" name="{name}" {more}/>'


class Limits(ToolTest):
    """What is beyond a limit of the repository is left out."""

    def meta(self, classifiers):
        """The document of classifiers; the program must accept it."""
        text = self.tool('ecore2mm', self.file('a.ecore', package(classifiers)))
        self.assertEqual(run_program(text, ''), '')
        return json.loads(text)

    def test_classes(self):
        """A metamodel has at most 1,000 classes."""
        made = self.meta(''.join(eclass(f'C{number}') for number in range(1002)))
        self.assertEqual([it['name'] for it in made['classes']], [f'C{number}' for number in range(1000)])

    def test_enumerations_and_literals(self):
        """A metamodel has at most 1,000 enumerations, each of at most 1,000 literals; an attribute of one that is left out becomes an
        EString."""
        literals = ''.join(f'<eLiterals name="L{number}" value="{number}"/>' for number in range(1001))
        enums = [f'<eClassifiers xsi:type="ecore:EEnum" name="E{number}"><eLiterals name="A"/></eClassifiers>' for number in range(1000)]
        enums.insert(0, f'<eClassifiers xsi:type="ecore:EEnum" name="E">{literals}</eClassifiers>')
        made = self.meta(''.join(enums) + eclass('C', attribute('last', 'eType="#//E999"')))
        self.assertEqual([len(made['enums']), len(made['enums'][0]['literals'])], [1000, 1000])
        self.assertEqual(made['classes'][0]['features'][0]['type'], 'EString')

    def test_features_and_supertypes(self):
        """A class has at most 256 features and 64 supertypes."""
        supers = ' '.join(f'#//S{number}' for number in range(65))
        classes = ''.join(eclass(f'S{number}') for number in range(65))
        features = ''.join(attribute(f'a{number}') for number in range(257))
        made = self.meta(classes + eclass('C', features, f'eSuperTypes="{supers}"'))['classes'][-1]
        self.assertEqual(made['supers'], [f'S{number}' for number in range(64)])
        self.assertEqual([it['name'] for it in made['features']], [f'a{number}' for number in range(256)])

    def test_names(self):
        """A name has at most 255 characters, and different names stay different."""
        long = 'n' * 300
        made = self.meta(eclass(long) + eclass(long + 'x') + eclass('C', attribute(long) + attribute(long)))['classes']
        self.assertEqual([it['name'] for it in made], ['n' * 255, 'p_' + 'n' * 253, 'C'])
        self.assertEqual([it['name'] for it in made[2]['features']], ['n' * 255, 'n' * 253 + '_2'])

    def test_default(self):
        """A default has at most 65,535 bytes."""
        texts = {'fits': 'é' * 32767 + 'x', 'long': 'é' * 32768}
        features = ''.join(attribute(name, f'defaultValueLiteral="{text}"') for name, text in texts.items())
        made = self.meta(eclass('C', features))['classes'][0]['features']
        self.assertEqual([it.get('default') for it in made], [texts['fits'], None])


class Report(ToolTest):
    """The report and the output file."""

    def test_table(self):
        """`--report` prints the notes as a table."""
        ended = run_tool('ecore2mm', '--report', 'ecore/supers.ecore')
        lines = ended.err.splitlines()
        self.assertEqual(lines[0], '| Kind | Name | What became of it |')
        self.assertIn('| supertype | supers.D | D left out: it closes a cycle |', lines)

    def test_output(self):
        """`-o` names the output file."""
        made = self.file('made.json', '')
        self.assertEqual(self.tool('ecore2mm', 'ecore/library.ecore', '-o', made), '')
        self.assertEqual(json.loads(made.read_text()), json.loads((FOLDER / 'library.json').read_text()))

    def test_file_named_twice(self):
        """A file that is named twice counts once."""
        self.assertEqual(self.tool('ecore2mm', *['ecore/library.ecore'] * 2), self.tool('ecore2mm', 'ecore/library.ecore'))

    def test_library_is_the_example(self):
        """The document of library.ecore is examples/library.json."""
        example = HERE.parent.parent / 'examples/library.json'
        self.assertEqual((FOLDER / 'library.json').read_text(), example.read_text())


class Mutilated(ToolTest):
    """Each Ecore file with one changed attribute gives a document that the program accepts, or one line of error."""

    CHANGES = ('-1', '0', '7', 'x y', '#//A', '#//Nope', '//@eClassifiers.1', 'true')

    def test_changed_attributes(self):
        """Every sixth attribute of each file, changed."""
        for path in sorted(FOLDER.glob('*.ecore')):
            text = path.read_text()
            found = [it for it in re.finditer(r' (\w+)="([^"]*)"', text) if it.start() > text.index('nsPrefix')]
            for place, it in enumerate(found[::6]):
                changed = text[:it.start(2)] + self.CHANGES[place % len(self.CHANGES)] + text[it.end(2):]
                self.check(path.name, changed)

    def test_cut_short(self):
        """A file that is cut at different lengths."""
        text = (FOLDER / 'library.ecore').read_text()
        for length in range(0, len(text) - 1, 797):
            self.check('library.ecore', text[:length])

    def check(self, name, text):
        """Checks what the tool does with one text."""
        ended = run_tool('ecore2mm', self.file(name, text))
        with self.subTest(name=name, text=text):
            if ended.status == 0:
                self.assertEqual(run_program(ended.out, ''), '')
            else:
                self.assertEqual((ended.status, ended.out, ended.err.count('\n')), (1, '', 1), ended.err)
                self.assertTrue(ended.err.startswith('ecore2mm: '))
