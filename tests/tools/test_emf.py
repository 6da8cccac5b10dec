"""EMF and the tools agree on the files of emf/cases: EMF reads what xmi2doc and doc2xmi make of a file as it reads the file itself."""

import json
import unittest
import zipfile
from pathlib import Path

import emf
from support import HERE, ToolTest, run_tool

CASES = HERE / 'emf/cases'


def tearDownModule():
    """Ends the process of EMF."""
    emf.close()


@unittest.skipIf(emf.MISSING, emf.WHY)
class EmfTest(ToolTest):
    """Shared by the tests of this file."""

    def emf_reads(self, ecore, file, name):
        """What EMF reads of a file, without an error; `name` stands for the file in each line."""
        lines = emf.read([CASES / f'{ecore}.ecore'], file)
        self.assertEqual([it for it in lines if it.startswith('error')], [])
        return [it.replace(file.name, name) for it in lines]

    def check_same(self, ecore, name, notes=()):
        """Checks that EMF reads a file of the cases and the file that both tools make of it alike, and that xmi2doc prints these notes;
        returns the document.
        """
        source = CASES / f'{name}.xmi'
        ended = run_tool('xmi2doc', '--ecore', CASES / f'{ecore}.ecore', source)
        told = [line[len('xmi2doc: '):] for line in ended.err.replace(str(source), source.name).splitlines()]
        self.assertEqual((ended.status, told), (0, list(notes)))
        written = self.file('made.xmi', self.tool('doc2xmi', '--ecore', CASES / f'{ecore}.ecore', self.file('made.json', ended.out)))
        self.assertEqual(self.emf_reads(ecore, written, 'FILE'), self.emf_reads(ecore, source, 'FILE'))
        return ended.out

    def write(self, ecore, name, *words):
        """The XMI file that doc2xmi writes of a document of the cases."""
        return self.file('made.xmi', self.tool('doc2xmi', *words, '--ecore', CASES / f'{ecore}.ecore', CASES / f'{name}.json'))


class Written(EmfTest):
    """Files that are easily written so that EMF refuses them or loads another model."""

    def test_inner_and_outer_links_of_an_abstract_type(self):
        """A list of an abstract type with links within the file and out of it."""
        lines = self.emf_reads('tr', self.write('tr', 'tr'), 'FILE')
        self.assertIn('/0/kids.2/any = FILE#/0/kids.0 proxy other.xmi#/', lines)

    def test_ends_that_emf_completes(self):
        """A transient end is not written, and EMF completes it from the opposite end."""
        self.check_same('tr', 'tr')
        lines = self.emf_reads('tr', self.write('tr', 'tr'), 'FILE')
        self.assertIn('/0/kids.0/to = FILE#/0/kids.1 FILE#/0/kids.2', lines)
        self.assertIn('/0/kids.2/from = FILE#/0/kids.0 FILE#/0/kids.1', lines)

    def test_ends_that_a_file_has_too(self):
        """EMF completes an end that the file has, and so holds a link twice in a unique list; a document has each link once."""
        tool = ['xmi2doc', '--ecore', CASES / 'tr.ecore']
        self.assertEqual(self.tool(*tool, CASES / 'tr2.xmi'), self.tool(*tool, CASES / 'tr.xmi'))
        lines = emf.read([CASES / 'tr.ecore'], CASES / 'tr2.xmi')
        self.assertIn('/0/kids.1/from = tr2.xmi#/0/kids.0 tr2.xmi#/0/kids.0', lines)

    def test_order_of_a_completed_end(self):
        """A completed end has the order in which EMF completes it."""
        kids = ['1', '', '', '1', '0 3 4 5 6 7', '1', '1', '1']
        words = [' '.join(f'//@kids.{place}' for place in it.split()) for it in kids]
        text = ''.join(f'<kids to="{it}"/>' if it else '<kids/>' for it in words)
        file = self.file('ord.xmi', f'<p:N xmlns:p="http://p">{text}</p:N>')
        made = json.loads(self.tool('xmi2doc', '--ecore', CASES / 'tr.ecore', file))['roots'][0]['features']['kids']
        lines = self.emf_reads('tr', file, 'FILE')
        for place, kid in enumerate(made):
            links = [it.replace('//@kids.', 'FILE#/0/kids.') for it in kid['features'].get('from', [])]
            self.assertEqual([it for it in lines if it.startswith(f'/0/kids.{place}/from')],
                             [f'/0/kids.{place}/from = {" ".join(links)}'] * bool(links))

    def test_last_one_that_names_a_single_transient_end(self):
        """If several objects name one object by a single transient end, the last of them counts, as in EMF."""
        ecore = self.file('one.ecore', (CASES / 'tr.ecore').read_text().replace('name="from" upperBound="-1"', 'name="from"'))
        file = self.file('one.xmi', '<p:N xmlns:p="http://p"><kids/><kids to="//@kids.0"/><kids to="//@kids.0"/></p:N>')
        self.assertEqual(emf.read([ecore], file)[1:], ['/0 N', '/0/kids.0 N', '/0/kids.0/from = one.xmi#/0/kids.2', '/0/kids.1 N',
                                                       '/0/kids.2 N', '/0/kids.2/to = one.xmi#/0/kids.0'])
        ended = run_tool('xmi2doc', '--ecore', ecore, file)
        self.assertIn('[{"class":"N","features":{"from":"//@kids.2"}},{"class":"N","features":{}},', ended.out)
        self.assertEqual(ended.err.splitlines(), ['xmi2doc: link N.to in line 1: left out: N.from names another one', 'xmi2doc: 1 link left out'])

    def test_content_of_a_mixed_class(self):
        """The elements of a mixed class are kept; its text is left out and noted."""
        made = self.check_same('po', 'po', ['text Memo in line 7: left out: text between elements', '1 text left out'])
        self.assertIn('"order":[{"class":"Order"', made)

    def test_any_object(self):
        """A reference of type EObject leads to an object of the file, or out of it."""
        self.check_same('uc', 'uo')
        self.assertIn('/0/any = FILE#/0/kids.0 proxy http://m.example/o#/', self.emf_reads('uc', self.write('uc', 'uo'), 'FILE'))

    def test_values_that_emf_does_not_read(self):
        """A value that EMF does not read as its type ends doc2xmi with a fault."""
        line = 'root 0: N.short is 40000, which EMF reads as no EShort'
        self.assert_fault(f'{CASES}/sh.json: {line}', 'doc2xmi', '--ecore', CASES / 'bid.ecore', CASES / 'sh.json')
        dear = self.file('dear.json', '{"format":2,"roots":[{"class":"N","features":{"kids":[{"class":"N","features":{"price":"dear"}}]}}]}')
        line = 'ROOM/dear.json: root 0 kids 0: N.price is dear, which EMF reads as no EDouble'
        self.assert_fault(line, 'doc2xmi', '--ecore', CASES / 'bid.ecore', dear)

    def test_what_is_unchangeable(self):
        """Values of unchangeable features are left out, since EMF can't set them."""
        ended = run_tool('doc2xmi', '--strict', '--ecore', CASES / 'uc.ecore', CASES / 'uc.json')
        told = ['doc2xmi: value root 0 N.fixed: left out: EMF sets nothing unchangeable', 'doc2xmi: 1 value left out']
        self.assertEqual((ended.status, ended.err.splitlines()), (3, told))
        self.assertEqual(self.emf_reads('uc', self.file('a.xmi', ended.out), 'FILE')[1:], ['/0 N', '/0/fixeds = "b"'])

    def test_names_of_xml(self):
        """A name of Ecore that is no name in XML ends doc2xmi with a fault; EMF can't read such a file either."""
        for name in ('n_hindi', 'n_nfd'):
            with self.subTest(name=name):
                self.check_same(name, name)
        for name, text in (('n_sq', 'm²'), ('n_ord', 'ªx'), ('n_zwj', 'क्\u200dष')):
            with self.subTest(name=name):
                meta = json.loads(self.tool('ecore2mm', CASES / f'{name}.ecore'))
                made = meta['classes'][0]['features'][0]['name']
                document = self.file('n.json', json.dumps({'format': 2, 'roots': [{'class': 'N', 'features': {made: 'x'}}]}))
                shown = text.replace('\u200d', ' ')
                line = f'ROOM/n.json: root 0: N.{made} is called {shown} in Ecore, which is no name in XML'
                self.assert_fault(line, 'doc2xmi', '--ecore', CASES / f'{name}.ecore', document)
                file = self.file('n.xmi', f'<p:N xmlns:p="http://p" {text}="x"/>')
                self.assertTrue(emf.read([CASES / f'{name}.ecore'], file)[0].startswith('error'))


class Texts(EmfTest):
    """Which texts EMF reads as values of a type."""

    ROWS = {
        'EByte': ['127', '128', '-128'], 'EShort': ['32767', '-32769'], 'EChar': ['65', '65535', '', 'z'],
        'EDouble': ['dear', '1e3', '-Infinity', '1f', '.5', '5.', '1e', 'INF', '0x1p3', ' 1 '], 'EFloat': ['1.5', '1_0'],
        'EBigInteger': ['12', '1.0', ''], 'EBigDecimal': ['1e3', 'x', '.5'], 'EByteArray': ['00ff', 'xy'],
        'EDate': ['2026-01-02', '2026', '2026-01-02T03:04', '2026-01-02T03:04:05.678+0100'],
    }

    def test_texts(self):
        """doc2xmi accepts exactly the texts that EMF reads."""
        for type_name, texts in self.ROWS.items():
            ecore = self.file('t.ecore', (CASES / 'n_sq.ecore').read_text().replace('m²', 'x').replace('#//EString', f'#//{type_name}'))
            emf.ask('packages', ecore)
            for text in texts:
                with self.subTest(type=type_name, text=text):
                    is_read = not emf.ask('read', self.file('t.xmi', f'<p:N xmlns:p="http://p" x="{text}"/>'))[0].startswith('error')
                    value = int(text) if type_name in ('EByte', 'EShort') else text
                    document = self.file('t.json', json.dumps({'format': 2, 'roots': [{'class': 'N', 'features': {'x': value}}]}))
                    self.assertEqual(run_tool('doc2xmi', '--ecore', ecore, document).status, 0 if is_read else 1)


class Found(EmfTest):
    """The targets of references, and the items of lists."""

    def test_ids_that_are_no_texts(self):
        """An id may be a number."""
        self.assertIn('{"number":2,"to":"//@kids.1"}', self.check_same('id', 'id'))

    def test_id_of_an_enumeration(self):
        """An id may be a literal."""
        file = self.file('e.xmi', '<p:N xmlns:p="http://p"><kids kind="bb"/><kids to="bb"/></p:N>')
        self.assertIn('"to":"//@kids.0"', self.tool('xmi2doc', '--ecore', CASES / 'bid.ecore', file))
        self.assertIn('/0/kids.1/to = e.xmi#/0/kids.0', emf.read([CASES / 'bid.ecore'], file))

    def test_keys(self):
        """A fragment by keys leads to its object."""
        self.assertIn('{"name":"a","to":"//@kids.1"}', self.check_same('key', 'key'))

    def test_equal_ids(self):
        """If ids are equal, EMF's choice counts; ids are left out and noted."""
        for name, count in (('d1', 2), ('d2', 0), ('d3', 0), ('d4', 1), ('d5', 1)):
            with self.subTest(name=name):
                ids = '1 id' if count == 1 else f'{count} ids'
                self.check_same('dup', name, [f'xmi:id {name}.xmi: {ids} left out; references go by position'] * (count > 0))

    def test_id_with_a_colon(self):
        """A text with a colon and without # is read as the name of a type."""
        why = 'a text with a colon and without # is the name of a type'
        self.check_same('dup', 'd8', [f'reference N.to in line 2: left out: {why}: p:x', '1 reference left out'])

    def test_lists_and_single_features(self):
        """A list is split at XML's spaces, and a text of a single feature is not."""
        self.assertIn('"loose":"one two","tags":["a\u00a0b","c"]', self.check_same('bid', 'bid'))


class Packages(EmfTest):
    """References into packages, whose classifiers may have another order in EMF than in their files."""

    def test_position_in_ecore(self):
        """A reference by position into a package that is not given is noted."""
        text = '{"format":2,"roots":[{"class":"N","features":{"any":["http://www.eclipse.org/emf/2002/Ecore#//@eClassifiers.19"]}}]}'
        ended = run_tool('doc2xmi', '--ecore', CASES / 'uc.ecore', self.file('a.json', text))
        why = 'goes by position into a package that is not given; EMF may have another order'
        self.assertEqual(ended.err, f'doc2xmi: reference root 0 N.any: {why}: http://www.eclipse.org/emf/2002/Ecore#//@eClassifiers.19\n')

    def test_real_files(self):
        """Each Ecore file of Debian's Eclipse packages has the same types after it was read as an instance of Ecore and written again."""
        room, made = Path(self.room.name, 'there'), Path(self.room.name, 'back')
        room.mkdir()
        made.mkdir()
        for jar in sorted(Path('/usr/share/java').glob('eclipse-*.jar')):
            with zipfile.ZipFile(jar) as found:
                for name in found.namelist():
                    if name.endswith('.ecore'):
                        (room / Path(name).name).write_bytes(found.read(name))
        files = sorted(room.glob('*.ecore'))
        self.assertGreaterEqual(len(files), 6)
        emf.ask('packages')
        options = ['--ecore', room / 'Ecore.ecore', '--beside', *files]
        for file in files:
            document = self.file('d.json', self.tool('xmi2doc', *options, file))
            (made / file.name).write_text(self.tool('doc2xmi', *options, document))
        for file in files:
            with self.subTest(file=file.name):
                self.assertEqual(emf.ask('types', made / file.name), emf.ask('types', file))


class Links(EmfTest):
    """References into other files."""

    KINDS = HERE / 'ecore/kinds.ecore'
    HEAD = 'xmlns:xsi="http://www.w3.org/2001/XMLSchema-instance" xmlns:k="http://m.example/kinds"'

    def test_names_are_bent_back(self):
        """A reference is written by the names and the positions of Ecore."""
        far = self.file('far.xmi', f'<k:A {self.HEAD}><part-list xsi:type="k:B" href="else.xmi#/"/><part-list xsi:type="k:B" key="b1"/></k:A>')
        near = self.file('near.xmi', f'<k:A {self.HEAD}><many xsi:type="k:B" href="far.xmi#b1"/></k:A>')
        words = ['--ecore', self.KINDS, '--uri', 'http://m.example/near.xmi', '--beside', far]
        document = self.file('near.json', self.tool('xmi2doc', *words, near))
        self.assertIn('"http://m.example/far.xmi#//@part_list.0"', document.read_text())
        made = self.file('near.xmi', self.tool('doc2xmi', *words, document))
        self.assertIn('<many xsi:type="k:B" href="far.xmi#//@part-list.1"/>'.replace('k:', 'kinds:'), made.read_text())
        self.assertIn('/0/many = far.xmi#/0/part-list.1', emf.read([self.KINDS], made, far))

    def test_several_files_beside(self):
        """`--beside` takes several files, whose ids are found."""
        files = [self.file(f'{name}.xmi', f'<k:B {self.HEAD} key="{name}"/>') for name in 'ab']
        near = self.file('near.xmi', f'<k:A {self.HEAD}><many href="a.xmi#a"/><many href="b.xmi#b"/></k:A>')
        made = self.tool('xmi2doc', '--ecore', self.KINDS, '--beside', *files, near)
        self.assertIn('"many":["a.xmi#/","b.xmi#/"]', made)

    def test_fragment_of_an_unknown_form(self):
        """A reference with a fragment of an unknown form is left out and noted."""
        text = f'<k:A {self.HEAD} one="//x;XSDElementDeclaration"><many href="far.xmi#//x;XSDElementDeclaration"/></k:A>'
        ended = run_tool('xmi2doc', '--ecore', self.KINDS, self.file('a.xmi', text))
        self.assertEqual((ended.status, ended.err.splitlines()), (0, [
            'xmi2doc: reference A.one in line 1: left out: a fragment of a form that is not known: //x;XSDElementDeclaration',
            'xmi2doc: reference A.many in line 1: left out: its fragment goes by id or name, and its file is not given with --beside: '
            'far.xmi#//x;XSDElementDeclaration',
            'xmi2doc: 2 references left out',
        ]))
