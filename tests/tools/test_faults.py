"""Bad input: the tool ends with status 1, nothing on standard output, and one line that says what is wrong."""

import json

from support import ToolTest, run_tool

LIBRARY = 'ecore/library.ecore'
KINDS = 'ecore/kinds.ecore'
HEAD = 'xmlns:xmi="http://www.omg.org/XMI" xmlns:xsi="http://www.w3.org/2001/XMLSchema-instance"'
ECORE = f'{HEAD} xmlns:ecore="http://www.eclipse.org/emf/2002/Ecore" name="p"'
STRING = 'http://www.eclipse.org/emf/2002/Ecore#//EString'
ENTITY = '<!DOCTYPE a [<!ENTITY b "c">]>'

# Ecore files, each with the line that ecore2mm prints for it.
ECORE_FAULTS = [
    ('', 'ROOM/a.ecore:1: not XML: no element found'),
    ('no XML', 'ROOM/a.ecore:1: not XML: syntax error'),
    ('<a>\n<b>', 'ROOM/a.ecore:2: not XML: no element found'),
    ('<a>\n</b>', 'ROOM/a.ecore:2: not XML: mismatched tag'),
    ('<e:a/>', 'ROOM/a.ecore:1: not XML: unbound prefix'),
    ('\n<a/>', 'ROOM/a.ecore:2: not Ecore: the root is a, and no EPackage of http://www.eclipse.org/emf/2002/Ecore'),
    (f'<xmi:XMI {HEAD}/>', 'ROOM/a.ecore: not Ecore: no EPackage'),
    (f'<ecore:EClass {ECORE}/>', 'ROOM/a.ecore:1: not Ecore: the root is EClass, and no EPackage of http://www.eclipse.org/emf/2002/Ecore'),
    (f'{ENTITY}\n<ecore:EPackage {ECORE}/>', 'ROOM/a.ecore:1: a document type (DOCTYPE) is refused'),
    ('<!DOCTYPE a SYSTEM "file:///etc/passwd"><a/>', 'ROOM/a.ecore:1: a document type (DOCTYPE) is refused'),
    ('<a>&b;</a>', 'ROOM/a.ecore:1: not XML: undefined entity'),
    (f'<ecore:EPackage {ECORE}>\n<eClassifiers name="A"/></ecore:EPackage>', 'ROOM/a.ecore:2: not Ecore: eClassifiers without xsi:type'),
    (
        f'<ecore:EPackage {ECORE}><eClassifiers xsi:type="ecore:EFoo"/></ecore:EPackage>',
        'ROOM/a.ecore:1: not Ecore: eClassifiers of xsi:type ecore:EFoo',
    ),
    (
        f'<ecore:EPackage {ECORE}><eClassifiers xsi:type="x:EClass"/></ecore:EPackage>',
        'ROOM/a.ecore:1: not Ecore: eClassifiers of xsi:type x:EClass',
    ),
    (f'<ecore:EPackage {ECORE} abstract="true"/>', 'ROOM/a.ecore:1: not Ecore: EPackage has no attribute abstract'),
    (f'<ecore:EPackage {ECORE}><eFoo/></ecore:EPackage>', 'ROOM/a.ecore:1: not Ecore: EPackage has no child eFoo'),
    ('<a>' * 101, 'ROOM/a.ecore:1: elements nest deeper than 100 levels'),
    (b'<a b="\xff"/>', 'ROOM/a.ecore:1: not XML: byte 0xff is none of the encoding UTF-8'),
    (b'<?xml version="1.0" encoding="cp1252"?>\n<a>\x81</a>', 'ROOM/a.ecore:2: not XML: byte 0x81 is none of the encoding cp1252'),
    ('<a>\x01</a>', 'ROOM/a.ecore:1: not XML: not well-formed (invalid token)'),
    ('<?xml version="1.0" encoding="none-such"?><a/>', 'ROOM/a.ecore:1: the encoding cannot be read: unknown encoding: none-such'),
    (b'\xef\xbb\xbf<a/>', 'ROOM/a.ecore:1: not Ecore: the root is a, and no EPackage of http://www.eclipse.org/emf/2002/Ecore'),
]

# Contents of a root of class A, each with the line that xmi2doc prints for it.
XMI_FAULTS = [
    ('nope="1"/>', 'ROOM/a.xmi:1: class A has no feature nope'),
    ('><nope/></k:A>', 'ROOM/a.xmi:1: class A has no feature nope'),
    ('><k:box/></k:A>', 'ROOM/a.xmi:1: class A has no feature box of http://m.example/kinds'),
    ('k:key="1"/>', 'ROOM/a.xmi:1: class A has no feature key of http://m.example/kinds'),
    ('number="x"/>', 'ROOM/a.xmi:1: A.number is no EInt: x'),
    ('number="2147483648"/>', 'ROOM/a.xmi:1: A.number is no EInt: 2147483648'),
    ('truth="yes"/>', 'ROOM/a.xmi:1: A.truth is no EBoolean: yes'),
    ('colour="GREEN"/>', 'ROOM/a.xmi:1: A.colour is no Colour: GREEN'),
    ('><number>1</number><number>2</number></k:A>', 'ROOM/a.xmi:1: A.number has one value, and several are written'),
    ('number="1"><number>2</number></k:A>', 'ROOM/a.xmi:1: A.number has one value, and several are written'),
    ('box="x"/>', 'ROOM/a.xmi:1: A.box contains objects, and is written as an attribute'),
    ('>\n<part-list/></k:A>', 'ROOM/a.xmi:2: part-list without xsi:type, and class Base is abstract'),
    ('>\n<part-list xsi:type="k:Base"/></k:A>', 'ROOM/a.xmi:2: class Base is abstract'),
    ('>\n<part-list xsi:type="z:A"/></k:A>', 'ROOM/a.xmi:2: xsi:type z:A has a prefix that is not declared'),
    ('>\n<part-list xsi:type="k:Z"/></k:A>', 'ROOM/a.xmi:2: no class Z in a package http://m.example/kinds of the files given'),
    ('>\n<box xsi:type="k:A"/></k:A>', 'ROOM/a.xmi:2: class A is no B, which A.box holds'),
    ('one="missing"/>', 'ROOM/a.xmi:1: A.one leads to nothing, no such id: missing'),
    ('one="//@part-list.0"/>', 'ROOM/a.xmi:1: A.one leads to nothing, no such position: //@part-list.0'),
    ('one="/1"/>', 'ROOM/a.xmi:1: A.one leads to nothing, no such position: /1'),
    ('one="//@part-list[key=\'k\']"><part-list xsi:type="k:A" key="l"/></k:A>',
     "ROOM/a.xmi:1: A.one leads to nothing, no such key: //@part-list[key='k']"),
    ('><text>a<b/></text></k:A>', 'ROOM/a.xmi:1: b is an element inside of a value'),
    (f'number="{"9" * 200}"/>', f'ROOM/a.xmi:1: A.number is no EInt: {"9" * 99}…'),
    ('left="//@box"><box/></k:A>', 'ROOM/a.xmi:1: class B is no A, which A.left holds'),
    ('><one/></k:A>', 'ROOM/a.xmi:1: one has no href'),
    ('left="/ #a #b"><part-list xsi:type="k:A" xmi:id="a"/><part-list xsi:type="k:A" xmi:id="b"/></k:A>',
     'ROOM/a.xmi:1: A.left has 3 values, and its upper bound is 2'),
]

# Documents, each with the line that doc2xmi prints for it.
DOCUMENT_FAULTS = [
    ('{', 'ROOM/a.json: not JSON: Expecting property name enclosed in double quotes: line 1 column 2 (char 1)'),
    (b'\xff', 'ROOM/a.json: not UTF-8: byte 0'),
    (b'\xef\xbb\xbf{}', 'ROOM/a.json: begins with a byte order mark'),
    ('NaN', 'ROOM/a.json: not JSON: NaN'),
    ('{}', 'ROOM/a.json: no document of a resource: it has the keys format and roots'),
    ('{"format":3,"roots":[]}', 'ROOM/a.json: format 3 is another than 1 or 2'),
    ('{"format":1.0,"roots":[]}', 'ROOM/a.json: format 1.0 is another than 1 or 2'),
    ('{"format":true,"roots":[]}', 'ROOM/a.json: format true is another than 1 or 2'),
    ('{"format":1,"roots":[1]}', 'ROOM/a.json: root 0: no object: it has the keys class and features'),
    ('{"format":1,"roots":[{"class":"Z","features":{}}]}', 'ROOM/a.json: root 0: no class that has objects: Z'),
    ('{"format":1,"roots":[{"class":"Base","features":{}}]}', 'ROOM/a.json: root 0: no class that has objects: Base'),
    ('[' * 100000, 'ROOM/a.json: nests too deep'),
]

# Features of a root of class A, each with the line that doc2xmi prints for it.
FEATURE_FAULTS = [
    ({'nope': 1}, 'ROOM/a.json: root 0: class A has no feature nope to write'),
    ({'number': '1'}, 'ROOM/a.json: root 0: number has what is no EInt'),
    ({'number': True}, 'ROOM/a.json: root 0: number has what is no EInt'),
    ({'number': None}, 'ROOM/a.json: root 0: number has what is no EInt'),
    ({'truth': 1}, 'ROOM/a.json: root 0: truth has what is no EBoolean'),
    ({'colour': 'red!'}, 'ROOM/a.json: root 0: colour has what is no Colour'),
    ({'numbers': 1}, 'ROOM/a.json: root 0: numbers is many-valued, and no array is written'),
    ({'box': {'class': 'A', 'features': {}}}, 'ROOM/a.json: root 0: box does not hold objects of class A'),
    ({'box': {'class': 'B', 'features': {'home': '/'}}}, 'ROOM/a.json: root 0 box 0: class B has no feature home to write'),
    ({'one': 1}, 'ROOM/a.json: root 0: A.one has what is no text'),
    ({'one': 'x'}, 'ROOM/a.json: root 0: A.one has what is no fragment: x'),
    ({'one': '/1'}, 'ROOM/a.json: root 0: A.one leads to no Base: /1'),
    ({'one': '//@box'}, 'ROOM/a.json: root 0: A.one leads to no Base: //@box'),
    ({'text': '\u0001'}, 'ROOM/a.json: root 0: A.text has a character that XML cannot write'),
    ({'text': '\ud800'}, 'ROOM/a.json: root 0: A.text has a character that XML cannot write'),
    ({'part_list': [{'class': 'A', 'features': {'one': 'b\ud800#/'}}]}, 'ROOM/a.json: root 0 part_list 0: A.one has a character that XML cannot write'),
]


class Faults(ToolTest):
    """The tables above, and single faults."""

    def check_table(self, table, name, tool, *words):
        """Checks each row of a table."""
        for content, line in table:
            with self.subTest(content=content[:80]):
                self.assert_fault(line, tool, *words, self.file(name, content))

    def test_ecore(self):
        """Faults of Ecore files."""
        self.check_table(ECORE_FAULTS, 'a.ecore', 'ecore2mm')

    def test_xmi(self):
        """Faults of XMI files below the root."""
        head = f'<k:A {HEAD} xmlns:k="http://m.example/kinds" '
        table = [(head + content, line) for content, line in XMI_FAULTS]
        self.check_table(table, 'a.xmi', 'xmi2doc', '--ecore', KINDS)

    def test_feature_without_name(self):
        """A feature without a name in Ecore can't be written as XMI."""
        line = 'ROOM/n.json: root 0: P._ is called  in Ecore, which is no name in XML'
        for bound, value in (('', 'x'), ('upperBound="-1"', ['x'])):
            feature = f'<eStructuralFeatures xsi:type="ecore:EAttribute" {bound} eType="ecore:EDataType {STRING}"/>'
            classifier = f'<eClassifiers xsi:type="ecore:EClass" name="P">{feature}</eClassifiers>'
            package = self.file('n.ecore', f'<ecore:EPackage {ECORE} nsURI="http://m.example/n">{classifier}</ecore:EPackage>')
            document = self.file('n.json', json.dumps({'format': 2, 'roots': [{'class': 'P', 'features': {'_': value}}]}))
            with self.subTest(bound=bound):
                self.assert_fault(line, 'doc2xmi', '--ecore', package, document)

    def test_root(self):
        """Faults of the root of an XMI file."""
        self.check_table(
            [
                ('<A/>', 'ROOM/a.xmi:1: no class A in a package without URI of the files given'),
                ('<a:A xmlns:a="http://m.example/no"/>', 'ROOM/a.xmi:1: no class A in a package http://m.example/no of the files given'),
                (f'{ENTITY}<a/>', 'ROOM/a.xmi:1: a document type (DOCTYPE) is refused'),
            ],
            'a.xmi', 'xmi2doc', '--ecore', KINDS,
        )

    def test_documents(self):
        """Faults of documents."""
        self.check_table(DOCUMENT_FAULTS, 'a.json', 'doc2xmi', '--ecore', KINDS)

    def test_features(self):
        """Faults of features in documents."""
        table = [
            (json.dumps({'format': 1, 'roots': [{'class': 'A', 'features': features}]}), line) for features, line in FEATURE_FAULTS
        ]
        self.check_table(table, 'a.json', 'doc2xmi', '--ecore', KINDS)

    def test_missing_files(self):
        """Files that are missing or are folders."""
        missing = f'{self.room.name}/none'
        line = 'ROOM/none: No such file or directory'
        self.assert_fault(line, 'ecore2mm', missing)
        self.assert_fault(line, 'xmi2doc', '--ecore', missing, 'xmi/town.xmi')
        self.assert_fault(line, 'xmi2doc', '--ecore', LIBRARY, missing)
        self.assert_fault(line, 'doc2xmi', '--ecore', LIBRARY, missing)
        self.assert_fault(line, 'diagram', missing)
        self.assert_fault('ROOM: Is a directory', 'ecore2mm', self.room.name)
        self.assert_fault('ROOM/none/a: No such file or directory', 'ecore2mm', LIBRARY, '-o', f'{missing}/a')

    def test_arguments(self):
        """Wrong arguments end with status 2 and the usage."""
        for tool, words in (('ecore2mm', []), ('xmi2doc', [LIBRARY]), ('xmi2doc', ['--ecore', LIBRARY]), ('doc2xmi', []), ('diagram', [])):
            ended = run_tool(tool, *words)
            self.assertEqual((ended.status, ended.out), (2, ''))
            self.assertIn('usage: ', ended.err)

    def test_names_that_xml_does_not_have(self):
        """A class or feature whose name in Ecore is no name in XML can't be written, nor one of two features of one name."""
        rows = [
            ({'class': 'A_b', 'features': {}}, 'ROOM/a.json: root 0: class A_b is called A b in Ecore, which is no name in XML'),
            ({'class': 'Sub', 'features': {'_1st': 'x'}}, 'ROOM/a.json: root 0: A_b._1st is called 1st in Ecore, which is no name in XML'),
            ({'class': 'Sub', 'features': {'a_b_2': 1}}, 'ROOM/a.json: root 0: A_b.a_b_2 is called a_b in Ecore, as another feature of Sub is'),
        ]
        table = [(json.dumps({'format': 1, 'roots': [root]}), line) for root, line in rows]
        self.check_table(table, 'a.json', 'doc2xmi', '--ecore', 'ecore/names.ecore')

    def test_package_without_uri(self):
        """A class of a package without URI can't be written."""
        ecore = self.file('a.ecore', f'<ecore:EPackage {ECORE}><eClassifiers xsi:type="ecore:EClass" name="A"/></ecore:EPackage>')
        document = self.file('a.json', '{"format":1,"roots":[{"class":"A","features":{}}]}')
        line = 'ROOM/a.json: root 0: class A is in a package without URI, so XMI has no name for it'
        self.assert_fault(line, 'doc2xmi', '--ecore', ecore, document)
