"""The notes on what the tools convert and leave out: losses come first and are counted, all others are listed by kind."""

import json

from support import HERE, ToolTest, run_tool

KINDS = HERE / 'ecore/kinds.ecore'
TRANSIENT = HERE / 'emf/cases/tr.ecore'
HEAD = 'xmlns:xsi="http://www.w3.org/2001/XMLSchema-instance" xmlns:k="http://m.example/kinds"'
PARTS = '<part-list xsi:type="k:A"><box/></part-list>'


class Told(ToolTest):
    """The lines on standard error, and the status."""

    def read(self, content, *words):
        """Runs xmi2doc on a text over the metamodel `kinds`."""
        return run_tool('xmi2doc', *words, '--ecore', KINDS, self.file('a.xmi', content))

    def test_objects_below_what_is_left_out(self):
        """The objects below a value that is left out are counted."""
        ended = self.read(f'<k:A {HEAD}><cache><cache/>{PARTS * 20}</cache></k:A>')
        told = ['xmi2doc: value A.cache in line 1: left out: transient', 'xmi2doc: 1 value left out, 41 objects below it']
        self.assertEqual((ended.status, ended.err.splitlines()), (0, told))

    def test_losses_come_first(self):
        """Notes of losses are printed before other notes."""
        ended = self.read(f'<k:A {HEAD} many="/ /" sum="1"><cache/></k:A>')
        self.assertEqual(ended.err.splitlines(), [
            'xmi2doc: value A.sum in line 1: left out: derived',
            'xmi2doc: value A.cache in line 1: left out: transient',
            'xmi2doc: value A.many in line 1: left out: values that the list has already',
            'xmi2doc: 2 values left out',
        ])

    def test_strict(self):
        """With `--strict` a loss gives status 3, and other notes do not."""
        for content, status in ((f'<k:A {HEAD} sum="1"/>', 3), (f'<k:A {HEAD}/>', 0), (f'<k:A {HEAD} many="/ /"/>', 0)):
            ended = self.read(content, '--strict')
            self.assertEqual((ended.status, ended.out[:10]), (status, '{"format":'))
        for file, status in (('supers', 3), ('library', 0), ('groups', 0)):
            self.assertEqual(run_tool('ecore2mm', '--strict', f'ecore/{file}.ecore').status, status)

    def test_what_loses_nothing_is_counted(self):
        """Packages, annotations and operations are counted in one line, and listed by `--report`."""
        told = self.notes('ecore2mm', 'ecore/flags.ecore')
        self.assertIn('1 package, 1 annotation, 1 operation, 1 instance class left out without a loss', told)
        self.assertFalse([line for line in told if line.startswith(('package', 'annotation', 'operation'))])
        table = run_tool('ecore2mm', '--report', 'ecore/flags.ecore').err
        self.assertIn('| operation | flags.A.run | left out |\n', table)

    def test_long_names(self):
        """Long names are cut."""
        name = 'n' * 300
        text = (KINDS).read_text().replace('name="sum"', f'name="{name}"')
        ended = run_tool('xmi2doc', '--ecore', self.file('k.ecore', text), self.file('a.xmi', f'<k:A {HEAD} {name}="1"/>'))
        self.assertEqual(ended.err.splitlines()[0], f'xmi2doc: value A.{"n" * 97}… in line 1: left out: derived')

    def test_own_uri(self):
        """A whole URI that may be that of the document itself is noted; with `--uri` it is written as a fragment."""
        link = 'http://m.example/a#/1'
        document = {'format': 2, 'roots': [{'class': 'N', 'features': {'to': [link], 'any': ['http://m.example/a#/7']}}] + [
            {'class': 'N', 'features': {'from': ['/0']}}]}
        file = self.file('a.json', json.dumps(document))
        self.assertEqual(
            self.notes('doc2xmi', '--ecore', TRANSIENT, file),
            ['URI http://m.example/a: 1 reference leads to it as to another resource; if it is that of the document, give it with --uri'],
        )
        document['roots'][0]['features']['any'] = []
        made = self.tool('doc2xmi', '--ecore', TRANSIENT, '--uri', 'http://m.example/a', self.file('a.json', json.dumps(document)))
        self.assertIn('<p:N to="/1"/>', made)

    def test_transient_ends_out_of_the_file(self):
        """A transient end that leads out of the file is left out."""
        document = {'format': 2, 'roots': [{'class': 'N', 'features': {'from': ['b#/']}}]}
        ended = run_tool('doc2xmi', '--ecore', TRANSIENT, self.file('a.json', json.dumps(document)))
        told = ['doc2xmi: reference root 0 N.from: left out: EMF saves no transient end: b#/', 'doc2xmi: 1 reference left out']
        self.assertEqual(ended.err.splitlines(), told)
