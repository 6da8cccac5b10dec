"""`tools/xmi2doc` and `tools/doc2xmi`: in the folder xmi, NAME.json is the document of NAME.xmi, NAME.args has its arguments, NAME.notes
its notes."""

import json
import os
import pty
import re
import subprocess

from support import ENVIRONMENT, HERE, URI, ToolTest, command_of, load_and_save, run_tool

FOLDER = HERE / 'xmi'
CASES = sorted(file.stem for file in FOLDER.glob('*.xmi'))


def compact(document):
    """The text that the repository saves for a document: keys in order, and no spaces."""
    return json.dumps(document, ensure_ascii=False, sort_keys=True, separators=(',', ':')) + '\n'


def ecore_of(args):
    """The Ecore files among the arguments."""
    return [word for word in args if word.endswith('.ecore')]


class Instances(ToolTest):
    """The rules of docs/ECORE.md for instances: each case is read, loaded, saved, written and read again."""

    def check(self, name):
        """Checks a case."""
        args = (FOLDER / f'{name}.args').read_text().split()
        ended = run_tool('xmi2doc', *args, f'xmi/{name}.xmi')
        self.assertEqual(ended.status, 0, ended.err)
        document = json.loads((FOLDER / f'{name}.json').read_text())
        self.assertEqual(ended.out, compact(document))
        told = [line[len('xmi2doc: '):].replace(f'xmi/{name}', name) for line in ended.err.splitlines()]
        notes = FOLDER / f'{name}.notes'
        self.assertEqual(sorted(told), sorted(notes.read_text().splitlines() if notes.exists() else []))
        self.check_round_trip(name, args, ended.out)

    def check_round_trip(self, name, args, document):
        """Checks that a document is loaded, saved, written as XMI and read again as the same."""
        meta = run_tool('ecore2mm', *ecore_of(args)).out
        answer, saved = load_and_save(meta, document)
        self.assertEqual((answer[:7], saved), ('loaded ', document))
        options = ['--ecore', *ecore_of(args), '--uri', URI]
        made = self.tool('doc2xmi', *options, self.file('saved.json', saved))
        again = run_tool('xmi2doc', *options, self.file(f'{name}.xmi', made))
        self.assertEqual((again.status, again.out, again.err), (0, document, ''))


for case in CASES:
    setattr(Instances, f'test_{case}', lambda self, name=case: self.check(name))


class Written(ToolTest):
    """What doc2xmi writes, letter by letter."""

    def xmi(self, document, ecore='library', *options):
        """The XMI that doc2xmi writes of a document."""
        return self.tool('doc2xmi', '--ecore', f'ecore/{ecore}.ecore', *options, self.file('d.json', json.dumps(document)))

    def test_texts(self):
        """Texts with marks of XML, null, and literals."""
        text = 'a<b>&"c"\'\t\n\r é\u2028'
        features = {'name': text, 'tags': [text, ''], 'note': None, 'genre': 'PLAY', 'pages': 100}
        made = self.xmi({'format': 1, 'roots': [{'class': 'Book', 'features': features}]})
        self.assertEqual(
            made,
            '<?xml version="1.0" encoding="UTF-8"?>\n'
            '<library:Book xmi:version="2.0" xmlns:xmi="http://www.omg.org/XMI" '
            'xmlns:xsi="http://www.w3.org/2001/XMLSchema-instance" xmlns:library="http://m.example/library" '
            'name="a&lt;b&gt;&amp;&quot;c&quot;\'&#x9;&#xA;&#xD; é\u2028" pages="100" genre="stage play">\n'
            '  <tags>a&lt;b&gt;&amp;"c"\'\t\n&#xD; é\u2028</tags>\n'
            '  <tags></tags>\n'
            '  <note xsi:nil="true"/>\n'
            '</library:Book>\n',
        )

    def test_types_and_proxies(self):
        """Types where they are needed, and references that lead out of the file."""
        features = {'part_list': [{'class': 'B', 'features': {}}], 'one': 'b#/', 'many': ['#//@part_list.0', 'c#/0/@x', '/']}
        made = self.xmi({'format': 1, 'roots': [{'class': 'A', 'features': features}]}, 'kinds')
        self.assertEqual(
            made.splitlines()[2:],
            [
                '  <part-list xsi:type="kinds:B"/>',
                '  <one xsi:type="kinds:A" href="b#/"/>',
                '  <many xsi:type="kinds:B" href="#//@part-list.0"/>',
                '  <many xsi:type="kinds:A" href="c#/0/@x"/>',
                '  <many xsi:type="kinds:A" href="#/"/>',
                '</kinds:A>',
            ],
        )

    def test_uri(self):
        """With `--uri` references to the same resource and to its folder become relative."""
        document = {'format': 1, 'roots': [{'class': 'Person', 'features': {
            'likes': ['http://m.example/b#/', 'http://n.example/b#/', 'http://m.example/d/e#/', 'http://m.example/a#/1'],
        }}, {'class': 'Book', 'features': {}}]}
        made = self.xmi(document, 'library', '--uri', URI)
        self.assertEqual(
            [line.strip() for line in made.splitlines() if 'href' in line],
            ['<likes href="b#/"/>', '<likes href="http://n.example/b#/"/>', '<likes href="d/e#/"/>', '<likes href="#/1"/>'],
        )


class Read(ToolTest):
    """What xmi2doc reads: depths, encodings, long texts."""

    def folder(self, levels):
        """A file of folders in one another, to a depth of `levels`."""
        head = '<l:Folder xmlns:l="http://m.example/library">'
        return head + '<subs>' * (levels - 1) + '</subs>' * (levels - 1) + '</l:Folder>'

    def test_forty_levels(self):
        """Objects at 40 levels are read, and loaded by the program."""
        out = self.tool('xmi2doc', '--ecore', 'ecore/library.ecore', self.file('a.xmi', self.folder(40)))
        self.assertEqual(out.count('"Folder"'), 40)
        meta = (HERE / 'ecore/library.json').read_text()
        self.assertEqual(load_and_save(meta, out), ('loaded 40', out))

    def test_one_level_more(self):
        """An object at level 41 is a fault."""
        self.assert_fault(
            'ROOM/a.xmi:1: an object at level 41; a document has 40 levels at most',
            'xmi2doc', '--ecore', 'ecore/library.ecore', self.file('a.xmi', self.folder(41)),
        )

    def test_encodings(self):
        """A file in any of five encodings is read as the same document."""
        text = '<l:Person xmlns:l="http://m.example/library" name="é"/>'
        for encoding in ('utf-8', 'utf-16', 'iso-8859-1', 'utf-8-sig', 'cp1252'):
            named = encoding.replace('-sig', '')
            content = f'<?xml version="1.0" encoding="{named}"?>{text}'.encode(encoding)
            with self.subTest(encoding=encoding):
                out = self.tool('xmi2doc', '--ecore', 'ecore/library.ecore', self.file('a.xmi', content))
                self.assertEqual(out, '{"format":2,"roots":[{"class":"Person","features":{"name":"é"}}]}\n')

    def test_many_notes(self):
        """The first ten notes of a kind and name are printed, the others counted."""
        content = f'<k:A xmlns:k="http://m.example/kinds">{"<cache/>" * 13}</k:A>'
        ended = run_tool('xmi2doc', '--ecore', 'ecore/kinds.ecore', self.file('a.xmi', content))
        told = ['xmi2doc: value A.cache in line 1: left out: transient'] * 10
        told += ['xmi2doc: value A.cache: 3 more', 'xmi2doc: 13 values left out']
        self.assertEqual((ended.status, ended.err.splitlines()), (0, told))

    def test_report(self):
        """`--report` prints the notes as a table."""
        content = '<k:A xmlns:k="http://m.example/kinds" sum="1"/>'
        ended = run_tool('xmi2doc', '--report', '--ecore', 'ecore/kinds.ecore', self.file('a.xmi', content))
        self.assertEqual(ended.err.splitlines()[2:], ['| value | A.sum in line 1 | left out: derived |'])

    def test_longest_text(self):
        """A text has at most 65,535 bytes of UTF-8."""
        for text, status in (('é' * 32767 + 'x', 0), ('é' * 32768, 1)):
            content = f'<l:Person xmlns:l="http://m.example/library" name="{text}"/>'
            ended = run_tool('xmi2doc', '--ecore', 'ecore/library.ecore', self.file('a.xmi', content))
            self.assertEqual(ended.status, status, ended.err)


class HowFar(ToolTest):
    """The progress over a long file: it is shown if standard error is a terminal, and only then."""

    def run_on_terminal(self, tool, *words):
        """Runs a tool with a terminal as standard error; returns what it prints there."""
        terminal, end = pty.openpty()
        done = subprocess.run(command_of(tool, words), cwd=HERE, env=ENVIRONMENT, stdout=subprocess.DEVNULL, stderr=end)
        os.write(end, b'$')
        told = ''
        while not told.endswith('$'):
            told += os.read(terminal, 100_000).decode()
        os.close(end)
        os.close(terminal)
        self.assertEqual(done.returncode, 0, told)
        return told[:-1]

    def test_long_file(self):
        """A long file shows its progress at each step, and clears the line at the end."""
        books = ''.join(f'<books name="{"x" * 80}" next="//@books.{number + 1}"/>' for number in range(9999)) + '<books/>'
        text = f'<l:Library xmlns:l="http://m.example/library">{books}</l:Library>'
        file = self.file('a.xmi', text)
        told = self.run_on_terminal('xmi2doc', '--ecore', 'ecore/library.ecore', file)
        for what in ('reading', 'joining the references of', 'writing the objects of'):
            self.assertRegex(told, f'{what} {re.escape(str(file))}: [0-9]+ %')
        self.assertEqual(told[-2:], ' \r')
        ended = run_tool('xmi2doc', '--ecore', 'ecore/library.ecore', file)
        self.assertEqual((ended.status, ended.err), (0, ''))
        told = self.run_on_terminal('doc2xmi', '--ecore', 'ecore/library.ecore', self.file('a.json', ended.out))
        self.assertRegex(told, 'reading the objects of .*: [0-9]+ %')
        self.assertRegex(told, 'writing the objects: [0-9]+ %')

    def test_short_file(self):
        """A short file shows nothing."""
        words = (FOLDER / 'town.args').read_text().split()
        self.assertEqual(self.run_on_terminal('xmi2doc', *words, 'xmi/town.xmi'), '')
