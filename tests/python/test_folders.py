"""Folders: opening them, their findings, and the URIs of their files."""

import json
import os
from unittest import mock

from folder_support import BASE, FolderTest
from support import LIBRARY, PROGRAM, LibraryTest

from mmrepo import NotLoaded, NotOpened, Repository, ToolFailed
from mmrepo.uris import checked_base, name_of, shortened, uri_of
from mmrepo.xmi import tool_file


class Opening(FolderTest):
    """What `open` makes of a folder."""

    def test_resources(self):
        """Each document becomes a resource with its URI and its path, and references between files are resolved."""
        folder = self.repo.open(self.top)
        self.assertEqual(folder.findings, [])
        alone, sub, town = folder.resources
        self.assertEqual([it.uri for it in folder.resources], [BASE + 'alone.json', BASE + 'sub/b.json', BASE + 'town.json'])
        self.assertEqual([it.path for it in folder.resources], [self.top / 'alone.json', self.top / 'sub/b.json', self.top / 'town.json'])
        self.assertEqual((folder.path, folder.base, self.repo.resources), (self.top, BASE, [alone, sub, town]))
        emma, persuasion = town.contents[0].books
        ann, second = sub.contents
        self.assertEqual(ann.likes, [persuasion])
        self.assertIs(ann.favourite, emma)
        self.assertIs(emma.next, second)
        self.assertIs(second.prev, emma)
        self.assertIsNone(self.repo.resource('http://m.example/').path)

    def test_base(self):
        folder = self.repo.open(self.top, base='https://m.example:8080/a/b/')
        self.assertEqual(folder.findings, [])
        self.assertEqual(folder.resources[1].uri, 'https://m.example:8080/a/b/sub/b.json')
        self.assertEqual(self.repo.at('https://m.example:8080/a/b/sub/b.json#/0').name, 'Ann')
        again = self.repo.open(self.top)
        self.assertEqual((again.findings, len(self.repo.resources)), ([], 6))

    def test_no_base(self):
        """A base that is no normalised http URI of a folder is a ValueError."""
        wrong = [
            '', 'models', 'http://m.example', 'http://M.example/', 'ftp://m.example/', 'http://m.example/a', 'http://m.example/a b/',
            'http://m.example/../', 'http://m.example/./a/', 'http://m.example/#/', 'http://m.example/?/', 'http://m.example:80/',
            'http://m.example:0/', 'https://m.example:443/', 'http://m.example//', 'http://a..b/', 'http://u@m.example/', 'http://é/',
            'http://m.example:99999/', 'http://m.example:080/', 'http://1/', 'http://127.1/', 'http://1.2.3.256/',
        ]
        for base in wrong:
            with self.subTest(base), self.assertRaises(ValueError):
                self.repo.open(self.top, base=base)
        self.assertEqual(self.repo.resources, [])

    def test_names_of_files(self):
        """Each name of a file has a URI of its own, even if the URL Standard escapes some of its characters."""
        names = ['a b.json', 'é.json', 'a%20b.json', 'a#b.json', 'a?b.json', 'a\\b.json', 'a^b|[c]{d}.json', "~!$&'()*+,;=:@`<>.json", '\t\n.json']
        for name in names:
            self.write(name, '{"format":2,"roots":[{"class":"Book","features":{}}]}')
        self.write('zz.json', json.dumps({'format': 2, 'roots': [
            {'class': 'Person', 'features': {'likes': [uri_of(BASE, name) + '#/' for name in names], 'favourite': 'a b.json#/'}}
        ]}))
        folder = self.repo.open(self.top)
        self.assertEqual(folder.findings, [])
        resources = {it.path.name: it for it in folder.resources}
        person = resources['zz.json'].contents[0]
        self.assertEqual(list(person.likes), [resources[name].contents[0] for name in names])
        self.assertIs(person.favourite, resources['a b.json'].contents[0])

    def test_bytes_in_a_name(self):
        """The bytes of a name that are not UTF-8 are escaped in the URI."""
        name = os.fsdecode(b'\xff.json')
        self.write(name, '{"format":2,"roots":[{"class":"Book","features":{}}]}')
        resource = self.repo.open(self.top).resources[-1]
        self.assertEqual((resource.path, resource.uri), (self.top / name, BASE + '%FF.json'))
        self.assertIs(self.repo.at(BASE + '%FF.json#/'), resource.contents[0])

    def test_findings(self):
        """Faulty documents and proxies that can't be resolved are findings, each with its file, location and kind."""
        self.write('bad.json', '{"format":2,"roots":[{"class":"Book","features":{"titel":"x"}},{"class":"Boook","features":{}}]}')
        self.write('feature.json', '{"format":2,"roots":[{"class":"Book","features":{"titel":"x"}}]}')
        self.write('latin.json', b'{"format":2,"roots":[{"class":"Book","features":{"name":"\xe9"}}]}')
        is_short = self.repo._session.engine.load is None  # whether the engine loads a document as a line
        if is_short:
            self.write('long.json', b' ' * 16_777_216)
        self.write('lost.json', '{"format":2,"roots":[{"class":"Person","features":{"likes":["nope.json#/","bad.json#/","town.json#/",'
                   '"town.json#//@books.7","http://m.example/x#/","town.json#//@books.0","town.json#/0/@books.0"],"favourite":"/1"}},'
                   '{"class":"Book","features":{"next":"town.json#//@books.1"}}]}')
        folder = self.repo.open(self.top)
        likes = 'lost.json: roots[0].features.likes'
        self.assertEqual(self.lines(folder), [
            'bad.json: roots[1]: "Boook" is no class; is "Book" meant?',
            'feature.json: roots[0].features: "titel" is no feature of Book',
            'latin.json: from byte 58 on the document is no JSON: it is not UTF-8',
            *['long.json: it has 16777216 bytes; a document that is loaded has at most 16777204 (docs/FOLDERS.md)'] * is_short,
            f'{likes}[0]: "nope.json#/" leads to no file of the folder',
            f'{likes}[1]: "bad.json#/" leads to bad.json, which is not loaded',
            f'{likes}[2]: "town.json#/" leads to a Library, and a Book is wanted',
            f'{likes}[3]: "town.json#//@books.7" leads to no object of town.json',
            f'{likes}[4]: "http://m.example/x#/" leads out of the folder',
            f'{likes}[6]: "town.json#/0/@books.0" leads to an object that the list has already',
            'lost.json: roots[1].features.next: "town.json#//@books.1" does not name it back: its prev lacks "lost.json#/1"',
        ])
        self.assertEqual([it.kind for it in folder.findings], [
            'CLASS', 'FEATURE', 'SYNTAX', *['LONG'] * is_short, 'UNLOADED', 'UNREAD', 'TYPE', 'UNRESOLVED', 'OUTSIDE', 'DUPLICATE', 'UNMATCHED',
        ])
        self.assertEqual([it.path.name for it in folder.resources], ['alone.json', 'lost.json', 'b.json', 'town.json'])

    def test_strict(self):
        """With `strict` findings are an error."""
        self.assertEqual(self.repo.open(self.top, strict=True).findings, [])
        self.write('bad.json', 'no JSON')
        with self.opened() as other, self.assertRaises(NotOpened) as found:
            other.open(self.top, strict=True)
        self.assertEqual([it.file for it in found.exception.folder.findings], ['bad.json'])
        self.assertIn('1 finding\nbad.json: from byte', str(found.exception))

    def test_not_loaded(self):
        """A resource is not made for a file that could not be loaded: the error has the findings of the file."""
        self.write('bad.json', '{"format":2,"roots":[{"class":"Boook","features":{}}]}')
        self.write('latin.json', b'\xe9')
        folder = self.repo.open(self.top)
        resources = self.repo.resources
        self.assertEqual([it.file for it in folder.findings], ['bad.json', 'latin.json'])
        for finding in folder.findings:
            with self.subTest(finding.file), self.assertRaises(NotLoaded) as found:
                folder.resource(finding.file)
            self.assertEqual(found.exception.findings, [finding])
            self.assertEqual(str(found.exception), f'{finding.file} is not loaded: 1 finding\n{finding.line}')
        self.assertEqual((self.repo.resources, self.repo.save_all(force=True)), (resources, []))
        with self.refused(16, 'RESOURCE_EXISTS'):
            folder.resource('town.json')

    def test_taken(self):
        """A file whose URI a resource has already is a finding."""
        self.repo.open(self.top)
        again = self.repo.open(self.top)
        self.assertEqual(self.lines(again), [
            f'{name}: the repository has a resource of its URI; give a different base' for name in ('alone.json', 'sub/b.json', 'town.json')
        ])
        with self.assertRaises(NotLoaded) as found:
            again.resource('town.json')
        self.assertEqual(found.exception.findings, again.findings[2:])

    def test_no_room(self):
        """Files whose objects are more than a repository makes are findings."""
        roots = ','.join(['{"class":"Book","features":{}}'] * 400_001)
        for name in 'xyz':
            self.write(f'{name}.json', f'{{"format":2,"roots":[{roots}]}}')
        self.write('a.json', '{"format":2,"roots":[{"class":"Person","features":{"favourite":"z.json#/7"}}]}')
        folder = self.repo.open(self.top)
        self.assertEqual(self.lines(folder), [
            'a.json: roots[0].features.favourite: "z.json#/7" leads to z.json, for which there is no room beside this file',
            'z.json: there is no room for its objects: a repository makes at most 1,000,000',
        ])
        self.assertEqual([it.kind for it in folder.findings], ['LIMIT', 'LIMIT'])

    def test_metamodel_is_no_document(self):
        meta = self.write('meta.json', LIBRARY.read_bytes())
        with Repository(meta, PROGRAM) as repo:
            self.assertEqual((repo.open(self.top).findings, len(repo.resources)), ([], 3))

    def test_no_folder(self):
        with self.assertRaises(FileNotFoundError):
            self.repo.open(self.top / 'none')
        with self.assertRaises(NotADirectoryError):
            self.repo.open(self.top / 'town.json')

    def test_empty_documents(self):
        self.write('empty.json', '')
        self.write('none.json', '{"format":2,"roots":[]}')
        self.assertEqual(self.lines(self.repo.open(self.top)), ['empty.json: the document ends within the JSON'])

    def test_other_files(self):
        """Other files than documents are left out; XMI files are read only if Ecore files are given."""
        self.write('town.xmi', 'nothing')
        self.write('town.txt', 'nothing')
        self.assertEqual(len(self.repo.open(self.top).resources), 3)

    def test_objects_of_before(self):
        """The locations in findings are right if the repository has objects already."""
        self.made('Book', 'Book', 'Library')[0].delete()
        self.write('lost.json', '{"format":2,"roots":[{"class":"Book","features":{}},{"class":"Person","features":{"likes":["/","x.json#/"]}}]}')
        self.assertEqual(self.lines(self.repo.open(self.top)), ['lost.json: roots[1].features.likes[1]: "x.json#/" leads to no file of the folder'])


class Uris(LibraryTest):
    """The URIs of files, and relative references."""

    def test_there_and_back(self):
        """A name leads to a URI and back; a URI that no file has leads to no name."""
        for name in ('a', 'a/b.json', 'a b', '%', '%41', 'é', '\udcff', '\\', '?#', '^', '|', '~'):
            self.assertEqual(name_of(BASE, uri_of(BASE, name)), name)
        for uri in ('http://other.example/a', BASE + '%41', BASE + 'a b', BASE + '%c3%a9'):
            self.assertIsNone(name_of(BASE, uri))

    def test_shortened(self):
        """An address below the base is written as a relative reference if that leads back to it."""
        own = BASE + 'a/b/c.json'
        cases = [
            (BASE + 'a/b/d.json#/', 'd.json#/'), (BASE + 'a/d.json#/1', '../d.json#/1'), (BASE + 'd.json#//@x.0', '../../d.json#//@x.0'),
            (BASE + 'a/b/x/y.json#/', 'x/y.json#/'), (BASE + 'a/b/x:y.json#/', './x:y.json#/'), ('http://o.example/a#/', 'http://o.example/a#/'),
            (BASE + 'a//b.json#/', BASE + 'a//b.json#/'),
        ]
        for address, wanted in cases:
            self.assertEqual(shortened(BASE, own, address), wanted)
        for base in (BASE, 'http://a-b.example:8080/town/', 'http://127.0.0.1/', 'http://xn--bcher-kva.example/'):
            self.assertEqual(checked_base(base), base)

    def test_no_tools(self):
        with mock.patch.dict(os.environ, {'MMREPO_TOOLS': self.room.name}), self.assertRaises(ToolFailed):
            tool_file('xmi2doc')
