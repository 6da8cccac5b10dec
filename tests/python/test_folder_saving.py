"""Folders: saving to the files that were read."""

import json
import os
from unittest import mock

from folder_support import BASE, FolderTest

from mmrepo import NotSaved


class Saving(FolderTest):
    """What `save_all` writes."""

    def setUp(self):
        super().setUp()
        self.folder = self.repo.open(self.top, strict=True)
        self.alone, self.sub, self.town = self.folder.resources
        self.library = self.town.contents[0]

    def test_nothing_changed(self):
        before = self.contents()
        self.assertEqual((self.folder.changed(), self.repo.save_all()), ([], []))
        self.assertEqual(self.contents(), before)

    def test_one_changed(self):
        before = self.contents()
        self.library.books[1].pages = 7
        self.assertEqual(self.folder.changed(), [self.town])
        self.assertEqual(self.repo.save_all(), [self.top / 'town.json'])
        wanted = (
            '{"format":2,"roots":[{"class":"Library","features":{"books":[{"class":"Book","features":{"name":"Emma",'
            '"next":"sub/b.json#/1"}},{"class":"Book","features":{"name":"Persuasion","pages":7}}],"name":"Town library"}}]}\n'
        )
        self.assertEqual(self.contents(), {**before, 'town.json': wanted.encode()})
        self.assertEqual((self.folder.changed(), self.repo.save_all()), ([], []))

    def test_set_back(self):
        """A resource whose document is the old one again is not written."""
        self.library.name = 'x'
        self.library.name = 'Town library'
        self.assertEqual(self.repo.save_all(), [])

    def test_positions_of_others(self):
        """An insert shifts the positions that the references of the other file contain."""
        self.library.books.insert(0, self.repo.create('Book'))
        self.assertEqual(self.repo.save_all(), [self.top / 'sub/b.json', self.top / 'town.json'])
        person = json.loads((self.top / 'sub/b.json').read_text())['roots'][0]['features']
        self.assertEqual((person['likes'], person['favourite']), (['../town.json#//@books.2'], '../town.json#//@books.1'))

    def test_read_again(self):
        """What was saved is read again under another base."""
        self.library.books.insert(0, self.repo.create('Book'))
        self.library.books[0].name = 'é "\\ \n\x01\u2028\U0001f600 ' + BASE + 'sub/b.json#/'
        self.repo.save_all()
        with self.opened() as other:
            again = other.open(self.top, base='http://other.example/x/', strict=True)
            texts = [it.save().replace('http://other.example/x/', BASE) for it in again.resources]
        self.assertEqual([json.loads(it) for it in texts], [json.loads(it.save()) for it in self.folder.resources])

    def test_emptied(self):
        self.alone.contents.clear()
        self.assertEqual(self.repo.save_all(), [self.top / 'alone.json'])
        self.assertEqual((self.top / 'alone.json').read_text(), '{"format":2,"roots":[]}\n')

    def test_new_file(self):
        made = self.folder.resource('new/deep/x.json')
        made.append(self.repo.create('Folder'))
        self.assertEqual((made.uri, made.path), (BASE + 'new/deep/x.json', self.top / 'new/deep/x.json'))
        self.assertEqual(self.repo.save_all(), [self.top / 'new/deep/x.json'])
        self.assertEqual((self.top / 'new/deep/x.json').read_text(), '{"format":2,"roots":[{"class":"Folder","features":{}}]}\n')
        with self.refused(16, 'RESOURCE_EXISTS'):
            self.folder.resource('new/deep/x.json')

    def test_changed_by_others(self):
        """A file that others have changed is overwritten only by force, and without force nothing is written."""
        before = self.contents()
        self.library.name = 'ours'
        self.alone.contents.clear()
        self.write('alone.json', before['alone.json'] + b' ')
        with self.assertRaises(NotSaved) as found:
            self.repo.save_all()
        self.assertEqual([it.line for it in found.exception.findings], [
            'alone.json: it was changed by others since it was read; save_all(force=True) overwrites it'
        ])
        self.assertEqual(self.contents(), {**before, 'alone.json': before['alone.json'] + b' '})
        self.assertEqual(self.repo.save_all(force=True), [self.top / 'alone.json', self.top / 'town.json'])
        self.assertEqual((self.top / 'alone.json').read_text(), '{"format":2,"roots":[]}\n')

    def test_changed_by_others_alone(self):
        """A file that others have changed and the caller has not stays as it is."""
        self.write('alone.json', 'theirs')
        self.library.name = 'ours'
        self.assertEqual(self.repo.save_all(), [self.top / 'town.json'])
        self.assertEqual((self.top / 'alone.json').read_text(), 'theirs')

    def test_same_size_and_time(self):
        """A change is found by content, even if size and time of the file are the same."""
        path, times = self.top / 'alone.json', os.stat(self.top / 'alone.json')
        self.write('alone.json', path.read_text().replace('Folder', 'Person'))
        os.utime(path, ns=(times.st_atime_ns, times.st_mtime_ns))
        self.alone.contents.clear()
        with self.assertRaises(NotSaved):
            self.repo.save_all()

    def test_taken_away_and_made_by_others(self):
        (self.top / 'alone.json').unlink()
        self.alone.contents.clear()
        self.folder.resource('new.json')
        self.write('new.json', 'theirs')
        with self.assertRaises(NotSaved) as found:
            self.repo.save_all()
        self.assertEqual([(it.file, it.kind) for it in found.exception.findings], [('alone.json', 'CHANGED'), ('new.json', 'CHANGED')])

    def test_changed_while_it_is_written(self):
        """A change after the first comparison is found before any file is replaced."""
        self.library.name = 'ours'
        self.alone.contents.clear()
        before = self.contents()
        real = os.fsync

        def fsync(fd):
            real(fd)
            self.write('town.json', 'theirs')

        with mock.patch('os.fsync', fsync), self.assertRaises(NotSaved):
            self.repo.save_all()
        self.assertEqual(self.contents(), {**before, 'town.json': b'theirs'})

    def test_one_is_not_saved(self):
        """If one resource is refused, nothing is written."""
        before = self.contents()
        self.library.name = 'ours'
        self.sub.contents[0].favourite = self.repo.create('Book')
        with self.assertRaises(NotSaved) as found:
            self.repo.save_all(force=True)
        self.assertEqual([it.line for it in found.exception.findings], ['sub/b.json: its resource is not saved: DANGLING'])
        self.assertEqual(self.contents(), before)
        self.assertEqual(self.folder.changed(), [self.sub, self.town])

    def test_a_proxy_of_an_address_that_an_object_has(self):
        """A list with an object and a proxy of the same address is refused: its document would have one text twice, and could not be loaded
        again."""
        self.write('likes.json', '{"format":2,"roots":[{"class":"Person","features":{"likes":["town.json#//@books.1","town.json#//@books.2"]}}]}')
        before = self.contents()
        with self.opened() as repo:
            folder = repo.open(self.top)
            likes, town = folder.resources[1], folder.resources[-1]
            self.assertEqual(len(folder.findings), 1)
            town.contents[0].books.insert(0, repo.create('Book'))
            for force in (False, True):
                with self.assertRaises(NotSaved) as found:
                    repo.save_all(force)
                self.assertEqual([it.line for it in found.exception.findings], [
                    'likes.json: roots[0].features.likes: "http://models.example/town.json#//@books.2" is in the list twice, '
                    'as an object and as a proxy that was left; take one out'
                ])
            self.assertEqual(self.contents(), before)
            likes.contents[0].likes.pop()
            self.assertEqual(len(repo.save_all()), 3)
        with self.opened() as repo:
            self.assertEqual(repo.open(self.top).findings, [])

    def test_faulty_file_stays(self):
        self.write('bad.json', 'no JSON')
        with self.opened() as repo:
            repo.open(self.top)
            repo.resources[1].append(repo.create('Folder'))
            self.assertEqual((repo.resources[1].uri, repo.save_all(force=True)), (BASE + 'bad.json', []))
        self.assertEqual((self.top / 'bad.json').read_text(), 'no JSON')

    def test_mode(self):
        """A file keeps its permissions."""
        (self.top / 'town.json').chmod(0o640)
        self.library.name = 'ours'
        self.repo.save_all()
        self.assertEqual((self.top / 'town.json').stat().st_mode & 0o7777, 0o640)

    def test_no_folder_was_opened(self):
        self.assertEqual(self.opened().save_all(), [])

    def test_a_long_document(self):
        """A document longer than a line is written; the engines in the process read it again, and the program reports it as a finding."""
        for index in range(280):
            self.library.books.append(self.repo.create('Book'))
            self.library.books[-1].name = str(index) + 'x' * 60_000
        self.assertEqual(self.repo.save_all(), [self.top / 'town.json'])
        with self.opened() as other:
            found = [it.kind for it in other.open(self.top).findings]
            self.assertEqual(found, ['UNREAD', 'UNREAD', 'UNREAD', 'LONG'] if other._session.engine.load is None else [])
