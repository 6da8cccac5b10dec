"""No path leads out of a folder: neither names with `..`, nor absolute names, nor symbolic links, even if they appear while it is open."""

import errno
import os
import shutil
from pathlib import Path
from unittest import mock

from folder_support import FolderTest

from mmrepo import NotSaved
from mmrepo.directory import LINK, Directory

FOLDER = '{"format":2,"roots":[{"class":"Folder","features":{}}]}'


class Names(FolderTest):
    """Names of files that a caller gives."""

    def test_refused(self):
        """A name that is not a normalised relative path to a document is refused, and nothing is made."""
        folder = self.repo.open(self.top)
        outside = Path(self.room.name, 'x.json')
        for name in ('../x.json', 'sub/../../x.json', str(outside), '/x.json', '', '.', '..', 'sub/', 'sub//x.json', './x.json', 'a\0.json'):
            with self.subTest(name), self.assertRaises(ValueError):
                folder.resource(name)
            with self.subTest(name), self.assertRaises(ValueError):
                Directory(self.top).read(name)
        with self.assertRaises(ValueError):
            folder.resource('x.xmi')
        with self.assertRaises(ValueError):
            folder.resource('x')
        self.assertFalse(outside.exists())

    def test_references_out(self):
        """A reference with too many `..` stays below the base, as the URL Standard resolves it."""
        self.write('out.json', '{"format":2,"roots":[{"class":"Person","features":{"likes":["../../../etc/x.json#/"]}}]}')
        self.assertEqual(self.lines(self.repo.open(self.top)), [
            'out.json: roots[0].features.likes[0]: "etc/x.json#/" leads to no file of the folder'
        ])


class Links(FolderTest):
    """Symbolic links in the folder, and entries that are no regular files."""

    def setUp(self):
        super().setUp()
        self.outside = Path(self.room.name, 'outside')
        self.outside.mkdir()
        (self.outside / 'secret.json').write_text(FOLDER)

    def test_not_followed(self):
        """Links and pipes are findings, and are not read."""
        (self.top / 'link.json').symlink_to(self.outside / 'secret.json')
        (self.top / 'inner.json').symlink_to('town.json')
        (self.top / 'nothing.json').symlink_to('none')
        (self.top / 'folder').symlink_to(self.outside)
        (self.top / 'loop').symlink_to('.')
        os.mkfifo(self.top / 'pipe.json')
        (self.top / 'folder.json').mkdir()
        folder = self.repo.open(self.top)
        self.assertEqual(self.lines(folder), [
            f'folder: {LINK}', f'inner.json: {LINK}', f'link.json: {LINK}', f'loop: {LINK}', f'nothing.json: {LINK}',
            'pipe.json: it is no regular file',
        ])
        self.assertEqual(len(folder.resources), 3)

    def test_folder_itself(self):
        """The path of the folder may itself be a link."""
        link = Path(self.room.name, 'link')
        link.symlink_to(self.top)
        folder = self.repo.open(link)
        folder.resources[2].contents[0].name = 'ours'
        self.assertEqual((folder.findings, self.repo.save_all()), ([], [link / 'town.json']))
        self.assertIn('ours', (self.top / 'town.json').read_text())

    def test_unreadable(self):
        """A file or a folder that can't be read is a finding."""
        real = os.open

        def refuse(path, *words, **options):
            if path in ('alone.json', 'sub'):
                raise PermissionError(errno.EACCES, 'Permission denied', path)
            return real(path, *words, **options)

        with mock.patch('os.open', refuse):
            found = self.lines(self.repo.open(self.top))
        self.assertEqual(found[:2], ["alone.json: it can't be read: Permission denied", "sub: it can't be read: Permission denied"])

    def test_reading_by_name(self):
        """Reading by name follows no link and opens no pipe."""
        (self.top / 'link.json').symlink_to(self.outside / 'secret.json')
        (self.top / 'folder').symlink_to(self.outside)
        os.mkfifo(self.top / 'pipe.json')
        directory = Directory(self.top)
        for name in ('link.json', 'folder/secret.json', 'pipe.json', 'none.json'):
            with self.subTest(name), self.assertRaises(OSError):
                directory.read(name)
        self.assertEqual(directory.read('sub/b.json'), (self.top / 'sub/b.json').read_bytes())

    def test_file_becomes_a_link(self):
        """If a file becomes a link, `save_all` does not write through it, even by force."""
        folder = self.repo.open(self.top)
        folder.resources[0].contents.clear()
        target = self.outside / 'secret.json'
        (self.top / 'alone.json').unlink()
        (self.top / 'alone.json').symlink_to(target)
        for force in (False, True):
            with self.assertRaises(NotSaved) as found:
                self.repo.save_all(force)
            self.assertEqual([it.line for it in found.exception.findings], [f'alone.json: {LINK}'])
        self.assertEqual(target.read_text(), FOLDER)

    def test_folder_becomes_a_link(self):
        """If a folder becomes a link, `save_all` does not write through it."""
        folder = self.repo.open(self.top)
        folder.resources[1].contents[0].name = 'ours'
        shutil.move(self.top / 'sub', self.outside / 'sub')
        (self.top / 'sub').symlink_to(self.outside / 'sub')
        before = (self.outside / 'sub/b.json').read_bytes()
        with self.assertRaises(NotSaved) as found:
            self.repo.save_all(force=True)
        self.assertEqual([it.kind for it in found.exception.findings], ['FILE'])
        self.assertEqual((self.outside / 'sub/b.json').read_bytes(), before)
        self.assertEqual(os.listdir(self.outside / 'sub'), ['b.json'])
