"""The page docs/EDITOR.md: its options, its steps for a new user, and its pictures, which EDITOR_SHOTS=1 makes anew."""

import argparse
import json
import os
import re
import shutil
import struct
from pathlib import Path

from editor_support import BrowserTest, with_browser
from support import LIBRARY, TOP, ClientTest

from mmrepo.editor import command
from mmrepo.editor.calls import CALLS
from mmrepo.editor.server import read_page

PAGE = (TOP / 'docs/EDITOR.md').read_text()
SIZE = (1280, 800)
LARGEST = 200_000  # bytes of a picture

TOWN = {'format': 2, 'roots': [{'class': 'Library', 'features': {
    'name': 'Town library',
    'books': [
        {'class': 'Book', 'features': {
            'name': 'Emma', 'pages': 474, 'tags': ['love', 'england'], 'scores': [7, 8, 7], 'note': 'the copy with the red cover', 'next': '//@books.1'
        }},
        {'class': 'Book', 'features': {'name': 'Persuasion', 'pages': 249, 'prev': '//@books.0', 'next': '//@books.2'}},
        {'class': 'Book', 'features': {'name': 'Sanditon', 'prev': '//@books.1'}}, {'class': 'Book', 'features': {'name': 'Odes', 'genre': 'POEM'}},
    ],
    'members': [
        {'class': 'Person', 'features': {'name': 'Ann', 'job': '/', 'favourite': '//@books.1', 'likes': ['//@books.0', '//@books.3']}},
        {'class': 'Person', 'features': {'name': 'Bob', 'likes': ['//@books.2']}},
    ],
    'staff': ['//@members.0'],
}}]}
VILLAGE = {'format': 2, 'roots': [
    {'class': 'Library', 'features': {'name': 'Village library', 'books': [{'class': 'Book', 'features': {'name': 'Cranford'}}]}},
    {'class': 'Person', 'features': {'name': 'Dora', 'likes': ['../town.json#//@books.0', '../lost.json#/'], 'favourite': '//@books.0'}},
]}
VILLAGE['roots'][1]['features']['favourite'] = '/0/@books.0'


class Words(ClientTest):
    """The text of the page."""

    def test_options(self):
        """The page names each option of the command, and each picture that is made for it."""
        parser = argparse.ArgumentParser(conflict_handler='resolve')
        command.add_arguments(parser)
        for option in set(parser._option_string_actions) - {'-h', '--help'}:
            self.assertIn(f'`{option}', PAGE)

    def test_pictures(self):
        """The pictures are there, and are smaller than LARGEST."""
        named = re.findall(r'!\[[^\]]+\]\(([\w-]+\.png)\)', PAGE)
        self.assertEqual(len(named), 2)
        for name in named:
            data = (TOP / 'docs' / name).read_bytes()
            self.assertLess(len(data), LARGEST)
            self.assertEqual((data[:8], struct.unpack('>II', data[16:24])), (b'\x89PNG\r\n\x1a\n', SIZE))
        self.assertIn(f'](docs/{named[0]})', (TOP / 'README.md').read_text())

    def test_calls(self):
        """Each call that the scripts of the browser make is a call of the server."""
        scripts = ''.join(content.decode() for kind, content in read_page().values() if kind.startswith('text/javascript'))
        made = set(re.findall(r"\bcall\('([a-z ]+)'", scripts)) | set(re.findall(r"\.edit\('([a-z ]+)'", scripts))
        self.assertLessEqual(made, set(CALLS))
        self.assertGreater(len(made), 15)


@with_browser
class Pictures(BrowserTest):
    """The pictures and the steps of the page."""

    def shot(self, name):
        """Takes a screenshot, and keeps it if EDITOR_SHOTS is set."""
        path = Path(self.room.name, name)
        self.browser.run('document.activeElement?.blur(); await new Promise((done) => setTimeout(done, 300));')
        self.browser.shot(str(path))
        data = path.read_bytes()
        self.assertLess(len(data), LARGEST)
        self.assertEqual(struct.unpack('>II', data[16:24]), SIZE)
        if os.environ.get('EDITOR_SHOTS'):
            shutil.copyfile(path, TOP / 'docs' / name)

    def test_pictures(self):
        """Takes the pictures: a refused edit, and the metamodel in the dark scheme."""
        self.browser.size(*SIZE)
        self.write('town.json', TOWN)
        self.open(self.write('more/village.json', VILLAGE))
        self.js("mmrepo.tree.open.add('r0'); mmrepo.tree.open.add('r1');")
        for label in ('Town library', 'Village library', 'Emma'):
            self.select(self.call('search', text=label)['hits'][0]['object'])
            self.js('mmrepo.tree.open.add(mmrepo.tree.selected); mmrepo.tree.change();')
        self.browser.type('#f-name', ' (1815)', 'Keys.ENTER')
        self.browser.type('#f-scores', '9', 'Keys.ENTER')
        self.until("document.querySelector('[data-feature=\"scores\"] .refusal').textContent")
        self.settle()
        self.shot('editor.png')
        self.browser.scheme('dark')
        self.browser.click('#picture')
        self.until("document.querySelectorAll('.picture .box').length === 6")
        self.shot('editor-picture.png')

    def test_as_a_new_user(self):
        """The command of the page leads from a folder with only a metamodel to a saved model."""
        words = re.search(r'^python3 -m mmrepo edit (\S+) (\S+)$', PAGE, re.M).groups()
        self.assertEqual(words, ('examples/library.json', 'models'))
        self.open('models', meta=LIBRARY)
        self.browser.click('#new-file')
        self.until("document.querySelector('#file-name')")
        self.browser.keys('Ctrl+a', 'town.json', 'Keys.ENTER')
        self.until("mmrepo.tree.selected === 'r0'")
        self.browser.click('#new-child')
        self.until("document.querySelectorAll('#choices li').length === 4")
        self.browser.keys('lib', 'Keys.ENTER')
        self.until('mmrepo.tree.selected === 0')
        self.until("document.querySelector('#f-name')")
        self.browser.type('#f-name', 'Town library', 'Keys.TAB')
        self.until("mmrepo.model.label(0) === 'Town library'")
        self.browser.click('#save')
        self.until("document.querySelector('#saved').textContent === ''")
        self.assertEqual(json.loads(Path(self.room.name, 'models/town.json').read_text()), {
            'format': 2, 'roots': [{'class': 'Library', 'features': {'name': 'Town library'}}]
        })
