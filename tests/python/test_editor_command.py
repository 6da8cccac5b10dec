"""The command that starts the editor, and the files of the editor that are installed."""

import os
import re
import shutil
import socket
import subprocess
import sys
import unittest
import zipfile
from pathlib import Path

from editor_support import EditorTest
from support import CLIENT, LIBRARY, PROGRAM, TOP

PAGE = CLIENT / 'mmrepo/editor/page'
LONGEST_FILE = 400
FUNCTION = re.compile(r'( *)(?:async )?(?:export )?(?:async )?(?:def|function) |( +)(?:async )?(?!if|for|while|switch|catch)\w+\(.*\) \{$')


class Command(EditorTest):
    """The arguments of the command, and its files."""

    def run_edit(self, *words):
        """Runs a command that ends without serving; returns its status and its standard error."""
        environment = {**os.environ, 'PYTHONPATH': str(CLIENT), 'MMREPO': str(PROGRAM), 'PYTHONDONTWRITEBYTECODE': '1'}
        command = [sys.executable, '-W', 'error', '-m', 'mmrepo', 'edit', *map(str, words), '--no-browser']
        done = subprocess.run(command, cwd=self.room.name, env=environment, stdout=subprocess.PIPE, stderr=subprocess.PIPE)
        return done.returncode, done.stderr.decode()

    def test_wrong_use(self):
        """Wrong arguments give status 2 and a line that names the argument."""
        self.assertEqual(self.run_edit('none.json')[0], 2)
        self.assertIn('metamodel refused', self.run_edit(self.file('bad.json', '{"classes":7}'))[1])
        self.assertEqual(self.run_edit(LIBRARY, self.file('a-file', ''))[0], 2)
        self.assertEqual(self.run_edit(LIBRARY, '--port', '99999')[0], 2)
        with socket.socket() as taken:
            taken.bind(('127.0.0.1', 0))
            taken.listen()
            self.assertIn('Address already in use', self.run_edit(LIBRARY, '--port', taken.getsockname()[1])[1])

    def test_no_folder(self):
        """Without a folder a model can be made, and leaves the editor by export."""
        self.start()
        self.call('new', class_='Book', node='r0', feature='contents')
        self.assertRegex(self.call('save', force=False), '^no folder is open: ')
        text = '{"format":2,"roots":[{"class":"Book","features":{}}]}\n'
        self.assertEqual(self.call('export', node='r0', xmi=False), {'name': 'model.json', 'text': text})
        self.assertEqual(self.stop(), 'not saved: http://models.example/model.json\n')

    def test_folders(self):
        """A folder that is missing is made. References between the files of several folders that are beside each other are resolved."""
        self.write('a/one.json', {'format': 2, 'roots': [{'class': 'Person', 'features': {'favourite': '../b/two.json#/'}}]})
        top = self.write('b/two.json', {'format': 2, 'roots': [{'class': 'Book', 'features': {}}]})
        self.start(top / 'a', top / 'b', top / 'new')
        self.assertEqual([(it['name'], it['folder']) for it in self.call('start')['resources']], [('one.json', 0), ('two.json', 1)])
        self.assertEqual(self.call('nodes', nodes=[0])['nodes']['0']['values'], {'favourite': 1})
        word = self.call('new file', folder=2, name='three.json')['resource']
        self.call('place', object=1, node=word, feature='contents')
        self.assertEqual([Path(it).name for it in self.call('save', force=False)['saved']], ['one.json', 'two.json', 'three.json'])
        self.assertEqual(self.stop(), '')
        self.assertEqual((top / 'new/three.json').read_text(), '{"format":2,"roots":[{"class":"Book","features":{}}]}\n')

    @unittest.skipUnless(shutil.which('node'), 'node is not installed')
    def test_scripts(self):
        """Each script of the page is valid JavaScript, and begins with the mark that has its types checked."""
        for file in PAGE.glob('*.mjs'):
            done = subprocess.run(['node', '--check', str(file)], stderr=subprocess.PIPE)
            self.assertEqual(done.stderr.decode(), '', file.name)
            self.assertTrue(file.read_text().startswith('// @ts-check\n'), file.name)

    def test_lengths(self):
        """No file of the editor has more than 400 lines, and no function more than 40."""
        for file in [*PAGE.iterdir(), *PAGE.parent.glob('*.py')]:
            lines = file.read_text().splitlines()
            self.assertLessEqual(len(lines), LONGEST_FILE, file.name)
            for first, line in enumerate(lines if file.suffix in ('.py', '.mjs') else []):
                begins = FUNCTION.match(line)
                if begins:
                    indent = len(begins[1] or begins[2] or '')
                    rest = lines[first + 1:]
                    length = next((at for at, it in enumerate(rest) if it.strip() and len(it) - len(it.lstrip()) <= indent), len(rest))
                    self.assertLess(length, 40, f'{file.name}: {line}')

    def test_installed(self):
        """The wheel of the package has the files of the page, byte by byte."""
        code = f'import backend; print(backend.build_wheel({self.room.name!r}))'
        done = subprocess.run([sys.executable, '-B', '-c', code], cwd=TOP / 'clients/python', stdout=subprocess.PIPE, check=True)
        with zipfile.ZipFile(Path(self.room.name, done.stdout.decode().strip())) as wheel:
            for file in PAGE.iterdir():
                self.assertEqual(wheel.read(f'mmrepo/editor/page/{file.name}'), file.read_bytes())
