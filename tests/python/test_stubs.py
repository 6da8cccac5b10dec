"""The stubs of a metamodel: a type checker knows the features, and reports values of wrong types."""

import re
import shutil
import subprocess
import sys

from support import CLIENT, LIBRARY, PROGRAM, TOP, ClientTest

PAGE = (TOP / 'docs/PYTHON.md').read_text()
MYPY = shutil.which('mypy')

# Lines of a program over the stubs of the page's metamodel, each with the code of mypy's error, or none.
LINES = [
    ("book.pages = 474", None),
    ("book.pages = 'x'", 'assignment'),
    ("book.genre = 'POEM'", None),
    ("book.genre = 'PLAY'", 'assignment'),
    ("book.name = None", None),
    ("book.library = library", None),
    ("book.library = book", 'assignment'),
    ("library.books.append(book)", None),
    ("library.books.append(library)", 'arg-type'),
    ("book.tags += ['a']", None),
    ("book.tags.extend([1])", 'list-item'),
    ("pages: int = library.books[0].pages", None),
    ("title: int = library.books[0].name", 'assignment'),
    ("names = [it.name for it in library.books]", None),
    ("repo.create('Film')", 'call-overload'),
]


class Stubs(ClientTest):
    """`python3 -m mmrepo stubs`."""

    def made(self, metamodel):
        """The stubs of a metamodel, as the command prints them."""
        command = [sys.executable, '-m', 'mmrepo', 'stubs', metamodel]
        environment = {'PYTHONPATH': str(CLIENT), 'MMREPO': str(PROGRAM), 'PYTHONDONTWRITEBYTECODE': '1', 'MMREPO_ENGINE': 'program'}
        done = subprocess.run(command, env=environment, stdout=subprocess.PIPE, stderr=subprocess.PIPE, cwd=self.room.name)
        self.assertEqual((done.returncode, done.stderr), (0, b''))
        return done.stdout.decode()

    def checked(self, file):
        """Runs mypy on a file; returns the numbers of the lines with an error, each with the error's code."""
        command = [MYPY, '--strict', '--follow-imports=silent', '--no-incremental', '--show-error-codes', '--no-error-summary', file.name]
        done = subprocess.run(command, env={'MYPYPATH': str(TOP / 'clients/python')}, stdout=subprocess.PIPE, stderr=subprocess.STDOUT, cwd=self.room.name)
        told = done.stdout.decode()
        found = re.findall(r'^(\S+):(\d+): error: .*\[([\w-]+)\]$', told, re.M)
        self.assertEqual(len(found), told.count(': error: '), told)
        self.assertEqual({name for name, _, _ in found} - {file.name}, set(), told)
        return {int(line): code for _, line, code in found}

    def setUp(self):
        super().setUp()
        if MYPY is None:
            self.skipTest('mypy is not installed')
        metamodel = self.file('library.json', re.search(r'^```json\n(.*?)^```$', PAGE, re.M | re.S)[1])
        self.file('library_model.pyi', self.made(metamodel))

    def test_page(self):
        """In the program of docs/PYTHON.md mypy reports the line that the page marks, and no other."""
        code = re.search(r'^```python\n(from typing import TYPE_CHECKING\n.*?)^```$', PAGE, re.M | re.S)[1]
        wrong = [line for line, text in enumerate(code.splitlines(), 1) if '# refused' in text]
        self.assertEqual(len(wrong), 1)
        self.assertEqual(self.checked(self.file('program.py', code)), {wrong[0]: 'assignment'})

    def test_lines(self):
        """mypy reports the lines of LINES that have a code, and no others."""
        head = ['from library_model import Repository', "repo = Repository('library.json')", "library, book = repo.create('Library'), repo.create('Book')"]
        file = self.file('program.py', '\n'.join([*head, *(line for line, _ in LINES), '']))
        self.assertEqual(self.checked(file), {len(head) + 1 + at: code for at, (_, code) in enumerate(LINES) if code is not None})

    def test_names(self):
        """Classes and features may have names that Python or the package uses."""
        features = ', '.join(f'{{"name": "{name}", "kind": "attribute", "type": "EInt"}}' for name in ('class', 'delete', '__x__', 'number', 'x'))
        classes = f'{{"name": "class", "features": [{features}]}}, {{"name": "Repository"}}, {{"name": "EObject", "supers": ["class"]}}'
        self.file('library_model.pyi', self.made(self.file('meta.json', f'{{"classes": [{classes}]}}')))
        lines = ['from library_model import Repository', "repo = Repository('meta.json')", "repo.create('EObject').x = 3", "repo.create('class').x = 'a'"]
        self.assertEqual(self.checked(self.file('program.py', '\n'.join(lines) + '\n')), {4: 'assignment'})

    def test_all(self):
        """The stubs of other metamodels are free of errors."""
        for metamodel in (LIBRARY, self.file('meta.json', '{"classes":[]}'), self.file('one.json', '{"classes":[{"name":"A"}]}')):
            self.file('library_model.pyi', self.made(metamodel))
            self.assertEqual(self.checked(self.file('program.py', 'from library_model import Repository\n')), {})
