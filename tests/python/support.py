"""Shared by the tests of the client: repositories over the engine that is tested, and fake programs with faults."""

import os
import subprocess
import sys
import tempfile
import unittest
from contextlib import contextmanager
from pathlib import Path

TOP = Path(__file__).resolve().parent.parent.parent
ENGINE = os.environ.get('TEST_ENGINE', 'program')
ROOM = os.environ.get('TEST_ROOM', '')  # the folder of the installed package, if the library was built
CLIENT = TOP / 'clients/python' if ENGINE == 'program' else Path(ROOM)
PROGRAM = Path(os.environ.get('MMREPO') or TOP / 'crates/mmrepo/out/mmrepo').resolve()
LIBRARY = TOP / 'examples/library.json'

sys.path.insert(0, str(CLIENT))
os.environ['MMREPO_ENGINE'] = ENGINE
os.environ['MMREPO'] = str(PROGRAM)

from mmrepo import Refused, Repository  # noqa: E402

# A class with a feature of each type. The names of some features are those of methods, or are words of a script.
KINDS = """
{"enums": [{"name": "Colour", "literals": ["RED", "BLUE"]}],
 "classes": [
  {"name": "Kind", "features": [
   {"name": "text", "kind": "attribute", "type": "EString"},
   {"name": "texts", "kind": "attribute", "type": "EString", "upper": -1, "unique": false},
   {"name": "int", "kind": "attribute", "type": "EInt"},
   {"name": "ints", "kind": "attribute", "type": "EInt", "upper": -1},
   {"name": "long", "kind": "attribute", "type": "ELong"},
   {"name": "longs", "kind": "attribute", "type": "ELong", "upper": -1},
   {"name": "truth", "kind": "attribute", "type": "EBoolean"},
   {"name": "truths", "kind": "attribute", "type": "EBoolean", "upper": -1, "unique": false},
   {"name": "colour", "kind": "attribute", "type": "Colour"},
   {"name": "colours", "kind": "attribute", "type": "Colour", "upper": -1, "unique": false},
   {"name": "delete", "kind": "attribute", "type": "EString", "default": "a default"},
   {"name": "_word", "kind": "attribute", "type": "EInt"},
   {"name": "__x__", "kind": "attribute", "type": "EInt"}
  ]}
 ]}
"""

BEGIN = """
import os, sys
def lines():
    for line in sys.stdin:
        yield line
def say(text):
    sys.stdout.write(text)
    sys.stdout.flush()
sys.stdin.readline()
say('\\n')
"""


class ClientTest(unittest.TestCase):
    """A test with a temporary folder. The repositories that it opens are closed at its end."""

    maxDiff = None

    def setUp(self):
        self.room = tempfile.TemporaryDirectory()
        self.addCleanup(self.room.cleanup)

    def file(self, name, content):
        """Writes a file from a text or from bytes, and returns its path."""
        path = Path(self.room.name, name)
        path.write_bytes(content if isinstance(content, bytes) else content.encode())
        return path

    def opened(self, metamodel=LIBRARY):
        """A repository over the engine that is tested."""
        repo = Repository(metamodel)
        assert repo.engine == ENGINE
        self.addCleanup(repo.close)
        return repo

    def kinds(self):
        """A repository of the metamodel KINDS."""
        return self.opened(self.file('kinds.json', KINDS))

    def fake(self, body, begin=BEGIN):
        """Writes a fake program in Python, which accepts the metamodel and then runs a body; returns its path."""
        path = self.file('fake', f'#!{sys.executable}\n{begin}\n{body}\n')
        path.chmod(0o755)
        return path

    def run_code(self, code, folder):
        """Runs Python code in a process of its own, with the client and the program at hand, and returns what it prints."""
        environment = {**os.environ, 'PYTHONPATH': str(CLIENT), 'MMREPO': str(PROGRAM), 'PYTHONDONTWRITEBYTECODE': '1'}
        command = [sys.executable, '-W', 'error', '-c', code]
        done = subprocess.run(command, cwd=folder, env=environment, stdout=subprocess.PIPE, stderr=subprocess.PIPE)
        self.assertEqual(done.stderr.decode(), '')
        return done.stdout.decode()

    @contextmanager
    def refused(self, number, name, cause=None):
        """A context that checks that its body raises `Refused` with a number, a name and, if it is given, a cause."""
        with self.assertRaises(Refused) as found:
            yield
        self.assertEqual((found.exception.number, found.exception.name, found.exception.cause), (number, name, cause))


class LibraryTest(ClientTest):
    """A test over a repository of examples/library.json."""

    def setUp(self):
        super().setUp()
        self.repo = self.opened()

    def made(self, *classes):
        """New objects, one of each class that is named."""
        return [self.repo.create(name) for name in classes]
