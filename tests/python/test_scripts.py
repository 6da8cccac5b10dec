"""Random scripts print the same text by the program, by the library from C, and by Python over each engine."""

import os
import random
import subprocess
from pathlib import Path

from support import ENGINE, LIBRARY, PROGRAM, ROOM, ClientTest

from mmrepo import Repository

SCRIPTS = int(os.environ.get('SCRIPTS') or 2_000)
SEED = int(os.environ.get('SCRIPT_SEED') or 76)
CLASSES = ['Library', 'Book', 'Person', 'Folder', 'Named', 'Film']
FEATURES = ['name', 'pages', 'genre', 'tags', 'scores', 'note', 'library', 'next', 'prev', 'books', 'members', 'staff', 'likes', 'favourite',
            'job', 'subs', 'parent', 'contents', 'nothing']
DOCUMENTS = ['{"format":2,"roots":[{"class":"Book","features":{"name":"a","next":"/1"}},{"class":"Book","features":{"prev":"/0"}}]}',
             '{"format":2,"roots":[{"class":"Person","features":{"likes":["b#/","//@x"]}}]}', '{}', '[',
             '{"format":2,"roots":[{"class":"Person","features":{"likes":["b#/","c#//@books.0"],"favourite":"b#/0"}}]}']


class Scripts:
    """Makes random scripts. They use the adapters from A9 on, which both the program and the library have."""

    def __init__(self, seed):
        self.random = random.Random(seed)

    def node(self):
        """A word for a node, which need not be there."""
        return f'#{self.random.randrange(12)}' if self.random.random() < 0.85 else f'r{self.random.randrange(3)}'

    def value(self):
        """A word for a value, which need not fit its feature."""
        return self.random.choice(['null', 'true', '0', '-7', '474', '99999999999', '"a"', '"b c"', '"\\u00e9\\""', ':POEM', ':NONE', '1x', '"']) \
            if self.random.random() < 0.4 else f'#{self.random.randrange(12)}'

    def number(self):
        """A word for an index."""
        return self.random.choice(['0', '0', '1', '2', '5', '01'])

    def line(self):
        """A line of any form."""
        pick, node, feature = self.random.choice, self.node(), self.random.choice(FEATURES)
        adapter = f'A{self.random.randrange(9, 12)}'
        return pick([
            f'new {pick(CLASSES)}', f'new {pick(CLASSES[:4])}', f'set {node} {feature} {self.value()}', f'set {node} {feature} {self.value()}',
            f'unset {node} {feature}', f'get {node} {feature}', f'add {node} {feature} {self.value()}', f'add {node} {feature} {self.value()}',
            f'add {node} {feature} {self.value()} {self.number()}', f'remove {node} {feature} {self.number()}',
            f'removevalue {node} {feature} {self.value()}', f'move {node} {feature} {self.number()} {self.number()}',
            f'resource "http://m.example/{pick("abc")}"', f'load r{pick("012")} {pick(DOCUMENTS)}', f'resolve {node} {feature} {self.number()}',
            'resolveall', f'isset {node} {feature}', f'delete {node}', f'validate {node}', f'class {node}', f'container {node}', f'within {node}',
            f'contents {node}', f'fragment {node}', f'at "http://m.example/{pick("abc")}#/{pick(["", "0", "/@books.0"])}"', f'save r{pick("012")}',
            f'attach {adapter} {node} {pick(["flat", "deep"])}', f'watch {adapter} {node} {pick(["flat", "deep"])}', f'unwatch {adapter} {node}',
            f'detach {adapter}', f'seen {adapter}', pick(['', '  ', 'frob', 'get', f'new {pick(CLASSES)} x', 'get  #0  name ']),
        ])

    def script(self):
        """The lines of a script."""
        return [*(f'new {self.random.choice(CLASSES[:4])}' for _ in range(6)), *(self.line() for _ in range(self.random.randrange(20, 90)))]


class Random(ClientTest):
    """Random scripts by fixed seeds."""

    def printed(self, words, lines):
        """What a program prints for lines on its standard input."""
        done = subprocess.run(list(map(str, words)), input='\n'.join(lines).encode() + b'\n', stdout=subprocess.PIPE, check=True)
        return done.stdout.decode()

    def test_the_same_texts(self):
        """Each script is run by the program and by Python over the engine; if the engine is the program, by C too."""
        scripts, by_c = Scripts(SEED), Path(ROOM, 'run_script')
        for number in range(SCRIPTS):
            lines = scripts.script()
            live = self.printed([PROGRAM, '--meta', LIBRARY, '--live'], lines)
            wanted = [it for it in live.split('\n') if it]
            with self.subTest(number, by='Python'):
                self.assertEqual(self.by_python(lines, number % 10 == 0), wanted)
            if ENGINE == 'program' and ROOM and by_c.exists():
                with self.subTest(number, by='C'):
                    self.assertEqual(self.printed([by_c, LIBRARY], lines).split('\n')[:-1], wanted)

    def by_python(self, lines, is_one_by_one):
        """What Python prints for lines, which it sends together or one by one."""
        with Repository(LIBRARY) as repo:
            session = repo._session
            texts = [session.raw(line) for line in lines] if is_one_by_one else session.raw_all(lines)
        return [line for text in texts for line in text]
