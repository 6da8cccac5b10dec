"""`python3 -m mmrepo check`: its findings, how it prints them, and its statuses."""

import json
import os
import pty
import select
import signal
import subprocess
import sys
import time
from pathlib import Path

from support import CLIENT, LIBRARY, PROGRAM, TOP, ClientTest

sys.path.insert(0, str(TOP / 'bench'))

from models import make  # noqa: E402

from mmrepo.checking import Scope, check_group  # noqa: E402
from mmrepo.shards import models_of  # noqa: E402


def book(features):
    """A document of one book for each text of features."""
    made = ','.join(f'{{"class":"Book","features":{{{it}}}}}' for it in features)
    return f'{{"format":2,"roots":[{made}]}}'


def nested(levels):
    """A document of folders that contain one another, to a depth of so many levels."""
    text = '{"class":"Folder","features":{}}'
    for _ in range(levels - 1):
        text = f'{{"class":"Folder","features":{{"subs":[{text}]}}}}'
    return f'{{"format":2,"roots":[{text}]}}'


# For each file its name, its document, and the findings after the name, in the words of docs/SCRIPT.md and docs/FOLDERS.md.
FAULTS = [
    ('01.json', '{"format":2,"roots":[}', ['from byte 22 on the document is no JSON: "}"']),
    ('02.json', '{"format":2,"root":[]}', ['the key "roots" is absent', 'unknown key "root"; is "roots" meant?']),
    ('03.json', '{"format":3,"roots":[]}', ['"format" is 3, and has to be 2, or 1']),
    ('04.json', '{"format":2,"roots":[{"class":"Boook","features":{}}]}', ['roots[0]: "Boook" is no class; is "Book" meant?']),
    ('05.json', book(['"titel":"x"']), ['roots[0].features: "titel" is no feature of Book']),
    ('06.json', book(['"pages":"1"']), ['roots[0].features.pages: it is "1", and has to be a whole number of 32 bits']),
    ('07.json', book(['', '"next":"/7"']), ['roots[1].features.next: "/7" leads to no object of the document']),
    ('08.json', book(['"tags":["a","b","a"]']), ['roots[0].features.tags: [0] and [2] are the same value']),
    ('09.json', book(['"scores":[1,2,3,4]']), ['roots[0].features.scores: it has 4 values, and at most 3 are accepted']),
    ('10.json', book(['"next":"/1"', '']), ['roots[0].features.next: "/1" does not name it back: its prev lacks "/0"']),
    ('11.json', book(['"next":"b#/"']).replace('2', '1', 1), [
        'roots[0].features.next: "b#/" leads to another resource, and has an opposite; that takes "format" 2'
    ]),
    ('12.json', nested(41), ['roots[0]' + '.features.subs[0]' * 40 + ': it stands at level 41, and the last is 40']),
    ('dangling.json', book(['"next":"nowhere.json#/"', '"prev":"0000/000000.json#//@books.900"']), [
        'roots[0].features.next: "nowhere.json#/" leads to no file of the folder',
        'roots[1].features.prev: "0000/000000.json#//@books.900" leads to no object of 0000/000000.json',
    ]),
    ('short.json', '{"format":2,"roots":[{"class":"Library","features":{"members":[{"class":"Person","features":{}}]}}]}', [
        'roots[0].features.members[0].features.favourite: it has no value, and has to have one'
    ]),
    ('sub/unmatched.json', book(['', '"prev":"../0000/000003.json#//@books.5"']), [
        'roots[1].features.prev: "../0000/000003.json#//@books.5" does not name it back: its next lacks "../sub/unmatched.json#/1"'
    ]),
]


class CheckTest(ClientTest):
    """A test with a folder in which the command runs."""

    def setUp(self):
        super().setUp()
        self.top = Path(self.room.name, 'models')
        self.top.mkdir()
        self.environment = {**os.environ, 'PYTHONPATH': str(CLIENT), 'MMREPO': str(PROGRAM), 'PYTHONDONTWRITEBYTECODE': '1'}

    def write(self, name, content):
        """Writes a file of the folder."""
        path = self.top / name
        path.parent.mkdir(exist_ok=True)
        path.write_bytes(content if isinstance(content, bytes) else content.encode())

    def command(self, *words, meta=LIBRARY):
        """The command line for some arguments."""
        return [sys.executable, '-m', 'mmrepo', 'check', str(meta), *map(str, words)]

    def check(self, *words, **options):
        """Runs the command; returns its status, the lines of its standard output, and the text of its standard error."""
        done = subprocess.run(
            self.command(*words, **options), cwd=self.room.name, env=self.environment, stdout=subprocess.PIPE, stderr=subprocess.PIPE
        )
        return done.returncode, done.stdout.decode().splitlines(), done.stderr.decode()


class Finding(CheckTest):
    """Which findings the command makes."""

    def test_nothing(self):
        """Files without a fault give no findings, by any number of processes."""
        make(self.top, 12, 20)
        for jobs in (1, 2):
            self.assertEqual(self.check('models', '--jobs', jobs), (0, ['no findings in 12 files with 240 objects'], ''))
        self.assertEqual(self.check(self.top / '0000/000003.json', '--root', self.top)[:2], (0, ['no findings in 1 file with 20 objects']))

    def test_planted(self):
        """Each planted fault gives its findings, and files without a fault give none. A reference to a faulty file is no finding."""
        make(self.top, 12, 20)
        for name, document, _ in FAULTS:
            self.write(name, document)
        self.write('refers.json', '{"format":2,"roots":[{"class":"Person","features":{"favourite":"01.json#/","likes":["12.json#/"]}}]}')
        wanted = [f'models/{name}: {line}' for name, _, lines in sorted(FAULTS) for line in lines]
        for jobs in (1, 3):
            status, lines, said = self.check('models', '--jobs', jobs)
            self.assertEqual((status, lines[:-1], said), (1, wanted, ''))
            self.assertEqual(lines[-1], '17 findings in 15 of 28 files with 247 objects')

    def test_proxies(self):
        """Each reason for which a proxy can't be resolved has a text of its own."""
        self.write('a.json', book(['', '"prev":"b.json#/0"', '']))
        self.write('b.json', book(['"next":"a.json#/1"', '"next":"a.json#/0"']))
        self.write('c.json', '{"format":2,"roots":[{"class":"Person","features":{"favourite":"a.json#/0","likes":["a.json#/","a.json#/00",'
                   '"d.json#/","a.json#/0","b.json#/2","http://m.example/#/","http://models.example/b.json#/1","e.json#/"]}}]}')
        self.write('d.json', '{"format":2,"roots":[{"class":"Folder","features":{}}]}')
        likes = 'models/c.json: roots[0].features.likes'
        status, lines, _ = self.check('models')
        self.assertEqual(lines[1], f'{likes}[1]: "a.json#/00" is no fragment and no URI with a fragment')
        self.write('c.json', (self.top / 'c.json').read_text().replace('"a.json#/00",', ''))
        self.assertEqual(self.check('models')[1], [
            'models/b.json: roots[1].features.next: "a.json#/0" does not name it back: its prev lacks "b.json#/1"',
            f'{likes}[1]: "d.json#/" leads to a Folder, and a Book is wanted',
            f'{likes}[2]: "a.json#/0" leads to an object that the list has already',
            f'{likes}[3]: "b.json#/2" leads to no object of b.json',
            f'{likes}[4]: "http://m.example/#/" leads out of the folder',
            f'{likes}[6]: "e.json#/" leads to no file of the folder',
            '6 findings in 2 of 4 files with 7 objects',
        ])
        self.assertEqual(len(self.check('models', '--accept', 'http://m.example/', '--accept', 'http://o.example/')[1]), 6)

    def test_short(self):
        """Lists, attributes and container references with fewer values than their lower bound are findings."""
        meta = self.file('meta.json', json.dumps({'classes': [
            {'name': 'Box', 'features': [
                {'name': 'parts', 'kind': 'reference', 'type': 'Part', 'upper': -1, 'lower': 2, 'containment': True, 'opposite': 'box'},
                {'name': 'note', 'kind': 'attribute', 'type': 'EString', 'lower': 1, 'unsettable': True},
                {'name': 'sizes', 'kind': 'attribute', 'type': 'EInt', 'lower': 3, 'upper': 5},
            ]},
            {'name': 'Part', 'features': [
                {'name': 'box', 'kind': 'reference', 'type': 'Box', 'lower': 1, 'opposite': 'parts'},
                {'name': 'name', 'kind': 'attribute', 'type': 'EString', 'lower': 1},
            ]},
        ]}))
        part = {'class': 'Part', 'features': {'name': 'p'}}
        self.write('a.json', json.dumps({'format': 2, 'roots': [
            {'class': 'Box', 'features': {'parts': [{'class': 'Part', 'features': {}}], 'sizes': [1, 2]}},
            {'class': 'Box', 'features': {'parts': [part, part], 'note': 'x', 'sizes': [1, 2, 3]}},
            part,
        ]}))
        self.assertEqual(self.check('models', meta=meta)[1], [
            'models/a.json: roots[0].features.parts: it has 1 value, and at least 2 are wanted',
            'models/a.json: roots[0].features.note: it is not set, and has to be',
            'models/a.json: roots[0].features.sizes: it has 2 values, and at least 3 are wanted',
            'models/a.json: roots[0].features.parts[0].features.name: it has no value, and has to have one',
            'models/a.json: roots[2].features.box: it has no value, and has to have one',
            '5 findings in 1 of 1 file with 6 objects',
        ])

    def test_files_that_are_none(self):
        """Files that are no regular files, are empty or are not UTF-8 are findings."""
        self.write('latin.json', b'\xff')
        self.write('empty.json', '')
        (self.top / 'link.json').symlink_to('/etc/passwd')
        (self.top / 'loop').symlink_to('.')
        os.mkfifo(self.top / 'pipe.json')
        self.assertEqual(self.check('models')[1], [
            'models/link.json: it is a symbolic link, which is not followed',
            'models/loop: it is a symbolic link, which is not followed',
            'models/pipe.json: it is no regular file',
            'models/empty.json: the document ends within the JSON',
            'models/latin.json: from byte 1 on the document is no JSON: it is not UTF-8',
            '5 findings in 5 of 5 files with 0 objects',
        ])

    def test_too_long(self):
        """A document that is longer than a load accepts is a finding."""
        self.write('long.json', b'{"format":2,"roots":[' + b' ' * 16_777_216 + b']}')
        self.assertEqual(self.check('models')[1][0],
                         'models/long.json: it has 16777239 bytes; a document that is loaded has at most 16777204 (docs/FOLDERS.md)')

    def test_more_targets_than_there_is_room(self):
        """A group is checked even if the files that it refers to have more objects than a repository takes."""
        many = book([''] * 400_001)
        for name in 'abc':
            self.write(f'{name}.json', many)
        likes = ','.join(f'"{name}.json#/{index}"' for name in 'abc' for index in (400_000, 400_001))
        self.write('z.json', f'{{"format":2,"roots":[{{"class":"Person","features":{{"likes":[{likes}],"favourite":"c.json#/7"}}}}]}}')
        report = check_group(models_of(self.top, LIBRARY, program=PROGRAM), Scope(('',), ()), ('z.json',))
        self.assertEqual([it.line for it in report.findings], [
            f'z.json: roots[0].features.likes[{index}]: "{name}.json#/400001" leads to no object of {name}.json'
            for index, name in ((1, 'a'), (3, 'b'), (5, 'c'))
        ])
        self.assertEqual((report.files, report.objects), (1, 1))


class Printing(CheckTest):
    """The output formats, the paths of files, and the progress bar."""

    def setUp(self):
        super().setUp()
        self.write('a%,:.json', book(['"titel":"100%"']))
        self.write('good.json', book(['']))

    def test_json(self):
        """`--format json` prints one JSON object with the findings and the counts."""
        status, lines, _ = self.check('models', '--format', 'json')
        self.assertEqual((status, json.loads('\n'.join(lines))), (1, {
            'findings': [{
                'file': 'models/a%,:.json', 'kind': 'FEATURE', 'place': 'roots[0].features', 'text': '"titel" is no feature of Book'
            }],
            'count': 1, 'faulty': 1, 'files': 2, 'objects': 1,
        }))
        status, lines, _ = self.check('models/good.json', '--format', 'json')
        self.assertEqual((status, json.loads('\n'.join(lines))), (0, {'findings': [], 'count': 0, 'faulty': 0, 'files': 1, 'objects': 1}))

    def test_github(self):
        """`--format github` prints findings as workflow commands, and escapes the characters that end a property."""
        self.assertEqual(self.check('models', '--format', 'github')[1], [
            '::error file=models/a%25%2C%3A.json,title=FEATURE::roots[0].features: "titel" is no feature of Book',
            '1 finding in 1 of 2 files with 1 object',
        ])

    def test_bytes_in_a_name(self):
        """Bytes of a file name that are not UTF-8, and newlines, are printed as escapes."""
        self.write(os.fsdecode(b'\xff\n.json'), '')
        self.assertEqual(self.check('models')[1][1:], [
            'models/\\udcff\\n.json: the document ends within the JSON', '2 findings in 2 of 3 files with 1 object'
        ])

    def test_paths(self):
        """Paths are printed as they were given, and references lead to files below `--root` or below the paths given."""
        self.write('sub/a.json', book(['"next":"../good.json#/"']))
        line = 'sub/a.json: roots[0].features.next: "../good.json#/" does not name it back: its prev lacks "sub/a.json#/"'
        alone = 'models/sub/a.json: roots[0].features.next: "good.json#/" leads to no file of the folder'
        cases = [
            (['models/sub', 'models/good.json'], f'models/{line}', 2), (['models/sub', '--root', 'models'], f'models/{line}', 1),
            (['models/sub/a.json', '--root', 'models'], f'models/{line}', 1), (['models/sub'], alone, 1), (['models/sub/a.json'], alone, 1),
            ([self.top / 'sub', '--root', 'models'], f'{self.top.resolve()}/{line}', 1),
        ]
        for words, wanted, files in cases:
            status, lines, said = self.check(*words)
            self.assertEqual((status, lines[0], said), (1, wanted, ''))
            self.assertIn(f'1 finding in 1 of {files} file', lines[1])

    def test_metamodel_is_no_document(self):
        """A metamodel that is in the folder is not read as a document, and a reference to it is a finding."""
        self.write('library.json', LIBRARY.read_bytes())
        self.assertEqual(self.check('models', meta='models/library.json')[1][-1], '1 finding in 1 of 2 files with 1 object')
        self.write('good.json', '{"format":2,"roots":[{"class":"Person","features":{"favourite":"library.json#/"}}]}')
        self.assertEqual(self.check('models', meta='models/library.json')[1][1:], [
            'models/good.json: roots[0].features.favourite: "library.json#/" leads to library.json, which is not loaded',
            '2 findings in 2 of 2 files with 1 object',
        ])

    def test_progress(self):
        """On a terminal the command shows a progress bar, and erases it at the end."""
        ours, theirs = pty.openpty()
        with subprocess.Popen(self.command('models'), cwd=self.room.name, env=self.environment, stdout=subprocess.PIPE, stderr=theirs) as run:
            os.close(theirs)
            out = run.stdout.read()
            said = b''
            while select.select([ours], [], [], 1)[0]:
                try:
                    said += os.read(ours, 4096)
                except OSError:
                    break
        os.close(ours)
        self.assertEqual(out.decode().splitlines()[-1], '1 finding in 1 of 2 files with 1 object')
        self.assertIn('[####################] 2 of 2 documents, findings: 1', said.decode())
        self.assertTrue(said.endswith(b'\r\x1b[K'))


class Statuses(CheckTest):
    """The statuses for wrong arguments, and for checks that can't be finished."""

    def test_wrong_use(self):
        """Wrong arguments give status 2 and a line that names the argument."""
        self.write('good.json', book(['']))
        cases = [
            (['none'], 'error: no file or folder none'), (['models', '--jobs', '0'], 'error: --jobs 0: at least one process is needed'),
            (['models', '--base', 'x'], "error: 'x' is no base"), (['models', '--ecore', 'none'], 'error: no file none'),
            (['models', '--executor', 'tcp://x'], 'error: --executor tcp://x: it is written as dask://HOST:PORT'),
            (['models', '--format', 'xml'], 'usage: '), ([], 'usage: '), (['models', '--root', 'models/sub'], 'error: '),
        ]
        for words, wanted in cases:
            with self.subTest(words):
                status, lines, said = self.check(*words)
                self.assertEqual((status, lines), (2, []))
                self.assertTrue(said.startswith(wanted), said)
        (self.top / 'sub').mkdir()
        self.assertEqual(self.check('models/good.json', '--root', 'models/sub')[2], 'error: models/good.json is not below models/sub\n')

    def test_metamodel(self):
        """A refused or missing metamodel gives status 2 with the explanation."""
        status, _, said = self.check('models', meta=self.file('meta.json', '{"classes":[{"nam":"A"}]}'))
        self.assertEqual(status, 2)
        self.assertIn('metamodel refused: 2 LAYOUT\nclasses[0]: the key "name" is absent\n', said)
        self.assertEqual(self.check('models', meta='none.json')[::2], (2, 'error: no file none.json\n'))

    def test_no_program(self):
        """A missing program gives status 2."""
        self.environment['MMREPO'] = '/none'
        status, _, said = self.check('models')
        self.assertEqual((status, said.partition(':')[0]), (2, 'error'))

    def test_program_dies(self):
        """If the program ends in the middle, the check says that it was not finished, and has status 3."""
        self.write('good.json', book(['']))
        fake = self.fake('for line in lines():\n    if line.startswith("load"): sys.exit(3)\n    say("r0\\n\\n" if line.strip() else "\\n")')
        self.environment['MMREPO'] = str(fake)
        for jobs in (1, 2):
            status, lines, said = self.check('models', '--jobs', jobs)
            self.assertEqual((status, lines), (3, []))
            self.assertTrue(said.startswith('error: the check was not finished: the program ended'), said)

    def test_nobody_reads(self):
        """If the reader of standard output goes away, the status is 3 and nothing is printed on standard error."""
        for number in range(3):
            self.write(f'{number}.json', 'x')
        with subprocess.Popen(self.command('models'), cwd=self.room.name, env=self.environment, stdout=subprocess.PIPE, stderr=subprocess.PIPE) as run:
            run.stdout.close()
            self.assertEqual(run.stderr.read(), b'')
        self.assertEqual(run.returncode, 3)

    def test_interrupted(self):
        """Ctrl-C gives status 130 and no output."""
        self.write('pages.json', book(['']))
        begun = Path(self.room.name, 'begun')
        fake = self.fake(
            f'import time\nfor line in lines():\n    if line.startswith("load"): open({str(begun)!r}, "w").close(); time.sleep(60)\n'
            '    say("r0\\n\\n" if line.strip() else "\\n")'
        )
        self.environment['MMREPO'] = str(fake)
        with subprocess.Popen(self.command('models', '--jobs', '1'), cwd=self.room.name, env=self.environment, stderr=subprocess.PIPE) as run:
            while not begun.exists():
                time.sleep(0.05)
            run.send_signal(signal.SIGINT)
            self.assertEqual(run.stderr.read(), b'')
        self.assertEqual(run.returncode, 130)
