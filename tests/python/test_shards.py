"""Shards: how files are grouped, and the same results by each executor."""

import json
import os
import random
import shutil
import subprocess
import sys
import unittest
from concurrent.futures import Executor, ProcessPoolExecutor, ThreadPoolExecutor
from pathlib import Path

import shard_functions
from support import CLIENT, LIBRARY, PROGRAM, TOP, ClientTest

sys.path.insert(0, str(TOP / 'bench'))

from models import make  # noqa: E402

from mmrepo import NotLoaded, shards  # noqa: E402

HERE = Path(__file__).resolve().parent
FILES, OBJECTS = 10, 24
# The Python interpreters that may have Dask: this one, and that of Debian.
PYTHONS = [sys.executable, '/usr/bin/python3']


def python_of_dask():
    """A Python interpreter that has Dask, or None."""
    for python in PYTHONS:
        if shutil.which(python) and subprocess.run([python, '-c', 'import distributed'], stderr=subprocess.DEVNULL).returncode == 0:
            return python
    return None


class ShardTest(ClientTest):
    """A test with a folder of files that refer to one another."""

    def setUp(self):
        super().setUp()
        self.top = Path(self.room.name, 'models')
        self.top.mkdir()
        make(self.top, FILES, OBJECTS)

    def write(self, name, content):
        """Writes a file of the folder."""
        (self.top / name).write_text(content)

    def mapped(self, function, executor=None, objects=3 * OBJECTS, **options):
        """The results of `shards.map` for a function on the folder."""
        return list(shards.map(function, self.top, executor, metamodel=LIBRARY, objects=objects, program=PROGRAM, **options))


def wanted(number, below):
    """What `described` returns for a file, by the rule by which bench/models.py makes the files."""
    members = OBJECTS // 4
    far, after, before = [(number + it) % FILES for it in (7, 1, -1)]
    books = OBJECTS - 1 - members
    likes = [[(f'Book {it}.{place}', f'{it:06}.json') for it in (number, far)] for place in range(members)]
    nexts = [(f'Book {after}.{place + 1}', f'{after:06}.json') if place % 10 == 1 else None for place in range(books)]
    return f'{number:06}.json', f'{below}0000/{number:06}.json', likes, nexts


class Mapping(ShardTest):
    """`shards.map`."""

    def test_results(self):
        """For each size of group and each executor, references lead to their objects, and results have the order of the files."""
        right = [wanted(number, 'http://models.example/') for number in range(FILES)]
        for objects in (1, OBJECTS, 3 * OBJECTS, 1_000_000):
            found = self.mapped(shard_functions.described, None, objects)
            self.assertEqual(len(found), {1: 10, OBJECTS: 10, 3 * OBJECTS: 4}.get(objects, 1))
            self.assertEqual(sum(found, []), right)
        for executor in (ThreadPoolExecutor(3), ProcessPoolExecutor(3)):
            with executor:
                self.assertEqual(sum(self.mapped(shard_functions.described, executor), []), right)

    def test_base(self):
        """`base` is the URI of the folder."""
        found = self.mapped(shard_functions.described, base='https://m.example/x/')
        self.assertEqual(sum(found, [])[3], wanted(3, 'https://m.example/x/'))

    def test_what_is_loaded(self):
        """A shard loads its group and the files to which the group's proxies lead, and no further files. A file refers to the next one, to
        the one before it, and to the seventh after it."""
        found = self.mapped(shard_functions.names)
        self.assertEqual([names for names, _ in found], [[f'{it:06}.json' for it in group] for group in ([0, 1, 2], [3, 4, 5], [6, 7, 8], [9])])
        # The group of files 0 to 2 refers to 3, 7, 8 and 9; that of 3 to 5 to 0, 1, 2 and 6; that of 6 to 8 to 3, 4, 5 and 9; 9 to 0, 6 and 8.
        self.assertEqual([count for _, count in found], [3 + 4, 3 + 4, 3 + 4, 1 + 3])

    def test_order_of_a_slow_group(self):
        """A result waits for the results of all files before it."""
        class Late(Executor):
            """An executor that finishes the last calls first."""

            def __init__(self):
                self.pool, self.calls = ThreadPoolExecutor(1), []

            def submit(self, *words, **options):
                future = self.pool.submit(*words, **options)
                self.calls.append(future)
                return future

        late = Late()
        found = shards.map(shard_functions.names, self.top, late, metamodel=LIBRARY, objects=OBJECTS, program=PROGRAM)
        self.assertEqual(next(found)[0], ['000000.json'])
        found.close()
        self.assertEqual(len(late.calls), FILES)
        self.assertTrue(late.calls[-1].cancelled())

    def test_errors(self):
        """An error of the user's function is raised, and wrong arguments are errors before anything runs."""
        with self.assertRaises(LookupError) as found:
            self.mapped(shard_functions.fails)
        self.assertEqual(found.exception.args, ('000000.json',))
        with ProcessPoolExecutor(2) as pool, self.assertRaises(LookupError):
            self.mapped(shard_functions.fails, pool)
        for objects in (0, -1, 1_000_001):
            with self.assertRaises(ValueError):
                self.mapped(shard_functions.names, objects=objects)
        with self.assertRaises(ValueError):
            self.mapped(shard_functions.names, base='nothing')
        with self.assertRaises(FileNotFoundError):
            list(shards.map(shard_functions.names, self.top / 'none', None, metamodel=LIBRARY))

    def test_not_loaded(self):
        """A faulty file of a group, or one that a group refers to, raises NotLoaded; so does a symbolic link."""
        self.write('0000/000009.json', '{"format":2,"roots":[{"class":"Boook","features":{}}]}')
        with ProcessPoolExecutor(2) as pool, self.assertRaises(NotLoaded) as found:
            self.mapped(shard_functions.names, pool)
        self.assertEqual([it.line for it in found.exception.findings], ['0000/000009.json: roots[0]: "Boook" is no class; is "Book" meant?'])
        (self.top / 'link.json').symlink_to('/etc/passwd')
        with self.assertRaises(NotLoaded) as found:
            self.mapped(shard_functions.names)
        self.assertEqual([it.kind for it in found.exception.findings], ['FILE'])

    def test_proxies_that_lead_nowhere(self):
        """Proxies that can't be resolved stay proxies."""
        text = json.loads((self.top / '0000/000000.json').read_text())
        text['roots'][0]['features']['members'][0]['features']['likes'] = ['none.json#/', 'http://m.example/#/', '000001.json#//@books.77']
        self.write('0000/000000.json', json.dumps(text))

        def likes(repo, resources):
            return [it.address for it in resources[0].contents[0].members[0].likes]

        found = shards.map(likes, self.top, None, metamodel=LIBRARY, objects=OBJECTS, program=PROGRAM)
        self.assertEqual(next(found), [
            'http://models.example/0000/none.json#/', 'http://m.example/#/', 'http://models.example/0000/000001.json#//@books.77'
        ])
        found.close()

    def test_nothing_is_saved(self):
        """A shard can't be saved."""
        before = [it.read_bytes() for it in sorted(self.top.rglob('*.json'))]
        said = self.mapped(shard_functions.edits)
        self.assertEqual(said, ['the files of a shard are not written: open the folder for it (docs/SHARDS.md)'] * 4)
        self.assertEqual([it.read_bytes() for it in sorted(self.top.rglob('*.json'))], before)

    def test_empty_folder(self):
        """An empty folder has no results."""
        shutil.rmtree(self.top / '0000')
        self.assertEqual(self.mapped(shard_functions.names), [])

    def test_metamodel_in_the_folder(self):
        """A metamodel that is in the folder is not loaded as a document."""
        shutil.copy(LIBRARY, self.top / 'meta.json')
        found = shards.map(shard_functions.names, self.top, None, metamodel=self.top / 'meta.json', objects=FILES * OBJECTS, program=PROGRAM)
        self.assertEqual([len(names) for names, _ in found], [FILES])


class Groups(ShardTest):
    """How files are grouped."""

    def models(self):
        """The files of the folder."""
        return shards.models_of(self.top, LIBRARY)

    def test_weight(self):
        """The weight of a document is at least the number of its objects, and equal to it if no text has a brace."""
        with self.opened() as repo:
            ways = random.Random(7)
            for number in range(60):
                has_braces = number % 3 == 0
                def made(level):
                    subs = [made(level + 1) for _ in range(ways.randrange(4))] if level < 4 else []
                    return {'class': 'Folder', 'features': {'subs': subs}} if subs else {'class': 'Folder', 'features': {}}
                roots = [made(1) for _ in range(ways.randrange(3))]
                roots += [{'class': 'Book', 'features': {'name': ways.choice(['{', '}{"class":', 'x']) if has_braces else 'x \\ "'}}]
                text = json.dumps({'format': 2, 'roots': roots}, indent=ways.choice([None, 1]))
                count = repo.resource(f'http://m.example/{number}').load(text)
                weight = shards.weight(text.encode(), False)
                self.assertGreaterEqual(weight, count)
                if '{' not in roots[-1]['features']['name']:
                    self.assertEqual(weight, count)
        self.assertEqual(shards.weight(b'', False), 0)

    def test_groups(self):
        """Groups keep the order of the files; a group weighs at most the limit, unless one file does, and is as large as the limit permits.
        """
        names = self.models().names()[0]
        self.write('big.json', json.dumps({'format': 2, 'roots': [{'class': 'Folder', 'features': {}}] * 100}))
        names.insert(4, 'big.json')
        names.append('none.json')
        for objects in (1, 23, 24, 47, 48, 99, 100, 124, 1000):
            found = list(shards.groups(self.models(), names, objects))
            self.assertEqual([name for group in found for name in group], names)
            weights = [[100 if name == 'big.json' else 0 if name == 'none.json' else 24 for name in group] for group in found]
            for group, after in zip(weights, weights[1:] + [[]]):
                self.assertTrue(sum(group) <= objects or sum(map(bool, group)) == 1)
                if after:
                    self.assertGreater(sum(group) + after[0], objects)


@unittest.skipUnless(python_of_dask(), 'no Python has the package python3-distributed')
class Dask(ShardTest):
    """A Dask cluster of processes on this machine, made by dask_cluster.py."""

    def run_script(self, *words):
        """Runs dask_cluster.py; returns what it prints."""
        environment = {
            **os.environ, 'PYTHONPATH': f'{CLIENT}:{HERE}', 'PYTHONDONTWRITEBYTECODE': '1', 'MMREPO': str(PROGRAM),
            'DIES_ONCE': str(self.file('dies', 'once')),
        }
        command = [python_of_dask(), str(HERE / 'dask_cluster.py'), str(self.top), str(LIBRARY), str(3 * OBJECTS), *words]
        done = subprocess.run(command, env=environment, stdout=subprocess.PIPE, stderr=subprocess.PIPE)
        self.assertEqual(done.returncode, 0, done.stderr.decode())
        return done.stdout.decode()

    def test_cluster(self):
        """The results are those of one process, even if a worker dies; `check` runs over the cluster too."""
        said = json.loads(self.run_script())
        right = json.loads(json.dumps([wanted(number, 'http://models.example/') for number in range(FILES)]))
        self.assertEqual(said['results'], right)
        self.assertEqual(said['after a death'], right)
        self.assertEqual((said['died'], len(said['workers'])), (True, 2))
        # Dask reports on standard error what it tries again on a busy machine, so the standard error of this check is not compared.
        self.assertEqual(said['check'][:2], [0, f'no findings in {FILES} files with {FILES * OBJECTS} objects\n'], said['check'][2])
        self.assertEqual(said['no scheduler'][:2], [2, ''])
        self.assertIn('error: --executor dask://127.0.0.1:1: ', said['no scheduler'][2])
