"""A repository with a journal: the next repository with the same journal has the same model."""

import os
import signal
import tempfile
from pathlib import Path

from support import LIBRARY, PROGRAM, ClientTest

from mmrepo import JournalRefused, ProgramError, Refused, Repository

# Boxes, each of which may have a lid and parts.
BOXES = """
{"classes": [
  {"name": "Box", "features": [
    {"name": "name", "kind": "attribute", "type": "EString"},
    {"name": "lid", "kind": "reference", "type": "Box", "containment": true},
    {"name": "parts", "kind": "reference", "type": "Box", "upper": -1, "containment": true},
    {"name": "near", "kind": "reference", "type": "Box", "upper": -1}
  ]}
]}
"""
EMPTY = '{"class":"Box","features":{}}'
TEXTS = r'{"class":"Box","features":{"name":"{\"\\","near":["/1","/0/@lid"]}}'
NESTED = '{"class":"Box","features":{"lid":%s,"parts":[%s,{"features":{"parts":[%s]},"class":"Box"}]}}' % (TEXTS, EMPTY, EMPTY)
DOCUMENT = '{"format":2,\t"roots":[%s,%s]} ' % (NESTED, EMPTY)  # of six objects
# The last value of a repeated key counts, so these are two objects.
EMPTIED = '{"class":"Box","features":{"parts":[%s],"parts":[]}}' % EMPTY
REPEATED = '{"roots":[%s],"format":[{}],"format":2,"roots":[%s,%s]}' % (NESTED, EMPTY, EMPTIED)


class JournalTest(ClientTest):
    """Repositories that are opened one after another with the same journal."""

    def setUp(self):
        super().setUp()
        room = tempfile.TemporaryDirectory()
        self.addCleanup(room.cleanup)
        self.journal = Path(room.name) / 'journal'

    def begun(self, metamodel=LIBRARY):
        """Opens a repository with the journal."""
        return Repository(metamodel, PROGRAM, journal=self.journal)

    def test_objects_come_back(self):
        """Objects are found by number and by address, and resources in order."""
        with self.begun() as repo:
            first, second = repo.resource('http://m.example/a b'), repo.resource('http://m.example/b')
            book = repo.create('Book')
            book.name = 'Emma "Woodhouse"'
            second.contents.append(book)
            library = repo.create('Library')
            repo.create('Person').delete()
            number, address = library.number, f'{second.uri}#{book.fragment()}'
            uris = [first.uri, second.uri]
        with self.begun() as repo:
            self.assertEqual([resource.uri for resource in repo.resources], uris)
            self.assertEqual(repo.object(number).eClass.name, 'Library')
            self.assertIs(repo.at(address), repo.object(0))
            self.assertEqual(repo.at(address).name, 'Emma "Woodhouse"')
            self.assertIs(repo.object(0).eResource, repo.resources[1])
            with self.assertRaises(Refused) as caught:
                repo.object(2)
            self.assertEqual(caught.exception.name, 'NO_OBJECT')
            self.assertEqual(repo.create('Book').number, 3)
            self.assertEqual(repo.resource('http://m.example/c')._word, 'r2')

    def test_all_objects_come_back(self):
        """`objects` has all live objects, whatever made them, and the objects that are made later too."""
        boxes = self.file('boxes.json', BOXES)
        with self.begun(boxes) as repo:
            resources = [repo.resource(f'http://m.example/{name}') for name in 'abc']
            self.assertEqual(resources[0].load(DOCUMENT), 6)
            with repo.batch() as batch:
                made = [batch.create('Box') for _ in range(3)]
            self.assertEqual(resources[1].load(REPEATED), 2)
            repo._session.raw_all(['  new   Box  ', 'new Nothing', 'bad', '  load   r9  {}'])
            for it in (repo.object(1), made[0], repo.create('Box')):
                it.delete()
            live = [0, 2, 3, 4, 5, 7, 8, 9, 10, 11]
            self.assertEqual([it.number for it in repo.objects()], live)
        with self.begun(boxes) as repo:
            self.assertEqual([it.number for it in repo.objects()], live)
            self.assertEqual(repo.resources[2].load(DOCUMENT), 6)
            self.assertEqual([it.number for it in repo.objects('Box')], [*live, *range(13, 19)])
            self.assertEqual(repo.create('Box').number, 19)
            for it in [it for it in repo.objects() if it.eContainer() is None]:
                it.delete()
        with self.begun(boxes) as repo:
            self.assertEqual(repo.objects(), [])
            self.assertEqual(repo.create('Box').number, 20)
            self.assertEqual([it.number for it in repo.objects()], [20])

    def test_a_killed_program_loses_nothing(self):
        """What was answered before the program is killed is in the next repository."""
        repo = self.begun()
        book = repo.create('Book')
        book.pages = 7
        os.kill(repo._session.engine._process.pid, signal.SIGKILL)
        with self.assertRaises(ProgramError):
            book.pages = 8
        with self.begun() as repo:
            self.assertEqual(repo.object(0).pages, 7)

    def test_a_journal_that_is_not_taken(self):
        """A journal that is in use, and a file that is no journal, raise JournalRefused with a fault of their own."""
        with self.begun():
            with self.assertRaises(JournalRefused) as caught:
                self.begun()
        self.assertEqual((caught.exception.fault, caught.exception.file), ('IN_USE', str(self.journal)))
        self.assertEqual(list(caught.exception.explained), [f'{self.journal}: another process has it open'])
        self.journal.write_text('A text.\n')
        with self.assertRaises(JournalRefused) as caught:
            self.begun()
        self.assertEqual(caught.exception.fault, 'NO_JOURNAL')
        self.assertEqual(self.journal.read_text(), 'A text.\n')
