"""Faults of a metamodel and of the program. If the program dies or breaks the protocol, its process is ended."""

import os
import pickle
import signal
from unittest import mock

from support import LIBRARY, PROGRAM, ClientTest

from mmrepo import (
    BadLine,
    Finding,
    MetamodelRefused,
    MmrepoError,
    NotLoaded,
    NotStarted,
    ProgramEnded,
    Refused,
    ReplyCut,
    ReplyNotUnderstood,
    Repository,
    RepositoryClosed,
)

# First lines of an answer that no command has.
NONSENSE = ['', 'nonsense', '#', '#01', '#x', 'r0', 'A9', 'null', '[#0]', 'refused', 'refused x', '#0 #1', ' #0', '#0 ', '"', '#0\\ntold']

# Further lines of an answer, which are wrong if no view is attached.
BEHIND = [
    'nonsense',
    'told A9 SET #0.pages 100 1 -1',
    'told A9',
    'released A9 told 1 kept 0',
    'released',
    '#1',
]

# Lines that are no notification of a view that is attached as A9.
NOTICES = [
    'told A10 SET #0.pages 100 1 -1',
    'told A9 SOMETHING #0.pages 100 1 -1',
    'told A9 SET 0.pages 100 1 -1',
    'told A9 SET #0.pages 100 1',
    'told A9 SET #0.pages 100 1 -2',
    'told A9 SET #0.pages 100 -1',
    'told A9 SET #0.pages "100 1 -1',
    'told A9 SET #0.pages 0100 1 -1',
    'told A9 SET #0.pages 100 1 -1 ',
    'told A9 SET #0.pages 100  1 -1',
    'told A9 SET #00.pages 100 1 -1',
    'released A10 told 1 kept 0',
    'released A9 told 1',
]


class Starting(ClientTest):
    """Faults before the first command."""

    def test_no_program(self):
        with self.assertRaises(NotStarted):
            Repository(LIBRARY, self.room.name + '/none')
        with self.assertRaises(NotStarted):
            Repository(LIBRARY, self.file('no_program', 'not executable'))
        broken = self.file('broken', b'\x00\x01')
        broken.chmod(0o755)
        with self.assertRaises(NotStarted):
            Repository(LIBRARY, broken)

    def test_where_the_program_is(self):
        """The program is found by MMREPO, and then on the PATH."""
        folder = os.path.dirname(self.fake('for line in lines(): say("#0\\n\\n")'))
        os.rename(f'{folder}/fake', f'{folder}/mmrepo')
        with mock.patch.dict(os.environ, {'PATH': folder, 'MMREPO': ''}):
            with Repository(LIBRARY) as repo:
                self.assertEqual(repr(repo.create('Book')), '<Book #0>')
        with mock.patch.dict(os.environ, {'PATH': '/none', 'MMREPO': f'{folder}/mmrepo'}):
            with Repository(LIBRARY) as repo:
                self.assertEqual(repr(repo.create('Book')), '<Book #0>')
        with mock.patch.dict(os.environ, {'PATH': '/none', 'MMREPO': ''}), self.assertRaises(NotStarted):
            Repository(LIBRARY)

    def test_no_metamodel(self):
        with self.assertRaises(FileNotFoundError):
            Repository(self.room.name + '/none', PROGRAM)
        with self.assertRaises(IsADirectoryError):
            Repository(self.room.name, PROGRAM)

    def test_metamodel_refused(self):
        cases = [
            ('{"classes":[{"name":"A","supers":["B"]},{"name":"B","supers":["A"]}]}', '7 CYCLE class 0'),
            ('{"classes":[],}', '1 SYNTAX'),
            ('{"classes":{}}', '2 LAYOUT'),
            (b'\xff', '1 SYNTAX'),
            ('', '1 SYNTAX'),
        ]
        for document, fault in cases:
            with self.subTest(document), self.assertRaises(MetamodelRefused) as found:
                Repository(self.file('-meta.json', document), PROGRAM)
            self.assertEqual(found.exception.fault, fault)
            self.assertIn(f'-meta.json: metamodel refused: {fault}', str(found.exception))

    def test_metamodel_explained(self):
        with self.assertRaises(MetamodelRefused) as found:
            Repository(self.file('-meta.json', '{"classes":[{"nam":"A"},{"name":"B","x":1}]}'), PROGRAM)
        self.assertEqual(found.exception.fault, '2 LAYOUT')
        self.assertEqual(found.exception.explained, (
            'classes[0]: the key "name" is absent', 'classes[0]: unknown key "nam"; is "name" meant?', 'classes[1] (class B): unknown key "x"'
        ))
        self.assertTrue(str(found.exception).endswith('2 LAYOUT\n' + '\n'.join(found.exception.explained)))

    def test_smallest_metamodel(self):
        with Repository(self.file('-meta.json', '{"classes":[]}'), PROGRAM) as repo:
            self.assertEqual(repo.metamodel.classes, {})
            with self.refused(3, 'NO_CLASS'):
                repo.create('Book')

    def test_repeated_keys(self):
        """Of a repeated key the last value counts, for the client as for the program."""
        document = '{"classes":[],"classes":[{"name":"X","name":"A"}]}'
        with Repository(self.file('meta.json', document), PROGRAM) as repo:
            self.assertEqual(repo.create('A').eClass.name, 'A')

    def test_ends_at_once(self):
        for status in (0, 2, 3):
            program = self.fake(f'sys.stderr.write("run stopped: READ\\n"); sys.exit({status})', 'import sys')
            with self.subTest(status), self.assertRaises(ProgramEnded) as found:
                Repository(LIBRARY, program)
            self.assertEqual((found.exception.status, found.exception.said), (status, 'run stopped: READ'))

    def test_speaks_first(self):
        """A program that prints before it is asked is refused."""
        with self.assertRaises(ReplyNotUnderstood):
            Repository(LIBRARY, self.fake('import time\nprint("hello\\n", flush=True)\ntime.sleep(60)', ''))


class Dying(ClientTest):
    """Programs that die, hang or print what is no answer."""

    def begun(self, body):
        """A repository over a fake program with a body."""
        return Repository(LIBRARY, self.fake(body))

    def assert_ended(self, repo, kind, call):
        """Checks that a call raises an error of a kind, and that the process is ended; returns the error."""
        with self.assertRaises(kind) as found:
            call()
        self.assertIs(type(found.exception), kind)
        self.assertIsInstance(found.exception, MmrepoError)
        self.assertIsNotNone(repo._session.engine._process.returncode)
        with self.assertRaises(RepositoryClosed):
            repo.create('Book')
        repo.close()
        return found.exception

    def test_object_of_a_batch_refused(self):
        """If an object of a batch is refused memory, the other objects have their own numbers, and no other command is sent."""
        repo = self.begun("for line, said in zip(lines(), ('#0', 'refused 28 MEMORY', '#1', '#2')): say(said + '\\n\\n')")
        batch = repo.batch()
        made = [batch.create(name) for name in ('Book', 'Person', 'Library')]
        batch.set(made[0], 'pages', 3)
        with self.assertRaises(Refused) as found:
            batch.send()
        self.assertEqual((found.exception.name, found.exception.command), ('MEMORY', 'new Person'))
        self.assertEqual(batch.answers, [])
        self.assertEqual([repr(made[0]), repr(made[2])], ['<Book #0>', '<Library #1>'])
        self.assertEqual(repr(repo.create('Folder')), '<Folder #2>')
        repo.close()

    def test_dies(self):
        repo = self.begun('next(lines())\nsys.stderr.write("run stopped: MEMORY\\n")\nsys.exit(3)')
        error = self.assert_ended(repo, ProgramEnded, lambda: repo.create('Book'))
        self.assertEqual((error.status, error.said), (3, 'run stopped: MEMORY'))
        self.assertIn('new Book', str(error))

    def test_dies_at_a_value(self):
        """If the program dies at a value of `create`, the error says so."""
        repo = self.begun('next(lines())\nsay("#0\\n\\n")\nnext(lines())\nsys.exit(3)')
        error = self.assert_ended(repo, ProgramEnded, lambda: repo.create('Book', pages=3))
        self.assertIn('set #0 pages 3', str(error))

    def test_has_died(self):
        repo = self.begun('sys.exit(0)')
        repo._session.engine._process.wait()
        self.assert_ended(repo, ProgramEnded, lambda: repo.create('Book'))

    def test_killed(self):
        with Repository(LIBRARY, PROGRAM) as repo:
            repo.create('Book')
            os.kill(repo._session.engine._process.pid, signal.SIGKILL)
            error = self.assert_ended(repo, ProgramEnded, lambda: repo.create('Book'))
        self.assertEqual(error.status, -signal.SIGKILL)

    def test_cut(self):
        """A program that ends within an answer."""
        for part in ('#', '#0', '#0\\n', '#0\\ntold A9 SET', '#0\\ntold A9 SET #0.pages 100 1 -1\\n'):
            with self.subTest(part):
                repo = self.begun(f'next(lines())\nsay("{part}")\nsys.exit(3)')
                error = self.assert_ended(repo, ReplyCut, lambda: repo.create('Book'))
                self.assertEqual(error.status, 3)

    def test_closes_its_output(self):
        """A program that closes its output and hangs is killed."""
        with mock.patch('mmrepo.process.SECONDS_TO_END', 0.1):
            repo = self.begun('import time\nnext(lines())\nos.close(1)\ntime.sleep(60)')
            error = self.assert_ended(repo, ProgramEnded, lambda: repo.create('Book'))
        self.assertIsNone(error.status)

    def test_ends_badly(self):
        """A status other than 0 after the last command is an error of `close`."""
        repo = self.begun('list(lines())\nsys.stderr.write("run stopped: WRITE\\n")\nsys.exit(3)')
        with self.assertRaises(ProgramEnded) as found:
            repo.close()
        self.assertEqual((found.exception.status, found.exception.said), (3, 'run stopped: WRITE'))
        repo.close()

    def test_does_not_end(self):
        """A program that does not end when its input ends is killed."""
        repo = self.begun('import time\nlist(lines())\ntime.sleep(60)')
        with mock.patch('mmrepo.process.SECONDS_TO_END', 0.1), self.assertRaises(ProgramEnded):
            repo.close()
        self.assertEqual(repo._session.engine._process.returncode, -signal.SIGKILL)

    def test_long_standard_error(self):
        repo = self.begun('sys.stderr.write("x" * 1000000)\nsys.stderr.flush()\nfor line in lines(): say("#0\\n\\n")')
        self.assertEqual(repr(repo.create('Book')), '<Book #0>')
        repo.close()

    def test_nonsense(self):
        for answer in NONSENSE:
            with self.subTest(answer):
                repo = self.begun(f"for line in lines(): say('{answer}\\n\\n')")
                self.assert_ended(repo, ReplyNotUnderstood, lambda: repo.create('Book'))

    def test_no_text(self):
        """An answer that is not UTF-8."""
        repo = self.begun('os.write(1, b"#0\\xff\\n\\n")\nnext(lines())')
        self.assert_ended(repo, ReplyNotUnderstood, lambda: repo.create('Book'))

    def test_nonsense_behind(self):
        """A line after an answer that is no notification and no released adapter."""
        for line in BEHIND:
            with self.subTest(line):
                repo = self.begun(f"for line in lines(): say('#0\\n{line}\\n\\n')")
                self.assert_ended(repo, ReplyNotUnderstood, lambda: repo.create('Book'))

    def test_nonsense_for_each_kind_of_answer(self):
        calls = {
            'flag': lambda repo, book: book.tags.append('a'),
            'ok': lambda repo, book: book.eSet('name', 'a'),
            'value': lambda repo, book: book.name,
            'values': lambda repo, book: list(book.tags),
            'text': lambda repo, book: book.fragment(),
            'names': lambda repo, book: book.validate(),
            'counts': lambda repo, book: book.delete(),
            'container': lambda repo, book: book.eContainer(),
            'within': lambda repo, book: book.eResource,
            'resource': lambda repo, book: repo.resource('http://m.example/a'),
            'two counts': lambda repo, book: repo.resolve_all(),
        }
        for name, call in calls.items():
            for answer in ('nonsense', '[', '[1', '1]', '[1  2]', '[1 2] ', 'deleted', 'deleted x', '[é]', '-0', ':1', 'proxy', '"a" "b"'):
                with self.subTest(name, answer=answer):
                    repo = self.begun(f"""say('#0\\n\\n'); next(lines())\nfor line in lines(): say('{answer}\\n\\n')""")
                    book = repo.create('Book')
                    self.assert_ended(repo, ReplyNotUnderstood, lambda: call(repo, book))

    def test_nonsense_for_a_class(self):
        for answer in ('Book', 'class', 'class Film', 'class Book '):
            with self.subTest(answer):
                repo = self.begun(f"next(lines()); say('#0\\n\\n')\nfor line in lines(): say('{answer}\\n\\n')")
                found = repo.at('http://m.example/a#/')
                self.assert_ended(repo, ReplyNotUnderstood, lambda: found.eClass)

    def test_nonsense_for_a_document(self):
        repo = self.begun("next(lines()); say('r0\\n\\n')\nfor line in lines(): say('[]\\n\\n')")
        resource = repo.resource('http://m.example/a')
        self.assert_ended(repo, ReplyNotUnderstood, resource.save)

    def test_nonsense_as_notices(self):
        for line in NOTICES:
            with self.subTest(line):
                body = f"for answer in ('#0', 'ok', 'ok\\\\n{line}'): next(lines()); say(answer + '\\n\\n')"
                repo = self.begun(body.replace('\\\\n', '\\n'))
                book = repo.create('Book')
                repo.attach(print, book)
                self.assert_ended(repo, ReplyNotUnderstood, lambda: book.eSet('pages', 1))

    def test_an_older_program(self):
        """A command that the program does not know is a BadLine, and the repository goes on."""
        with Repository(LIBRARY, self.fake("for line in lines(): say('bad line\\n\\n')")) as repo:
            with self.assertRaises(BadLine) as found:
                repo.resolve_all()
            self.assertEqual(found.exception.command, 'resolveall')
            with self.assertRaises(BadLine):
                repo.create('Book')


class Errors(ClientTest):
    """The errors as values: their texts, and pickling."""

    def test_texts(self):
        self.assertEqual(str(Refused('set #0 pages "x"', 8, 'TYPE')), 'refused 8 TYPE: set #0 pages "x"')
        cut = str(Refused('load r0 ' + 'x' * 1000, 18, 'DOCUMENT', (1, 'SYNTAX')))
        self.assertEqual(cut, f'refused 18 DOCUMENT 1 SYNTAX: load r0 {"x" * 192} ..')

    def test_pickled(self):
        errors = [Refused('new X', 3, 'NO_CLASS'), ProgramEnded('why', 3, 'said'), MetamodelRefused('a', '1 SYNTAX'), BadLine('x')]
        for error in (*errors, NotLoaded([Finding('a.json', 'FILE', '', 'why')], 'a.json')):
            again = pickle.loads(pickle.dumps(error))
            self.assertEqual((type(again), str(again), vars(again)), (type(error), str(error), vars(error)))
