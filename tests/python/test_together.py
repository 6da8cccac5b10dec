"""Lines that are sent together."""

from support import LIBRARY, LibraryTest

from mmrepo import ProgramEnded, Repository, RepositoryClosed


class Together(LibraryTest):
    """`raw_all` of a session."""

    def setUp(self):
        super().setUp()
        self.session = self.repo._session

    def test_answers(self):
        """More lines, and longer answers, than a pipe holds are exchanged without a deadlock."""
        lines = ['new Book', 'set #0 name "' + 'x' * 60_000 + '"', '', 'nonsense', 'new Nothing']
        lines += ['get #0 name'] * 200 + [f'set #0 pages {page}' for page in range(20_000)] + ['get #0 pages']
        answers = self.session.raw_all(lines)
        self.assertEqual(answers[:5], [['#0'], ['ok'], [], ['bad line'], ['refused 3 NO_CLASS']])
        self.assertEqual(answers[5:205], [['"' + 'x' * 60_000 + '"']] * 200)
        self.assertEqual(answers[205:], [['ok']] * 20_000 + [['19999']])
        self.assertEqual(self.session.raw_all([]), [])

    def test_resources(self):
        """The repository has the resources that lines have made, and knows them in later answers."""
        lines = ['resource "http://M.example/a b"', '  resource   "http:\\/\\/m.example/\\u0062"  ', 'resource "http://m.example/b"', 'resource r7']
        answers = self.session.raw_all([*lines, 'new Book', 'add r1 contents #0', 'within #0'])
        self.assertEqual(answers, [['r0'], ['r1'], ['refused 16 RESOURCE_EXISTS'], ['bad line'], ['#0'], ['true'], ['r1']])
        self.assertEqual([it.uri for it in self.repo.resources], ['http://m.example/a%20b', 'http://m.example/b'])
        self.assertIs(self.repo.object(0).eResource, self.repo.resources[1])
        self.assertEqual(self.repo.resource('http://m.example/c'), self.repo.resources[2])

    def test_nothing_is_sent(self):
        """If one line is too long or has a newline, no line is sent."""
        for wrong in ('new Book\n', 'x' * 16_777_217):
            with self.assertRaises(ValueError):
                self.session.raw_all(['new Book', wrong])
        self.assertEqual(self.session.raw('new Book'), ['#0'])

    def test_dies(self):
        """If the program ends in the middle, ProgramEnded is raised, and the repository is closed."""
        repo = Repository(LIBRARY, self.fake('for line in list(zip(range(3), lines())): say("ok\\n\\n")'))
        with self.assertRaises(ProgramEnded):
            repo._session.raw_all(['set #0 pages 1'] * 5)
        with self.assertRaises(RepositoryClosed):
            repo._session.raw_all(['set #0 pages 1'])
