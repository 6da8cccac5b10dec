"""Callables of views that raise errors."""

from support import LibraryTest

from mmrepo import CallableFailed, Refused, RepositoryClosed


class Callables(LibraryTest):
    """Callables of views that raise errors."""

    def setUp(self):
        super().setUp()
        self.book, = self.made('Book')

    def test_error(self):
        """The other views are notified, then CallableFailed is raised, and the change stays."""
        def wrong(notice):
            raise KeyError('x')

        heard = []
        self.repo.attach(wrong, self.book)
        self.repo.attach(heard.append, self.book)
        with self.assertRaises(CallableFailed) as found:
            self.book.pages = 1
        error = found.exception
        self.assertIs(error.callable, wrong)
        self.assertEqual((error.notice.feature, error.notice.new), ('pages', 1))
        self.assertIsInstance(error.__cause__, KeyError)
        self.assertIn("KeyError('x')", str(error))
        self.assertEqual([notice.new for notice in heard], [1])
        with self.assertRaises(CallableFailed):
            self.book.pages = 2
        self.assertEqual((self.book.pages, len(heard)), (2, 2))

    def test_refused_in_a_callable(self):
        def wrong(notice):
            self.book.pages = 'many'

        self.repo.attach(wrong, self.book)
        with self.assertRaises(CallableFailed) as found:
            self.book.pages = 1
        self.assertIsInstance(found.exception.__cause__, Refused)

    def test_refused_and_caught_in_a_callable(self):
        def right(notice):
            with self.refused(8, 'TYPE'):
                self.book.pages = 'many'

        self.repo.attach(right, self.book)
        self.book.pages = 1
        self.assertEqual(self.book.pages, 1)

    def test_interrupted(self):
        def stopped(notice):
            raise KeyboardInterrupt

        self.repo.attach(stopped, self.book)
        with self.assertRaises(KeyboardInterrupt):
            self.book.pages = 1
        self.assertEqual(self.book.pages, 1)

    def test_closes_in_a_callable(self):
        heard = []
        self.repo.attach(lambda notice: self.repo.close(), self.book)
        self.repo.attach(heard.append, self.book)
        self.book.pages = 1
        self.assertEqual(len(heard), 1)
        with self.assertRaises(RepositoryClosed):
            self.book.pages = 2
