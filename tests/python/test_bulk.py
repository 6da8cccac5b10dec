"""Batches: commands that are collected and sent together."""

import time

from support import LibraryTest

from mmrepo import CallableFailed, Refused

MANY = 100_000
SECONDS = 10  # a bound for MANY objects on a busy machine; bench/python_client measures the time


class Batches(LibraryTest):
    """`batch` of a repository."""

    def test_answers(self):
        """`send` returns the answers in the order of the commands, and an empty batch sends nothing."""
        library, = self.made('Library')
        batch = self.repo.batch()
        first = batch.create('Book', name='Emma', pages=3, tags=['a', 'b'], genre='POEM')
        second = batch.create('Book', next=first)
        batch.append(library.books, second)
        batch.append(library.books, second)
        batch.set(first, 'pages', 4)
        batch.set(first, library.eClass.findEStructuralFeature('name'), 'Persuasion')
        batch.unset(first, 'tags')
        batch.delete(second)
        self.assertEqual(batch.send(), [first, second, True, False, None, None, None, 1])
        self.assertEqual((first.name, first.pages, list(first.tags), first.genre), ('Persuasion', 4, [], 'POEM'))
        self.assertEqual(batch.answers, [first, second, True, False, None, None, None, 1])
        self.assertEqual(list(library.books), [])
        self.assertIs(self.repo._session.named(first._word), first)
        self.assertEqual(batch.send(), [])

    def test_collected_while_sent(self):
        """Commands that a callable collects while the batch is sent are sent by the next `send`, or at the end of the `with`."""
        book, = self.made('Book')
        batch = self.repo.batch()

        def again(notice):
            if book.pages < 9:
                batch.set(book, 'pages', book.pages + 1)

        self.repo.attach(again, book)
        batch.set(book, 'pages', 7)
        self.assertEqual((batch.send(), book.pages), ([None], 7))
        self.assertEqual((batch.send(), book.pages), ([None], 8))
        with batch:
            pass
        self.assertEqual((batch.send(), book.pages), ([], 9))

    def test_with(self):
        """A `with` block sends its batch at its end, and sends nothing if it raises an error."""
        with self.repo.batch() as batch:
            books = [batch.create('Book', pages=page) for page in range(10)]
        self.assertEqual([book.pages for book in books], list(range(10)))
        with self.assertRaises(ZeroDivisionError):
            with self.repo.batch() as batch:
                batch.set(books[0], 'pages', 7)
                1 / 0
        self.assertEqual(books[0].pages, 0)

    def test_refused(self):
        """A refused command raises its error after the batch has run, and the other commands are done all the same."""
        book, = self.made('Book')
        with self.assertRaises(Refused) as found:
            with self.repo.batch() as batch:
                batch.set(book, 'pages', 'many')
                batch.set(book, 'pages', 7)
                batch.set(book, 'nothing', 7)
        self.assertEqual((found.exception.name, found.exception.command), ('TYPE', 'set #0 pages "many"'))
        self.assertEqual([getattr(it, 'name', it) for it in batch.answers], ['TYPE', None, 'NO_FEATURE'])
        self.assertEqual(book.pages, 7)

    def test_a_callable_fails(self):
        """If a callable raises an error, all commands are done, and `answers` has their results."""
        book, = self.made('Book')
        for error, raised in ((KeyError, CallableFailed), (KeyboardInterrupt, KeyboardInterrupt)):
            def fails(notice):
                seen.append(list(batch.answers))
                raise error

            seen = []
            view = self.repo.attach(fails, book)
            with self.subTest(error), self.assertRaises(raised):
                with self.repo.batch() as batch:
                    made = batch.create('Book')
                    batch.set(book, 'pages', 7)
                    batch.set(book, 'pages', 'many')
                    batch.append(book.tags, error.__name__)
            refused = batch.answers[2]
            self.assertEqual((batch.answers, refused.name), ([made, None, refused, True], 'TYPE'))
            self.assertEqual(seen, [batch.answers] * 2)
            with self.assertRaises(raised):
                view.detach()
        self.assertEqual((book.pages, list(book.tags)), (7, ['KeyError', 'KeyboardInterrupt']))

    def test_nothing_is_sent(self):
        """A wrong argument raises an error at once."""
        other = self.opened().create('Book')
        batch = self.repo.batch()
        for wrong in ('Nothing', 'Named'):
            with self.assertRaises(ValueError):
                batch.create(wrong)
        with self.assertRaises(ValueError):
            batch.create('Book', next=other)
        with self.assertRaises(TypeError):
            batch.create('Book', name=3.5)

    def test_views(self):
        """Views get the notifications of a batch in the order of its commands."""
        library, = self.made('Library')
        heard = []
        self.repo.attach(heard.append, library)
        with self.repo.batch() as batch:
            for page in range(3):
                book = batch.create('Book', library=library)
                batch.set(book, 'pages', page)
        self.assertEqual([(it.kind.name, it.notifier is library) for it in heard], [('ADD', True), ('SET', False)] * 3)

    def test_many(self):
        """A batch makes MANY objects in at most SECONDS."""
        began = time.perf_counter()
        with self.repo.batch() as batch:
            books = [batch.create('Book', name='A book', pages=page) for page in range(MANY)]
        self.assertLess(time.perf_counter() - began, SECONDS)
        self.assertEqual((books[-1]._word, books[-1].name, books[-1].pages), (f'#{MANY - 1}', 'A book', MANY - 1))

    def test_extend(self):
        """`extend` sends its values as a batch: a refused value leaves the others in the list."""
        library, = self.made('Library')
        books = self.made(*['Book'] * 2_000)
        library.books.extend(books)
        self.assertEqual(list(library.books), books)
        with self.refused(8, 'TYPE'):
            books[0].tags.extend(['a', 3, 'b'])
        self.assertEqual(list(books[0].tags), ['a', 'b'])

    def test_create_with_features(self):
        """`create` with features destroys the new object again if a feature is refused."""
        library = self.repo.create('Library', name='Town')
        book = self.repo.create('Book', name='Emma', library=library, tags=['a', 'b'])
        self.assertEqual((book.name, list(book.tags), list(library.books)), ('Emma', ['a', 'b'], [book]))
        with self.refused(8, 'TYPE'):
            self.repo.create('Book', name='Emma', pages='many')
        with self.refused(1, 'NO_OBJECT'):
            self.repo._session.value('get #2 name')

    def test_create_keeps_what_it_was_given(self):
        """If a feature of `create` is refused, objects that were put into the new object are not destroyed. They are in no container."""
        library, book, person = self.made('Library', 'Book', 'Person')
        library.books.append(book)
        with self.refused(8, 'TYPE'):
            self.repo.create('Library', books=[book], members=[person], name=3)
        self.assertEqual(self.repo.objects(), [library, book, person])
        self.assertEqual((book.eContainer(), person.eContainer(), list(library.books)), (None, None, []))

    def test_create_leaves_links_cut(self):
        """If a feature of `create` is refused, links that earlier features displaced stay cut, and the number is not given again."""
        first, second = self.made('Book', 'Book')
        first.next = second
        with self.refused(5, 'NO_FEATURE'):
            self.repo.create('Book', prev=first, title='Emma', next=second)
        self.assertEqual((first.next, second.prev), (None, None))
        self.assertEqual(self.repo.create('Book').number, 3)

    def test_create_and_a_callable(self):
        """If a callable fails on a feature of `create` and on what follows, the object is deleted, and the first error is raised."""
        library, book = self.made('Library', 'Book')

        def fails(notice):
            raise ValueError(notice.kind.name)

        self.repo.attach(fails, book)
        self.repo.attach(fails, library)
        with self.assertRaises(CallableFailed) as found:
            self.repo.create('Library', books=[book])
        self.assertEqual(str(found.exception.__cause__), 'SET')
        self.assertEqual(self.repo.objects(), [library, book])
