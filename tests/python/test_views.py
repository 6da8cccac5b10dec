"""Views: callables that get notifications."""

from support import LIBRARY, ClientTest, LibraryTest

from mmrepo import Kind, Notice, Proxy, Repository

VIEWS = 992  # A9 to A1000


class Heard(LibraryTest):
    """Which notifications a view gets."""

    def setUp(self):
        super().setUp()
        self.library, self.book = self.made('Library', 'Book')
        self.heard = []

    def view(self, node, deep=True):
        """Attaches a view that keeps its notifications."""
        return self.repo.attach(self.heard.append, node, deep)

    def test_set(self):
        """A set and an unset notify of the old and the new value, even if they are equal."""
        self.view(self.book)
        self.book.pages = 474
        self.book.pages = 474
        del self.book.pages
        self.assertEqual(
            self.heard,
            [
                (Kind.SET, self.book, 'pages', 100, 474, -1),
                (Kind.SET, self.book, 'pages', 474, 474, -1),
                (Kind.UNSET, self.book, 'pages', 474, 100, -1),
            ],
        )
        first = self.heard[0]
        self.assertIsInstance(first, Notice)
        self.assertEqual((first.kind, first.old, first.new, first.position), (1, 100, 474, -1))
        self.assertIs(first.notifier, self.book)

    def test_list(self):
        """Changes of a list notify of the value and its position."""
        self.view(self.book)
        tags = self.book.tags
        tags.extend(['a', 'b c', '"'])
        tags.append('a')
        tags.move(0, 2)
        tags.remove('a')
        tags.clear()
        told = [(notice.kind.name, notice.old, notice.new, notice.position) for notice in self.heard]
        self.assertEqual(
            told,
            [
                ('ADD', None, 'a', 0),
                ('ADD', None, 'b c', 1),
                ('ADD', None, '"', 2),
                ('MOVE', 2, '"', 0),
                ('REMOVE', 'a', None, 1),
                ('REMOVE', 'b c', None, 1),
                ('REMOVE', '"', None, 0),
            ],
        )

    def test_literal(self):
        """Literals in notifications."""
        self.view(self.book)
        self.book.genre = 'PLAY'
        self.assertEqual((self.heard[0].old, self.heard[0].new), ('NOVEL', 'PLAY'))

    def test_deep(self):
        """A deep view is notified of objects as long as they are below its target."""
        self.view(self.library)
        self.library.books.append(self.book)
        self.book.name = 'Emma'
        self.library.books.pop()
        self.book.name = 'Persuasion'
        self.assertEqual(
            self.heard,
            [
                (Kind.ADD, self.library, 'books', None, self.book, 0),
                (Kind.SET, self.book, 'name', None, 'Emma', -1),
                (Kind.SET, self.book, 'library', self.library, None, -1),
                (Kind.REMOVE, self.library, 'books', self.book, None, 0),
            ],
        )

    def test_flat(self):
        """A flat view is notified of its target alone."""
        self.view(self.library, deep=False)
        self.library.books.append(self.book)
        self.book.name = 'Emma'
        self.library.name = 'Town'
        self.assertEqual([notice.feature for notice in self.heard], ['books', 'name'])

    def test_resource(self):
        """A view of a resource is notified of its roots."""
        town = self.repo.resource('http://m.example/a')
        self.view(town)
        town.append(self.library)
        self.library.name = 'Town'
        self.assertEqual(
            self.heard,
            [(Kind.ADD, town, 'contents', None, self.library, 0), (Kind.SET, self.library, 'name', None, 'Town', -1)],
        )
        self.assertIs(self.heard[0].notifier, town)

    def test_loaded(self):
        """A load notifies of each root."""
        town = self.repo.resource('http://m.example/a')
        self.view(town)
        town.load('{"format":2,"roots":[{"class":"Book","features":{}},{"class":"Folder","features":{}}]}')
        book, folder = town.contents
        self.assertEqual(
            self.heard, [(Kind.ADD, town, 'contents', None, book, 0), (Kind.ADD, town, 'contents', None, folder, 1)]
        )

    def test_refused_is_not_heard(self):
        """A refused command notifies no view."""
        self.view(self.book)
        with self.refused(8, 'TYPE'):
            self.book.pages = 'many'
        self.assertEqual(self.heard, [])

    def test_several(self):
        """Views are notified in attach order."""
        order = []
        self.repo.attach(lambda notice: order.append(1), self.book)
        self.repo.attach(lambda notice: order.append(2), self.book)
        self.book.pages = 1
        self.assertEqual(order, [1, 2])

    def test_hears_what_has_changed(self):
        """A view is notified after the change."""
        self.repo.attach(lambda notice: self.heard.append(self.book.pages), self.book)
        self.book.pages = 7
        self.assertEqual(self.heard, [7])

    def test_commands_of_a_callable(self):
        """The notifications of a command that a callable gives come after those of the command before it, at each view."""
        order = []

        def first(notice):
            order.append(('first', notice.new))
            if notice.new < 3:
                self.book.pages = notice.new + 1

        self.repo.attach(first, self.book)
        self.repo.attach(lambda notice: order.append(('second', notice.new)), self.book)
        self.book.pages = 1
        self.assertEqual(
            order, [('first', 1), ('second', 1), ('first', 2), ('second', 2), ('first', 3), ('second', 3)]
        )
        self.assertEqual(self.book.pages, 3)

    def test_no_target(self):
        """What is no node, or no callable, is an error."""
        for wrong in (None, '#0', self.library.books):
            with self.assertRaises(TypeError):
                self.repo.attach(print, wrong)
        with self.assertRaises(TypeError):
            self.repo.attach('print', self.book)
        with self.assertRaises(ValueError):
            self.repo.attach(print, self.opened().create('Book'))
        self.book.delete()
        with self.refused(1, 'NO_OBJECT'):
            self.view(self.book)


class Ended(LibraryTest):
    """Views that are detached, and views whose target is deleted."""

    def setUp(self):
        super().setUp()
        self.book, = self.made('Book')
        self.heard = []

    def test_detach(self):
        """A detached view gets a last notification, REMOVING_ADAPTER, and no further one."""
        view = self.repo.attach(self.heard.append, self.book)
        self.assertTrue(view.is_attached)
        self.assertIs(view.detach(), True)
        self.assertFalse(view.is_attached)
        self.book.pages = 1
        self.assertEqual(self.heard, [(Kind.REMOVING_ADAPTER, self.book, None, view, None, 0)])
        self.assertIs(view.detach(), False)

    def test_index_of_the_last_notice(self):
        """The position in the last notification is the index of the view in attach order."""
        views = [self.repo.attach(self.heard.append, self.book) for _ in range(3)]
        for view in (views[1], views[2], views[0]):
            view.detach()
        self.assertEqual([notice.position for notice in self.heard], [1, 1, 0])

    def test_deleted(self):
        """A view whose target is deleted gets its last notification."""
        view = self.repo.attach(self.heard.append, self.book)
        self.book.delete()
        self.assertEqual(self.heard, [(Kind.REMOVING_ADAPTER, self.book, None, view, None, 0)])
        self.assertFalse(view.is_attached)
        self.assertFalse(view.detach())

    def test_detaches_itself(self):
        """A view can detach itself in its callable."""
        def once(notice):
            self.heard.append(notice.kind)
            if view.is_attached:
                view.detach()

        view = self.repo.attach(once, self.book)
        self.book.pages = 1
        self.book.pages = 2
        self.assertEqual(self.heard, [Kind.SET, Kind.REMOVING_ADAPTER])

    def test_closed(self):
        """Closing the repository notifies no view."""
        self.repo.attach(self.heard.append, self.book)
        self.repo.close()
        self.assertEqual(self.heard, [])

    def test_as_many_as_there_are(self):
        """Up to 992 views are attached at a time, and a detached one makes way for another."""
        for _ in range(2):
            views = [self.repo.attach(self.heard.append, self.book) for _ in range(VIEWS)]
            with self.refused(25, 'NO_ADAPTER'):
                self.repo.attach(self.heard.append, self.book)
            self.book.pages = 7
            self.assertEqual(len(self.heard), VIEWS)
            views[5].detach()
            again = self.repo.attach(self.heard.append, self.book)
            self.assertEqual(repr(again)[:10], '<View A14 ')
            for view in views + [again]:
                view.detach()
            self.heard.clear()

    def test_boxes_of_what_is_deleted(self):
        """The adapters of deleted targets can be attached again."""
        for _ in range(3):
            book = self.repo.create('Book')
            for _ in range(VIEWS):
                self.repo.attach(self.heard.append, book)
            book.delete()
        self.assertEqual(len(self.heard), 3 * VIEWS)


class Targets(LibraryTest):
    """A view of several targets."""

    def setUp(self):
        super().setUp()
        self.first, self.second = self.made('Book', 'Book')
        self.heard = []
        self.view = self.repo.attach(self.heard.append, self.first)

    def test_watch(self):
        """`watch` adds a target, and returns whether it is new."""
        self.assertIs(self.view.watch(self.second), True)
        self.assertIs(self.view.watch(self.second), False)
        self.assertIs(self.view.watch(self.first, deep=False), False)
        self.second.pages = 1
        self.first.pages = 2
        self.assertEqual([(notice.notifier, notice.new) for notice in self.heard], [(self.second, 1), (self.first, 2)])

    def test_unwatch(self):
        """`unwatch` takes a target away; with its last target a view is detached."""
        self.view.watch(self.second)
        self.assertIs(self.view.unwatch(self.first), True)
        self.assertIs(self.view.unwatch(self.first), False)
        self.first.pages = 1
        self.second.pages = 2
        self.assertTrue(self.view.is_attached)
        self.assertIs(self.view.unwatch(self.second), True)
        self.assertFalse(self.view.is_attached)
        self.assertEqual(
            self.heard,
            [
                (Kind.REMOVING_ADAPTER, self.first, None, self.view, None, 0),
                (Kind.SET, self.second, 'pages', 100, 2, -1),
                (Kind.REMOVING_ADAPTER, self.second, None, self.view, None, 0),
            ],
        )

    def test_detached(self):
        """A detached view takes no targets."""
        self.view.detach()
        for call in (self.view.watch, self.view.unwatch):
            with self.assertRaises(ValueError):
                call(self.second)


class Spoken(ClientTest):
    """The lines that the calls of a view send to a fake program, which answers by the rules of docs/SCRIPT.md."""

    def test_lines(self):
        """Each call sends its line, and reads the answer and the notifications."""
        answers = {
            'new Book': '#0',
            'resource "http://m.example/a"': 'r0',
            'attach A9 #0 deep': 'ok',
            'watch A9 r0 flat': 'true',
            'watch A9 #0 deep': 'false',
            'unwatch A9 r0': 'true\ntold A9 REMOVING_ADAPTER r0 A9 null 2',
            'unwatch A9 #0': 'true\ntold A9 REMOVING_ADAPTER #0 A9 null 0\nreleased A9 told 2 kept 0',
            'attach A9 r0 flat': 'ok',
            'resolveall': 'resolved 1 left 2\ntold A9 RESOLVE r0.contents proxy "http://m.example/b c#/" #0 3',
        }
        repo = Repository(LIBRARY, self.fake(f'for line in lines(): say({answers!r}[line[:-1]] + "\\n\\n")'))
        self.addCleanup(repo.close)
        heard = []
        book, town = repo.create('Book'), repo.resource('http://m.example/a')
        view = repo.attach(heard.append, book)
        self.assertIs(view.watch(town, deep=False), True)
        self.assertIs(view.watch(book), False)
        self.assertIs(view.unwatch(town), True)
        self.assertTrue(view.is_attached)
        self.assertIs(view.unwatch(book), True)
        self.assertFalse(view.is_attached)
        second = repo.attach(heard.append, town, deep=False)
        self.assertEqual(repo.resolve_all(), (1, 2))
        self.assertEqual(
            heard,
            [
                (Kind.REMOVING_ADAPTER, town, None, view, None, 2),
                (Kind.REMOVING_ADAPTER, book, None, view, None, 0),
                (Kind.RESOLVE, town, 'contents', Proxy('http://m.example/b c#/'), book, 3),
            ],
        )
        self.assertTrue(second.is_attached)
