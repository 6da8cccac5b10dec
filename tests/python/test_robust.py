"""Errors in views, Ctrl-C and other threads leave the repository in the state of its commands, and it can be used further."""

import copy
import os
import pickle
import queue
import random
import signal
import subprocess
import sys
import threading
import time
from unittest import mock

from support import CLIENT, LIBRARY, LibraryTest

from mmrepo import CallableFailed, NotOwner, Refused, RepositoryClosed

MOMENTS = 200
SECONDS = 60  # a bound for MOMENTS interrupts on a busy machine


class Views(LibraryTest):
    """Views whose callables raise errors."""

    def setUp(self):
        super().setUp()
        self.library, self.book = self.made('Library', 'Book')
        self.library.books.append(self.book)

    def test_each_other_view_hears(self):
        """Each other view gets its notifications, and the error of the first failing callable is raised."""
        heard, wrong = [[], []], []

        def fails(notice):
            wrong.append(notice)
            raise ValueError(len(wrong))

        self.repo.attach(heard[0].append, self.library)
        views = [self.repo.attach(fails, self.library) for _ in range(2)]
        self.repo.attach(heard[1].append, self.library)
        for page in range(3):
            with self.assertRaises(CallableFailed) as found:
                self.book.pages = page
            self.assertEqual(found.exception.__cause__.args, (2 * page + 1,))
            self.assertEqual(found.exception.notice.new, page)
        self.assertEqual([[it.new for it in some] for some in heard], [[0, 1, 2], [0, 1, 2]])
        for view in views:
            with self.assertRaises(CallableFailed):
                view.detach()
            self.assertFalse(view.is_attached)
        self.book.pages = 3
        self.assertEqual(self.book.pages, 3)

    def test_refused_in_a_view(self):
        """A refusal in a callable is the cause of CallableFailed; the commands that the callable gave before it are done."""
        def gives(notice):
            if notice.feature == 'pages':
                self.library.name = 'heard'
                self.library.books.append(3)

        heard = []
        self.repo.attach(gives, self.book)
        self.repo.attach(heard.append, self.library)
        with self.assertRaises(CallableFailed) as found:
            self.book.pages = 1
        self.assertIsInstance(found.exception.__cause__, Refused)
        self.assertEqual([it.feature for it in heard], ['pages', 'name'])
        self.assertEqual((self.book.pages, self.library.name, list(self.library.books)), (1, 'heard', [self.book]))

    def test_ends_of_python(self):
        """KeyboardInterrupt, SystemExit and GeneratorExit in a callable are raised as they are, after the other views have been notified.
        """
        for kind in (KeyboardInterrupt, SystemExit, GeneratorExit):
            def fails(notice):
                raise kind

            heard = []
            view, other = self.repo.attach(fails, self.book), self.repo.attach(heard.append, self.book)
            with self.assertRaises(kind):
                self.book.pages = 1
            self.assertEqual(len(heard), 1)
            with self.assertRaises(kind):
                view.detach()
            other.detach()

    def test_batch(self):
        """An error in a callable does not stop a batch."""
        def fails(notice):
            raise ValueError

        heard = []
        view = self.repo.attach(fails, self.library)
        self.repo.attach(heard.append, self.library)
        with self.assertRaises(CallableFailed):
            self.library.books.extend([self.repo.create('Book') for _ in range(5)])
        self.assertEqual((len(self.library.books), len(heard)), (6, 5))
        with self.assertRaises(CallableFailed):
            view.detach()


class Interrupts(LibraryTest):
    """Ctrl-C at random moments."""

    def setUp(self):
        self.came, self.is_inside, self.is_over = 0, False, False
        before = signal.signal(signal.SIGINT, self.handle)
        self.addCleanup(signal.signal, signal.SIGINT, before)
        super().setUp()

    def handle(self, number, frame):
        """Raises KeyboardInterrupt during the work, and at no other time."""
        if self.is_inside:
            self.is_inside = False
            self.came += 1
            raise KeyboardInterrupt

    def press(self):
        """Presses Ctrl-C at random moments until so many have interrupted the work. Presses that come while one is pending count as one."""
        moments, until = random.Random(76), time.monotonic() + SECONDS
        while self.came < MOMENTS and time.monotonic() < until:
            time.sleep(moments.uniform(0.0001, 0.004))
            os.kill(os.getpid(), signal.SIGINT)
        self.is_over = True

    def interrupt(self, work):
        """Repeats work while Ctrl-C is pressed."""
        thread = threading.Thread(target=self.press)
        self.addCleanup(thread.join)
        thread.start()
        while not self.is_over:
            try:
                self.is_inside = True
                work()
                self.is_inside = False
            except KeyboardInterrupt:
                pass
            except BaseException:
                self.is_inside = False
                raise
        self.assertGreaterEqual(self.came, MOMENTS)

    def test_sets_that_are_heard(self):
        """A view gets each notification once and in order: each old value is the new value of the notification before it."""
        library, book = self.made('Library', 'Book')
        library.books.append(book)
        heard = []
        self.repo.attach(heard.append, library)
        given = [0]

        def work():
            given[0] += 1
            book.pages = given[0]

        self.interrupt(work)
        book.pages = 0
        self.assertEqual(heard[0].old, 100)
        self.assertEqual([it.old for it in heard[1:]], [it.new for it in heard[:-1]])
        self.assertEqual(heard[-1].new, book.pages)
        self.assertLessEqual(given[0] - len(heard) + 1, self.came)

    def test_all_kinds(self):
        """After interrupted commands of all kinds the client and the repository agree on objects, lists, resources, views and documents."""
        library = self.repo.create('Library')
        count = [0]

        def work():
            count[0] += 1
            book = self.repo.create('Book', name='x' * (count[0] % 50))
            library.books.append(book)
            view = self.repo.attach(lambda notice: None, book)
            book.tags.extend(['a', 'b', 'c'])
            resource = self.repo.resource(f'http://m.example/{count[0]}')
            resource.append(book)
            resource.save()
            view.detach()
            book.delete()

        self.interrupt(work)
        for resource in self.repo.resources:
            self.assertEqual(resource.eContents, list(resource.contents))
        before = len(self.repo.resources)
        self.assertEqual(self.repo.resource('http://m.example/last'), self.repo.resources[before])
        for book in list(library.books):
            self.assertEqual(book.eContainer(), library)
            book.delete()
        view = self.repo.attach(lambda notice: None, library)
        library.name = 'last'
        view.detach()

    def test_in_a_long_load(self):
        """Ctrl-C in a long load takes effect at its end: all objects are loaded, or none if it came before the call."""
        books = ','.join(['{"class":"Book","features":{"name":"a"}}'] * 30_000)
        resource = self.repo.resource('http://m.example/a')
        text = '{"format":2,"roots":[%s]}' % books
        timer = threading.Timer(0.01, os.kill, (os.getpid(), signal.SIGINT))
        with self.assertRaises(KeyboardInterrupt):
            self.is_inside = True
            timer.start()
            resource.load(text)
            time.sleep(10)
        timer.join()
        self.assertIn(len(resource.contents), (0, 30_000))
        self.assertEqual(self.repo.create('Book').eClass.name, 'Book')

    def test_in_a_line(self):
        """An object that a line makes while Ctrl-C is pressed is one of `objects`."""
        engine = self.repo._session.engine
        exchange_all = engine.exchange_all

        def pressed(lines):
            os.kill(os.getpid(), signal.SIGINT)
            return exchange_all(lines)

        with mock.patch.object(engine, 'exchange_all', pressed), self.assertRaises(KeyboardInterrupt):
            self.is_inside = True
            self.repo._session.raw('new Book')
        self.assertEqual([it.number for it in self.repo.objects()], [0])

    def test_a_handler_of_ones_own(self):
        """A handler of the caller is called."""
        handled = []
        before = signal.signal(signal.SIGINT, lambda number, frame: handled.append(number))
        self.addCleanup(signal.signal, signal.SIGINT, before)
        repo = self.opened()
        book = repo.create('Book')
        os.kill(os.getpid(), signal.SIGINT)
        book.pages = 1
        self.assertEqual((handled, book.pages), ([signal.SIGINT], 1))


class Owners(LibraryTest):
    """Other threads and processes, copies and pickles."""

    def test_three_threads(self):
        """While the owner gives commands, each command of two other threads raises NotOwner at once, and is not sent."""
        book, = self.made('Book')
        heard = []
        self.repo.attach(heard.append, book)
        found, over = queue.Queue(), threading.Event()

        def strange(page):
            refused = 0
            while not over.is_set():
                try:
                    book.pages = page
                    book.name
                    self.repo.create('Book')
                    found.put('not refused')
                except NotOwner:
                    refused += 1
            found.put(refused)

        threads = [threading.Thread(target=strange, args=(page,)) for page in (-1, -2)]
        for thread in threads:
            thread.start()
        until = time.monotonic() + 1
        page = 0
        while time.monotonic() < until:
            page += 1
            book.pages = page
            self.assertEqual(book.pages, page)
        over.set()
        for thread in threads:
            thread.join()
        self.assertTrue(all(isinstance(it, int) and it > 0 for it in (found.get(), found.get())))
        self.assertEqual([it.new for it in heard], list(range(1, page + 1)))
        self.assertEqual(self.repo.create('Book')._word, '#1')

    def test_each_call_in_another_thread(self):
        """Each call of another thread raises NotOwner."""
        book, library = self.made('Book', 'Library')
        view = self.repo.attach(print, library)
        resource = self.repo.resource('http://m.example/a')
        calls = [
            lambda: book.name, lambda: book.tags.append('a'), lambda: list(book.tags), lambda: len(book.tags), lambda: book.delete(),
            lambda: self.repo.create('Book'), lambda: self.repo.close(), lambda: view.detach(), lambda: resource.save(),
            lambda: resource.load('{}'), lambda: self.repo.attach(print, book), lambda: self.repo.at('http://m.example/a#/'),
            lambda: book.tags.extend(['a']),
        ]
        found = queue.Queue()

        def strange():
            for call in calls:
                try:
                    found.put(call())
                except NotOwner as error:
                    found.put(error)

        thread = threading.Thread(target=strange)
        thread.start()
        thread.join()
        for _ in calls:
            self.assertIsInstance(found.get(), NotOwner)
        self.assertEqual(self.repo.create('Book')._word, '#2')

    def test_fork(self):
        """In the child of a fork each call raises NotOwner, and the parent's repository goes on."""
        code = f"""
import os, mmrepo
repo = mmrepo.Repository({str(LIBRARY)!r})
book = repo.create('Book')
child = os.fork()
if child == 0:
    try:
        book.name = 'child'
    except mmrepo.NotOwner as error:
        print(error, flush=True)
    repo.close()
    with mmrepo.Repository({str(LIBRARY)!r}) as own:
        print(own.create('Library'), flush=True)
    os._exit(0)
os.waitpid(child, 0)
print(book.name, repo.create('Book'), flush=True)
repo.close()
"""
        told = self.run_code(code, self.room.name)
        self.assertEqual(told, 'the repository belongs to the process that was forked\n<Library #0>\nNone <Book #1>\n')

    def test_copies_and_pickles(self):
        """Copying and pickling are TypeErrors that name `save`."""
        book, = self.made('Book')
        resource = self.repo.resource('http://m.example/a')
        for thing in (book, resource, self.repo, book.tags):
            for call in (copy.copy, copy.deepcopy, pickle.dumps):
                with self.subTest(thing=type(thing).__name__, call=call.__name__), self.assertRaises(TypeError) as found:
                    call(thing)
                self.assertIn('save', str(found.exception))


class Closing(LibraryTest):
    """What is left of a closed repository."""

    def test_memory(self):
        """Repositories that are opened, filled and closed, or collected without closing, give their memory back."""
        if self.repo.engine == 'program':
            return  # the memory of the program ends with its process
        code = f"""
import ctypes, gc, mmrepo
class Info(ctypes.Structure):
    _fields_ = [(name, ctypes.c_size_t) for name in 'arena ordblks smblks hblks hblkhd usmblks fsmblks uordblks fordblks keepcost'.split()]
libc = ctypes.CDLL(None)
libc.mallinfo2.restype = Info
def used():
    gc.collect()
    info = libc.mallinfo2()
    return info.uordblks + info.hblkhd
def once(close):
    repo = mmrepo.Repository({str(LIBRARY)!r})
    with repo.batch() as batch:
        for i in range(20_000):
            batch.create('Book', name=f'A book of the number {{i}}', tags=['a', 'b'])
    del batch
    full = used()
    if close:
        repo.close()
    return full
for close in (True, False):
    once(close)
    before = used()
    full = once(close) - before
    for _ in range(8):
        once(close)
    print(full > 2_000_000, used() - before < full / 20)
"""
        self.assertEqual(self.run_code(code, self.room.name), 'True True\nTrue True\n')

    def test_closed(self):
        """Each call on a closed repository raises RepositoryClosed."""
        book, = self.made('Book')
        self.repo.close()
        for call in (lambda: book.name, lambda: book.tags[0], lambda: len(book.tags), lambda: self.repo.create('Book')):
            with self.assertRaises(RepositoryClosed):
                call()
        self.repo.close()

    def test_handler_of_ctrl_c(self):
        """When the last repository is closed, the old handler of Ctrl-C is there again."""
        code = f"""
import signal, mmrepo
repos = [mmrepo.Repository({str(LIBRARY)!r}) for _ in range(2)]
print(signal.getsignal(signal.SIGINT) is signal.default_int_handler)
for repo in repos:
    repo.close()
print(signal.getsignal(signal.SIGINT) is signal.default_int_handler)
"""
        self.assertEqual(self.run_code(code, self.room.name), 'False\nTrue\n')

    def test_exit_without_closing(self):
        """A Python process ends with status 0 if it leaves a repository open."""
        code = f'import mmrepo\nrepo = mmrepo.Repository({str(LIBRARY)!r})\nprint(repo.create("Book"))'
        done = subprocess.run(
            [sys.executable, '-c', code], env={**os.environ, 'PYTHONPATH': str(CLIENT)}, stdout=subprocess.PIPE, stderr=subprocess.PIPE
        )
        self.assertEqual((done.returncode, done.stdout, done.stderr), (0, b'<Book #0>\n', b''))
