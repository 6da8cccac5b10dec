"""The engines of a repository: which one it takes, and that all of them behave alike."""

import json
import os
import shutil
import subprocess
import time
from pathlib import Path
from unittest import mock

from support import CLIENT, ENGINE, LIBRARY, PROGRAM, TOP, ClientTest, LibraryTest

from mmrepo import MetamodelRefused, NotStarted, Refused, Repository, RepositoryClosed

# A fake library, to which memory is refused at the first call other than the line `new Book`.
NO_MEMORY = """
#include <mmrepo.h>
#include <string.h>
static uint32_t lost(mmrepo_session *session) {
    const uint32_t status = session->is_open ? MMREPO_MEMORY : MMREPO_CLOSED;
    session->is_open = false;
    return status;
}
uint32_t mmrepo_open(mmrepo_session *session, const char *document, size_t size) {
    (void)document, (void)size;
    session->is_open = true;
    return MMREPO_OK;
}
uint32_t mmrepo_line(mmrepo_session *session, const char *line, size_t size) {
    const bool is_new = size == 8 && memcmp(line, "new Book", size) == 0;
    return session->is_open && is_new ? MMREPO_OK : lost(session);
}
uint32_t mmrepo_list_length(mmrepo_session *session, bool is_resource, uint32_t number, const char *name, size_t size) {
    (void)is_resource, (void)number, (void)name, (void)size;
    return lost(session);
}
uint32_t mmrepo_list_value(mmrepo_session *session, bool is_resource, uint32_t number, const char *name, size_t size, uint32_t index) {
    (void)is_resource, (void)number, (void)name, (void)size, (void)index;
    return lost(session);
}
uint32_t mmrepo_load(mmrepo_session *session, uint32_t resource, const char *document, size_t size) {
    (void)resource, (void)document, (void)size;
    return lost(session);
}
size_t mmrepo_text(mmrepo_session *session, char *text, size_t size) {
    (void)session;
    memcpy(text, "#0\\n", size < 3 ? size : 3);
    return 3;
}
void mmrepo_close(mmrepo_session *session) {
    session->is_open = false;
}
"""
VALUES = 10_000
SECONDS = 5  # a bound for all indexes of a long list on a busy machine


class Choice(ClientTest):
    """Which engine a repository takes."""

    def engine(self, *given, **environment):
        """The engine that a repository takes in an environment."""
        environment = {'MMREPO_ENGINE': '', **environment}
        with mock.patch.dict(os.environ, environment), Repository(LIBRARY, *given) as repo:
            return repo.engine

    def test_by_default(self):
        """The library beside the package is taken first, by the extension module if that is there."""
        has_extension = (CLIENT / 'mmrepo/_native.abi3.so').exists()
        wanted = 'program' if ENGINE == 'program' else 'extension' if has_extension else 'ctypes'
        self.assertEqual(self.engine(), wanted)

    def test_a_program_that_is_given(self):
        """A program that is given is taken, whatever the environment says."""
        self.assertEqual(self.engine(PROGRAM), 'program')
        self.assertEqual(self.engine(PROGRAM, MMREPO_ENGINE='ctypes'), 'program')

    def test_environment(self):
        """MMREPO_ENGINE and MMREPO_LIBRARY choose the engine; an unknown engine or a bad library is an error."""
        self.assertEqual(self.engine(MMREPO_LIBRARY=''), 'program')
        self.assertEqual(self.engine(MMREPO_ENGINE='program'), 'program')
        with self.assertRaises(NotStarted):
            self.engine(MMREPO_ENGINE='magic')
        with self.assertRaises(NotStarted):
            self.engine(MMREPO_ENGINE='ctypes', MMREPO_LIBRARY='/none')
        with self.assertRaises(NotStarted):
            self.engine(None, '/none')
        with self.assertRaises(NotStarted):
            self.engine(None, self.file('library.so', 'no library'))

    def test_a_library_of_another_system(self):
        """If the library beside the package can't be loaded, the program is taken, unless the environment asks for the library."""
        with mock.patch('mmrepo.engines._beside', lambda: str(self.file('libmmrepo.so', 'of another system'))):
            self.assertEqual(self.engine(), 'program')
            with self.assertRaises(NotStarted):
                self.engine(MMREPO_ENGINE='ctypes')

    def test_a_library_that_is_given(self):
        """A library that is given is taken before that of the environment."""
        if ENGINE == 'program':
            return
        library = CLIENT / 'mmrepo/libmmrepo.so'
        self.assertEqual(self.engine(None, library, MMREPO_ENGINE='ctypes'), 'ctypes')
        self.assertEqual(self.engine(None, library, MMREPO_ENGINE=ENGINE, MMREPO_LIBRARY='/none'), ENGINE)
        self.assertEqual(self.engine(MMREPO_ENGINE=ENGINE, MMREPO_LIBRARY=str(library)), ENGINE)


class Refusals(ClientTest):
    """Each engine explains a refusal in the same words."""

    def test_metamodel(self):
        """A refused metamodel."""
        for document, fault, explained in (
            ('{"classes":[{"nam":"A"}]}', '2 LAYOUT', ('classes[0]: the key "name" is absent', 'classes[0]: unknown key "nam"; is "name" meant?')),
            ('{"classes":[{"name":"A","supers":["B"]},{"name":"B","supers":["A"]}]}', '7 CYCLE class 0', None),
            ('', '1 SYNTAX', None),
        ):
            with self.subTest(document), self.assertRaises(MetamodelRefused) as found:
                self.opened(self.file('meta.json', document))
            self.assertEqual(found.exception.fault, fault)
            if explained is not None:
                self.assertEqual(found.exception.explained, explained)

    def test_document(self):
        """A refused document."""
        town = self.opened().resource('http://m.example/a')
        with self.assertRaises(Refused) as found:
            town.load('{"format":2,\n"roots":[{"class":"Book","features":{"pages":"1","titel":"Emma"}}]}')
        self.assertEqual((found.exception.name, found.exception.cause), ('DOCUMENT', (5, 'FEATURE')))
        self.assertEqual(found.exception.explained, ('roots[0].features: "titel" is no feature of Book',))

    def test_without_a_program(self):
        """Without the program a refusal has its number and name, and no explanation."""
        if ENGINE == 'program':
            return
        with mock.patch.dict(os.environ, {'MMREPO': '/none'}):
            with self.assertRaises(MetamodelRefused) as found:
                self.opened(self.file('meta.json', '{"classes":[{"nam":"A"}]}'))
            self.assertEqual((found.exception.fault, found.exception.explained), ('2 LAYOUT', ()))
            with self.assertRaises(Refused) as found:
                self.opened().resource('http://m.example/a').load('{}')
            self.assertEqual(found.exception.explained, ())

    def test_lines(self):
        """A text that can't be sent is a ValueError, and any other text comes back as it was."""
        book = self.opened().create('Book')
        for call in (lambda: book.eSet('name', 'a\ud800'), lambda: book.eSet('name', 'x' * 16_777_217)):
            with self.assertRaises(ValueError):
                call()
        book.name = 'a\nb\x00ü\U0001f600'
        self.assertEqual(book.name, 'a\nb\x00ü\U0001f600')


class NoMemory(ClientTest):
    """Memory is refused to the library itself, which then closes its session."""

    def library(self):
        """Compiles the fake library, and returns its path."""
        made = Path(self.room.name, 'fake.so')
        compiler = shutil.which('cc') or shutil.which('gcc') or shutil.which('clang')
        words = ['-shared', '-fPIC', '-Wall', '-Wextra', '-Werror', f'-I{TOP}/crates/mmrepo_c/include', self.file('fake.c', NO_MEMORY)]
        subprocess.run([compiler, *words, '-o', made], check=True)
        return made

    def test_calls(self):
        """The call to which memory is refused raises a MemoryError, and each later call a RepositoryClosed."""
        if ENGINE == 'program':
            return
        library = self.library()
        calls = {
            'create': lambda repo, book: repo.create('Library'),
            'get': lambda repo, book: book.pages,
            'set': lambda repo, book: book.eSet('pages', 3),
            'append': lambda repo, book: book.tags.append('a'),
            'extend': lambda repo, book: book.tags.extend(['a', 'b']),
            'length': lambda repo, book: len(book.tags),
            'value': lambda repo, book: book.tags[0],
            'load': lambda repo, book: repo._session.load('r0', '{}'),
            'values': lambda repo, book: repo.create('Book', pages=3),
            'objects': lambda repo, book: repo.objects(),
        }
        for name, call in calls.items():
            with self.subTest(name):
                repo = Repository(LIBRARY, None, library)
                self.assertEqual(repo.engine, ENGINE)
                book = repo.create('Book')
                with self.assertRaises(MemoryError):
                    call(repo, book)
                for later in calls.values():
                    with self.assertRaises(RepositoryClosed) as found:
                        later(repo, book)
                    self.assertIn('memory', str(found.exception))
                repo.close()


class Lists(LibraryTest):
    """Reads of long lists."""

    def test_places(self):
        """All values of a list of VALUES objects are read by their indexes in at most SECONDS, if the engine reads single values."""
        library, = self.made('Library')
        with self.repo.batch() as batch:
            books = [batch.create('Book', library=library) for _ in range(VALUES)]
        began = time.perf_counter()
        count = VALUES if self.repo._session.engine.list_value is not None else 20
        self.assertTrue(all(library.books[place] is books[place] for place in range(count)))
        self.assertEqual(len(library.books), VALUES)
        self.assertLess(time.perf_counter() - began, SECONDS)
        self.assertIs(library.books[-1], books[-1])
        self.assertIs(library.books[-VALUES], books[0])
        self.assertEqual(library.books[2:4], books[2:4])
        self.assertTrue(all(book in library.books for book in books[:50]))
        other = self.repo.create('Book')
        for absent in (other, library, None, 3, '#1', self.opened().create('Book')):
            self.assertNotIn(absent, library.books)
        for place in (VALUES, -VALUES - 1, 2**32, -2**40):
            with self.assertRaises(IndexError):
                library.books[place]

    def test_values(self):
        """Values, lengths and membership of an attribute's list, and of one whose object is deleted."""
        book, = self.made('Book')
        book.tags.extend(['a b', '"', 'é'])
        self.assertEqual([book.tags[place] for place in range(3)], ['a b', '"', 'é'])
        self.assertEqual((len(book.tags), 'é' in book.tags, 'x' in book.tags), (3, True, False))
        book.delete()
        for call in (lambda: book.tags[0], lambda: len(book.tags)):
            with self.refused(1, 'NO_OBJECT'):
                call()

    def test_proxies(self):
        """Membership in a list that has proxies."""
        town, book = self.repo.resource('http://m.example/a'), self.repo.create('Book')
        town.load('{"format":2,"roots":[{"class":"Person","features":{"likes":["b#/0","/1"]}},{"class":"Book","features":{}}]}')
        person, liked = town.contents
        self.assertEqual((liked in person.likes, book in person.likes, person.likes[0] in person.likes), (True, False, True))

    def test_resource(self):
        """Values, lengths and membership of the roots of a resource."""
        town = self.repo.resource('http://m.example/a')
        books = self.made('Book', 'Book')
        town.contents.extend(books)
        self.assertEqual((len(town.contents), town.contents[1], books[0] in town.contents), (2, books[1], True))

    def test_long_document(self):
        """A document that is longer than a line is saved by each engine; the engines in the process load it again."""
        town, copy = self.repo.resource('http://m.example/a'), self.repo.resource('http://m.example/b')
        with self.repo.batch() as batch:
            for _ in range(300):
                batch.append(town.contents, batch.create('Book', name='x' * 60_000))
        text = town.save()
        self.assertGreater(len(text), 16_777_216)
        self.assertEqual(len(json.loads(text)['roots']), 300)
        if self.repo._session.engine.load is None:
            with self.assertRaises(ValueError):
                copy.load(text)
        else:
            self.assertEqual(copy.load(text), 300)
            self.assertEqual(copy.save(), text)


class Files(ClientTest):
    """The package under test."""

    def test_package(self):
        """The package that is imported is the one in the folder for the tests."""
        import mmrepo
        self.assertEqual(Path(mmrepo.__file__).parent, CLIENT / 'mmrepo')
