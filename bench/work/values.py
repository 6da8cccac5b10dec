"""Workloads on attributes and on lists of values."""
import random

SEED = 1


def attributes(size):
    """`size` books; each gets a name and a number of pages, which are then read."""
    for i in range(size):
        yield 'new Book', f'#{i}'
        yield f'set #{i} name "Book {i}"', 'ok'
        yield f'set #{i} pages {i}', 'ok'
        yield f'get #{i} name', f'"Book {i}"'
        yield f'get #{i} pages', f'{i}'


def appended(size):
    """`size` tags are appended to the unique list of one book."""
    yield 'new Book', '#0'
    for i in range(size):
        yield f'add #0 tags "{i}"', 'true'


def inserted(size):
    """`size` tags are inserted at the front of the list of one book."""
    yield 'new Book', '#0'
    for i in range(size):
        yield f'add #0 tags "{i}" 0', 'true'


def moved(size):
    """The tags of `appended`, each of which is moved from the front to the end."""
    yield from appended(size)
    for i in range(size):
        yield f'move #0 tags {size - 1} 0', f'"{i}"'


def removed(size):
    """The tags of `appended`, each of which is removed from the front."""
    yield from appended(size)
    for i in range(size):
        yield f'remove #0 tags 0', f'"{i}"'


def removed_random(size):
    """The tags of `appended`, each of which is removed by its text, in a random order."""
    yield from appended(size)
    for i in random.Random(SEED).sample(range(size), size):
        yield f'removevalue #0 tags "{i}"', 'true'


def repeated(size):
    """The tags of `appended`, each of which is added again; this changes nothing."""
    yield from appended(size)
    for i in range(size):
        yield f'add #0 tags "{i}"', 'false'


WORKLOADS = [attributes, appended, inserted, moved, removed, removed_random, repeated]
