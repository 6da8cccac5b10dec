"""Workloads on changes with adapters, and the same change without one."""
from work.links import wide_added

LEVELS = 500
WATCHED = 1_000


def alone(size):
    """The pages of one book without adapters are set again and again."""
    yield 'new Book', '#0'
    for i in range(size):
        yield f'set #0 pages {i % 100}', 'ok'


def elsewhere(size):
    """The pages of one book are set again and again, while eight adapters are attached to other books."""
    yield 'new Book', '#0'
    for no in range(1, 9):
        yield 'new Book', f'#{no}'
        yield f'attach A{no} #{no} flat', 'ok'
    for i in range(size):
        yield f'set #0 pages {i % 100}', 'ok'


def watched(size):
    """The pages of one book with seven adapters are set again and again."""
    yield 'new Book', '#0'
    for no in range(1, 8):
        yield f'attach A{no} #0 flat', 'ok'
    before = 100
    for pages in (i % 100 for i in range(size)):
        told = ''.join(f'\ntold A{no} SET #0.pages {before} {pages} -1' for no in range(1, 8))
        yield f'set #0 pages {pages}', f'ok{told}'
        before = pages


def watched_deep(size):
    """The pages of one book, in a library in a resource, are set again and again, while seven deep adapters are attached above it."""
    yield 'resource "http://m.example/a"', 'r0'
    yield 'new Library', '#0'
    yield 'new Book', '#1'
    yield 'add r0 contents #0', 'true'
    yield 'add #0 books #1', 'true'
    for no in range(1, 8):
        yield f'attach A{no} {"r0" if no < 5 else "#0"} deep', 'ok'
    before = 100
    for pages in (i % 100 for i in range(size)):
        told = ''.join(f'\ntold A{no} SET #1.pages {before} {pages} -1' for no in range(1, 8))
        yield f'set #1 pages {pages}', f'ok{told}'
        before = pages


def watched_many(size):
    """A thousand books, each of which is a target of seven adapters; their pages are set in turn."""
    for book in range(WATCHED):
        yield 'new Book', f'#{book}'
    for no in range(1, 8):
        yield f'attach A{no} #0 flat', 'ok'
        for book in range(1, WATCHED):
            yield f'watch A{no} #{book} flat', 'true'
    for i in range(size):
        book, before, pages = i % WATCHED, 100 if i < WATCHED else (i // WATCHED - 1) % 100, i // WATCHED % 100
        told = ''.join(f'\ntold A{no} SET #{book}.pages {before} {pages} -1' for no in range(1, 8))
        yield f'set #{book} pages {pages}', f'ok{told}'


def targets_deleted(size):
    """The folder of `wide_added`, whose contents are all targets of one adapter, is deleted."""
    yield from wide_added(size)
    yield 'attach A7 #1 flat', 'ok'
    for i in range(2, size + 1):
        yield f'watch A7 #{i} flat', 'true'
    told = ''.join(f'\ntold A7 REMOVING_ADAPTER #{i} A7 null 0' for i in range(1, size + 1))
    yield 'delete #0', f'deleted {size + 1}{told}\nreleased A7 told {size} kept 0'


def far_below(size):
    """A chain of 500 folders, with a deep adapter at the top that only counts. A feature of the lowest folder is set again and again."""
    for folder in range(LEVELS):
        yield 'new Folder', f'#{folder}'
    for folder in range(1, LEVELS):
        yield f'add #{folder - 1} subs #{folder}', 'true'
    yield 'attach A7 #0 deep', 'ok'
    before = 0
    for now in (i % 100 for i in range(size)):
        yield f'set #{LEVELS - 1} size {now}', f'ok\ntold A7 SET #{LEVELS - 1}.size {before} {now} -1'
        before = now


WORKLOADS = [alone, elsewhere, watched, watched_deep, watched_many, targets_deleted, far_below]
