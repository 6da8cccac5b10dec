"""Workloads on links: trees, lists of objects, and what is read of them."""
import random

SEED = 1


def wide_added(size):
    """`size` folders are added to one folder, one after another."""
    yield 'new Folder', '#0'
    for i in range(1, size + 1):
        yield 'new Folder', f'#{i}'
        yield f'add #0 subs #{i}', 'true'


def wide_set(size):
    """The links of `wide_added`, made by `set` of the parent."""
    yield 'new Folder', '#0'
    for i in range(1, size + 1):
        yield 'new Folder', f'#{i}'
        yield f'set #{i} parent #0', 'ok'


def tree(size):
    """A binary tree of folders. Each new folder is added to its parent, its container is asked for, and its parent is read."""
    yield 'new Folder', '#0'
    for i in range(1, size + 1):
        yield 'new Folder', f'#{i}'
        yield f'add #{(i - 1) // 2} subs #{i}', 'true'
        yield f'container #{i}', f'#{(i - 1) // 2}'
        yield f'get #{i} parent', f'#{(i - 1) // 2}'


def tree_up(size):
    """The same tree, made by `set` of the parent; the container of each new folder is asked for."""
    yield 'new Folder', '#0'
    for i in range(1, size + 1):
        yield 'new Folder', f'#{i}'
        yield f'set #{i} parent #{(i - 1) // 2}', 'ok'
        yield f'container #{i}', f'#{(i - 1) // 2}'


def books(size):
    """A library for each 100 books. Each new book gets a name, is added to its library, and is linked to the book before it."""
    library = 0
    for i in range(size):
        first = i % 100 == 0
        if first:
            library = i + i // 100
            yield 'new Library', f'#{library}'
        book = i + 1 + i // 100
        yield 'new Book', f'#{book}'
        yield f'set #{book} name "Book {i}"', 'ok'
        yield f'add #{library} books #{book}', 'true'
        yield (f'get #{book} prev', 'null') if first else (f'set #{book} prev #{book - 1}', 'ok')


def deep_added(size):
    """A chain of folders, built from the top: a new folder is added to the lowest one."""
    yield 'new Folder', '#0'
    for i in range(1, size + 1):
        yield 'new Folder', f'#{i}'
        yield f'add #{i - 1} subs #{i}', 'true'


def deep_set(size):
    """The same chain, made by `set` of the parent."""
    yield 'new Folder', '#0'
    for i in range(1, size + 1):
        yield 'new Folder', f'#{i}'
        yield f'set #{i} parent #{i - 1}', 'ok'


def deep_filled(size):
    """A chain of folders, built from the top: each new folder gets a folder of its own, and is then added to the lowest one."""
    yield 'new Folder', '#0'
    lowest = 0
    for i in range(1, size + 1):
        yield 'new Folder', f'#{2 * i - 1}'
        yield 'new Folder', f'#{2 * i}'
        yield f'add #{2 * i - 1} subs #{2 * i}', 'true'
        yield f'add #{lowest} subs #{2 * i - 1}', 'true'
        lowest = 2 * i - 1


def deep_raised(size):
    """A chain of folders, built from below: the chain so far is added to each new folder."""
    yield 'new Folder', '#0'
    for i in range(1, size + 1):
        yield 'new Folder', f'#{i}'
        yield f'add #{i} subs #{i - 1}', 'true'


def deep_deleted(size):
    """The highest folder of `deep_raised` is deleted."""
    yield from deep_raised(size)
    yield f'delete #{size}', f'deleted {size + 1}'


def two_libraries(size):
    """Two libraries, of which the first gets `size` books."""
    yield 'new Library', '#0'
    yield 'new Library', '#1'
    for i in range(2, size + 2):
        yield 'new Book', f'#{i}'
        yield f'add #0 books #{i}', 'true'


def stolen_front(size):
    """The books of the first of two libraries are added to the second one, from the front."""
    yield from two_libraries(size)
    for i in range(2, size + 2):
        yield f'add #1 books #{i}', 'true'


def stolen_back(size):
    """The same, from the end."""
    yield from two_libraries(size)
    for i in reversed(range(2, size + 2)):
        yield f'add #1 books #{i}', 'true'


def stolen_random(size):
    """The same, in a random order."""
    yield from two_libraries(size)
    for i in random.Random(SEED).sample(range(2, size + 2), size):
        yield f'add #1 books #{i}', 'true'


def books_inserted(size):
    """`size` books are inserted at the front of one library's list."""
    yield 'new Library', '#0'
    for i in range(1, size + 1):
        yield 'new Book', f'#{i}'
        yield f'add #0 books #{i} 0', 'true'


def books_moved(size):
    """The `size` books of one library are moved `size` times between random indexes."""
    yield 'new Library', '#0'
    for i in range(1, size + 1):
        yield 'new Book', f'#{i}'
        yield f'add #0 books #{i}', 'true'
    books, random_places = list(range(1, size + 1)), random.Random(SEED)
    for _ in range(size):
        to, of = random_places.randrange(size), random_places.randrange(size)
        book = books.pop(of)
        books.insert(to, book)
        yield f'move #0 books {to} {of}', f'#{book}'


def removed_in_no_order(size, owner, feature):
    """A new object gets `size` books in a random order, and each is then removed by `removevalue`, in another random order."""
    yield f'new {owner}', '#0'
    for i in range(1, size + 1):
        yield 'new Book', f'#{i}'
    shuffled = random.Random(SEED)
    for i in shuffled.sample(range(1, size + 1), size):
        yield f'add #0 {feature} #{i}', 'true'
    for i in shuffled.sample(range(1, size + 1), size):
        yield f'removevalue #0 {feature} #{i}', 'true'


def books_removed_random(size):
    """`size` books are added to one library in a random order, and each is then removed, in another random order."""
    return removed_in_no_order(size, 'Library', 'books')


def likes_removed_random(size):
    """The same of the books that one person likes, by a list without an opposite."""
    return removed_in_no_order(size, 'Person', 'likes')


def joined(size):
    """`size` members are added to one library, by a list without an opposite."""
    yield 'new Library', '#0'
    for i in range(1, size + 1):
        yield 'new Person', f'#{i}'
        yield f'add #0 members #{i}', 'true'


def liked_by_all(size):
    """`size` persons like one book."""
    yield 'new Book', '#0'
    for i in range(1, size + 1):
        yield 'new Person', f'#{i}'
        yield f'add #{i} likes #0', 'true'


def liked_deleted(size):
    """The book of `liked_by_all` is deleted."""
    yield from liked_by_all(size)
    yield 'delete #0', 'deleted 1'


def shuffled_deleted(size):
    """A book that `size` persons came to like in a random order is deleted."""
    yield 'new Book', '#0'
    for i in range(1, size + 1):
        yield 'new Person', f'#{i}'
    order = list(range(1, size + 1))
    random.Random(SEED).shuffle(order)
    for i in order:
        yield f'add #{i} likes #0', 'true'
    yield 'delete #0', 'deleted 1'


def unliked(size):
    """The persons of `liked_by_all` remove the book again, in order."""
    yield from liked_by_all(size)
    for i in range(1, size + 1):
        yield f'removevalue #{i} likes #0', 'true'


def unliked_random(size):
    """The same, in a random order."""
    yield from liked_by_all(size)
    for i in random.Random(SEED).sample(range(1, size + 1), size):
        yield f'removevalue #{i} likes #0', 'true'


def library_deleted(size):
    """A library with `size` books, each liked by a person outside of the library, is deleted."""
    yield 'new Library', '#0'
    for book in range(1, 2 * size, 2):
        yield 'new Book', f'#{book}'
        yield f'add #0 books #{book}', 'true'
        yield 'new Person', f'#{book + 1}'
        yield f'add #{book + 1} likes #{book}', 'true'
    yield 'delete #0', f'deleted {size + 1}'


def wide_fragments(size):
    """The folders of `wide_added` in a resource: the fragment of each is asked for, and then the object at its address."""
    yield from wide_added(size)
    yield 'resource "http://m.example/a"', 'r0'
    yield 'add r0 contents #0', 'true'
    for i in range(1, size + 1):
        yield f'fragment #{i}', f'"//@subs.{i - 1}"'
        yield f'at "http://m.example/a#//@subs.{i - 1}"', f'#{i}'


def wide_contents(size):
    """The contents of the folder of `wide_added` are asked for ten times."""
    yield from wide_added(size)
    contents = ' '.join(f'#{i}' for i in range(1, size + 1))
    for _ in range(10):
        yield 'contents #0', f'[{contents}]'


def deep_fragments(size):
    """The folders of `deep_raised` in a resource: the fragment of the lowest is asked for ten times."""
    yield from deep_raised(size)
    yield 'resource "http://m.example/a"', 'r0'
    yield f'add r0 contents #{size}', 'true'
    for _ in range(10):
        yield 'fragment #0', f'"/{"/@subs.0" * size}"'


def fragment_again(size):
    """The fragment of a folder 40 levels deep in a resource is asked for again and again."""
    yield 'resource "http://m.example/a"', 'r0'
    for i in range(40):
        yield 'new Folder', f'#{i}'
    yield 'add r0 contents #0', 'true'
    for i in range(1, 40):
        yield f'add #{i - 1} subs #{i}', 'true'
    for _ in range(size):
        yield 'fragment #39', '"/' + '/@subs.0' * 39 + '"'


def written(size, is_linked):
    """A library, `size` books and as many authors. If `is_linked`, each book is in the library and has an author; else the lines for these
    links are replaced by spaces of the same length."""
    yield 'new Library', '#0'
    for book in range(1, 2 * size, 2):
        yield 'new Book', f'#{book}'
        yield 'new Author', f'#{book + 1}'
        for line, answer in ((f'add #0 books #{book}', 'true'), (f'set #{book} author #{book + 1}', 'ok')):
            yield (line, answer) if is_linked else (' ' * len(line), None)


def linked(size):
    """A library with `size` books, each with an author."""
    return written(size, True)


def unlinked(size):
    """The objects of `linked` without their links, in a script of the same length."""
    return written(size, False)


WORKLOADS = [
    wide_added, wide_set, tree, tree_up, books, deep_added, deep_set, deep_filled, deep_raised, deep_deleted, stolen_front,
    stolen_back, stolen_random, books_inserted, books_moved, books_removed_random, likes_removed_random, joined, liked_by_all,
    liked_deleted, shuffled_deleted, unliked, unliked_random, library_deleted, wide_fragments, wide_contents, deep_fragments,
    fragment_again, linked, unlinked,
]
