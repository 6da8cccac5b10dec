"""Workloads on resources that are saved, loaded and resolved."""


def stocked(size):
    """A resource with one library, to which `size` books and as many members are added; each member likes one book."""
    yield 'resource "http://m.example/library"', 'r0'
    yield 'new Library', '#0'
    yield 'add r0 contents #0', 'true'
    for book in range(1, 2 * size, 2):
        yield 'new Book', f'#{book}'
        yield f'add #0 books #{book}', 'true'
        yield 'new Person', f'#{book + 1}'
        yield f'add #0 members #{book + 1}', 'true'
        yield f'add #{book + 1} likes #{book}', 'true'


def stock(size):
    """The document of the resource of `stocked`."""
    books = ','.join(['{"class":"Book","features":{}}'] * size)
    members = ','.join(f'{{"class":"Person","features":{{"likes":["//@books.{i}"]}}}}' for i in range(size))
    library = f'{{"class":"Library","features":{{"books":[{books}],"members":[{members}]}}}}'
    return f'{{"format":2,"roots":[{library}]}}'


def saved(size):
    """The resource of `stocked` is saved."""
    yield from stocked(size)
    yield 'save r0', stock(size)


def loaded(size):
    """The document of `saved` is loaded, and saved again as the same text."""
    yield 'resource "http://m.example/library"', 'r0'
    yield f'load r0 {stock(size)}', f'loaded {2 * size + 1}'
    yield 'save r0', stock(size)


def deleted(size):
    """The library of `stocked` is deleted with all that it contains."""
    yield from stocked(size)
    yield 'delete #0', f'deleted {2 * size + 1}'


def kept(size):
    """A library of `size` books with names and numbers of pages is saved, and loaded into another resource."""
    yield 'resource "http://m.example/library"', 'r0'
    yield 'resource "http://m.example/copy"', 'r1'
    yield 'new Library', '#0'
    yield 'add r0 contents #0', 'true'
    for i in range(1, size + 1):
        yield 'new Book', f'#{i}'
        yield f'set #{i} name "Book {i}"', 'ok'
        yield f'set #{i} pages {100 + i}', 'ok'
        yield f'add #0 books #{i}', 'true'
    books = ','.join(f'{{"class":"Book","features":{{"name":"Book {i}","pages":{100 + i}}}}}' for i in range(1, size + 1))
    text = f'{{"format":2,"roots":[{{"class":"Library","features":{{"books":[{books}]}}}}]}}'
    yield 'save r0', text
    yield f'load r1 {text}', f'loaded {size + 1}'


def pairs(size):
    """A person in one resource follows `size` persons in another one, each of whom has the first person at the opposite end. Both resources
    are saved, emptied and loaded."""
    yield 'resource "http://m.example/a"', 'r0'
    yield 'resource "http://m.example/b"', 'r1'
    yield 'new Person', '#0'
    yield 'add r0 contents #0', 'true'
    for i in range(1, size + 1):
        yield 'new Person', f'#{i}'
        yield f'add r1 contents #{i}', 'true'
        yield f'add #0 follows #{i}', 'true'
    follows = ','.join(f'"http://m.example/b#/{i}"' for i in range(size))
    one = f'{{"format":2,"roots":[{{"class":"Person","features":{{"follows":[{follows}]}}}}]}}'
    others = ','.join(['{"class":"Person","features":{"followers":["http://m.example/a#/"]}}'] * size)
    many = f'{{"format":2,"roots":[{others}]}}'
    yield 'save r0', one
    yield 'save r1', many
    yield 'unset r0 contents', 'ok'
    yield 'unset r1 contents', 'ok'
    yield f'load r0 {one}', 'loaded 1'
    yield f'load r1 {many}', f'loaded {size}'


def paired(size):
    """The proxies of `pairs`, resolved in the order of the list of the first person."""
    yield from pairs(size)
    for i in range(size):
        yield f'resolve #{size + 1} follows {i}', f'#{size + 2 + i}'


def paired_back(size):
    """The proxies of `pairs`, of which each followed person resolves its own."""
    yield from pairs(size)
    for i in range(size):
        yield f'resolve #{size + 2 + i} followers 0', f'#{size + 1}'


def reload_text(k, size):
    """The document of the resource of number `k` in `reloaded`."""
    half = size // 2
    after, before = 'abcde'[(k + 1) % 5], 'abcde'[(k - 1) % 5]
    books = [f'{{"class":"Book","features":{{"next":"http://m/{after}#/{i}","prev":"http://m/{before}#/{i}"}}}}' for i in range(half)]
    people = [f'{{"class":"Person","features":{{"favourite":"http://m/{after}#/{i}"}}}}' for i in range(half)]
    return f'{{"format":2,"roots":[{",".join(books + people)}]}}'


def reloaded(size):
    """Five resources of `size` objects each: books, each with the next and the previous book in other resources, and persons, each with a
    favourite in another resource. They are saved and emptied, loaded in another order, all resolved, and saved again as the same texts."""
    half = size // 2
    for k, name in enumerate('abcde'):
        yield f'resource "http://m/{name}"', f'r{k}'
        for i in range(2 * half):
            yield 'new Book' if i < half else 'new Person', f'#{2 * k * half + i}'
            yield f'add r{k} contents #{2 * k * half + i}', 'true'
    for k in range(5):
        first, other = 2 * k * half, 2 * ((k + 1) % 5) * half
        for i in range(half):
            yield f'set #{first + i} next #{other + i}', 'ok'
            yield f'set #{first + half + i} favourite #{other + i}', 'ok'
    texts = [reload_text(k, size) for k in range(5)]
    for k in range(5):
        yield f'save r{k}', texts[k]
    for k in range(5):
        yield f'unset r{k} contents', 'ok'
    for k in (3, 0, 4, 2, 1):
        yield f'load r{k} {texts[k]}', f'loaded {2 * half}'
    yield 'resolveall', f'resolved {10 * half} left 0'
    for k in range(5):
        yield f'save r{k}', texts[k]


WORKLOADS = [stocked, saved, loaded, deleted, kept, paired, paired_back, reloaded]
