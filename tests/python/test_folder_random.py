"""Random models in files: a shard has what the whole model has of the same files, and what was edited and saved is read again."""

import json
import random
from pathlib import Path

from support import LIBRARY, PROGRAM, ClientTest

from mmrepo import EObject, Proxy, shards

MODELS, FILES = 25, 6


def address(node):
    """The address of a node: the URI of its resource, and its fragment."""
    return f'{node.eResource.uri}#{node.fragment()}'


def shown(value):
    """A value in a form that can be compared between repositories."""
    if isinstance(value, EObject):
        return ['object', address(value), value.eClass.name, value.eClass.name == 'Book' and value.pages]
    return ['proxy', value.address] if isinstance(value, Proxy) else value


def snapshot(repo, resources):
    """For each resource its file and its objects, with their addresses, containers, values and set flags."""
    found = []
    for resource in resources:
        nodes = [it for root in resource.contents for it in (root, *root.eAllContents())]
        rows = []
        for node in nodes:
            row = [address(node), node.eClass.name, shown(node.eContainer()), node.validate()]
            for feature in node.eClass.eAllStructuralFeatures():
                value = node.eGet(feature)
                row.append([shown(it) for it in value] if feature.many else shown(value))
                row.append(node.eIsSet(feature))
            rows.append(row)
        found.append([resource.path.name, rows])
    return found


class Maker:
    """Makes the documents of a random model. References within a file are always right, since the program refuses wrong ones. Some
    references between files are wrong, unless the model is to be right."""

    def __init__(self, ways, is_right):
        self.ways, self.is_right = ways, is_right
        self.sizes = [(ways.randrange(1, 3), ways.randrange(1, 5), ways.randrange(3)) for _ in range(FILES)]
        self.made = [self.roots(*size) for size in self.sizes]

    def roots(self, libraries, books, persons):
        """The roots of a file: libraries, each with books and members."""
        return [
            {'class': 'Library', 'features': {
                'books': [{'class': 'Book', 'features': self.values()} for _ in range(books)],
                'members': [{'class': 'Person', 'features': {}} for _ in range(persons)],
            }}
            for _ in range(libraries)
        ]

    def values(self):
        """Values of a book; some are the default values."""
        wanted = {'pages': self.ways.choice([100, 7]), 'note': self.ways.choice([None, 'http://models.example/0.json#/']), 'tags': ['a', '#/']}
        return {name: value for name, value in wanted.items() if self.ways.random() < 0.5}

    def text(self, to_file, fragment):
        """A reference to another file, relative or absolute. Right models have relative ones alone, since they are opened again with
        another base."""
        is_whole = not self.is_right and self.ways.random() < 0.5
        return f'{"http://models.example/" if is_whole else ""}{to_file}.json#{fragment}'

    def any_book(self):
        """A file, and the fragment of a book in it. In a model that may be wrong, the fragment can lead to no object, or to a library."""
        wrong = 0 if self.is_right else 1
        number = self.ways.randrange(FILES + wrong)
        libraries, books, _ = self.sizes[number % FILES]
        root = self.ways.randrange(libraries)
        head = self.ways.choice(['/', '/0'][:1 + wrong]) if root == 0 else f'/{root}'
        return number, f'{head}/@books.{self.ways.randrange(books + wrong)}' if self.ways.random() < 0.95 or self.is_right else head

    def link(self):
        """Adds references between files: likes and favourites, and chains of books. Some links of chains are written at one end alone."""
        for number, roots in enumerate(self.made):
            for library in roots:
                for person in library['features']['members']:
                    likes = {it for it in (self.any_book() for _ in range(4)) if it[0] != number}
                    person['features']['likes'] = [self.text(*it) for it in sorted(likes)]
                    to, fragment = self.any_book()
                    if to != number:
                        person['features']['favourite'] = self.text(to, fragment)
        ends = [(number, root, book) for number, size in enumerate(self.sizes) for root in range(size[0]) for book in range(size[1])]
        for _ in range(len(ends)):
            one, other = self.ways.sample(ends, 2)
            is_free = 'next' not in self.book(one) and 'prev' not in self.book(other)
            if one[0] != other[0] and (is_free or not self.is_right):
                self.chain('next', one, other)
                if self.is_right or self.ways.random() < 0.8:
                    self.chain('prev', other, one)

    def book(self, end):
        """The features of a book, as they are written in its document."""
        return self.made[end[0]][end[1]]['features']['books'][end[2]]['features']

    def chain(self, feature, one, other):
        """Sets a reference of a book to another one, unless it is set already."""
        self.book(one).setdefault(feature, self.text(other[0], f'/{other[1]}/@books.{other[2]}'))

    def write(self, top):
        """Writes the documents as files."""
        self.link()
        for number, roots in enumerate(self.made):
            Path(top, f'{number}.json').write_text(json.dumps({'format': 2, 'roots': roots}, indent=self.ways.choice([None, 1])))


class Random(ClientTest):
    """Random models, made by fixed seeds."""

    def folder(self, seed, is_right):
        """A folder with the model of a seed."""
        top = Path(self.room.name, str(seed))
        top.mkdir()
        Maker(random.Random(seed), is_right).write(top)
        return top

    def test_shards(self):
        """Each group of files has what the whole model has of these files, unresolved proxies included."""
        left = resolved = 0
        for seed in range(MODELS):
            top = self.folder(seed, seed % 5 == 0)
            with self.opened() as repo:
                folder = repo.open(top)
                whole = snapshot(repo, folder.resources)
            self.assertEqual(len(whole), FILES)
            text = json.dumps(whole)
            left, resolved = left + text.count('"proxy"'), resolved + text.count('"object"')
            objects = random.Random(seed).choice([1, 10, 25, 60])
            found = shards.map(snapshot, top, None, metamodel=LIBRARY, objects=objects, program=PROGRAM)
            self.assertEqual(sum(found, []), whole)
        self.assertGreater(min(left, resolved), 10 * MODELS)

    def test_saved_and_read_again(self):
        """After random edits the changed files are written, and a repository with another base reads the same model."""
        written = 0
        for seed in range(MODELS):
            top, ways = self.folder(1000 + seed, True), random.Random(seed)
            with self.opened() as repo:
                folder = repo.open(top, strict=True)
                before = [it.save() for it in folder.resources]
                for _ in range(ways.randrange(5)):
                    self.edit(ways, folder.resources)
                saved = [it.save() for it in folder.resources]
                changed = [it.path for it, old, new in zip(folder.resources, before, saved) if old != new]
                self.assertEqual(repo.save_all(), changed)
                written += len(changed)
            with self.opened() as other:
                again = other.open(top, base='http://other.example/a/b/', strict=True)
                texts = [it.save().replace('http://other.example/a/b/', 'http://models.example/') for it in again.resources]
                self.assertEqual([json.loads(it) for it in texts], [json.loads(it) for it in saved])
        self.assertGreater(written, 2 * MODELS)

    def edit(self, ways, resources):
        """Makes random edits: values, indexes in lists, and links between files."""
        library = ways.choice(ways.choice(resources).contents)
        books = list(library.books)
        way = ways.randrange(5)
        if way == 0 and books:
            ways.choice(books).pages = ways.randrange(1, 50)
        elif way == 1 and len(books) > 1:
            library.books.move(0, len(books) - 1)
        elif way == 2:
            library.books.insert(0, library._session.object('new Book'))
        elif way == 3 and books:
            books[0].delete()
        elif way == 4:
            other = ways.choice(ways.choice(resources).contents)
            if books and other.members:
                other.members[0].favourite = books[-1]
