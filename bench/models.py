"""Makes folders of models for measurements: files of libraries, whose objects refer to one another across files."""

import json
import os
import resource
import threading
import time
from pathlib import Path


def library(number, files, objects):
    """The document of a file: a library with books and members. One book in ten is followed by a book of the next file, which names it
    back. Each member likes a book of its own file and a book of a file further on."""
    members = objects // 4
    books = objects - 1 - members
    after, before, far = [f'../{it % files // 100:04}/{it % files:06}.json' for it in (number + 1, number - 1, number + 7)]
    made = []
    for place in range(books):
        features = {'name': f'Book {number}.{place}', 'pages': 101 + place % 500, 'tags': ['a tag', f'tag {place}']}
        if files > 1 and place % 10 == 1:
            features['next'] = f'{after}#//@books.{place + 1}'
        if files > 1 and place % 10 == 2:
            features['prev'] = f'{before}#//@books.{place - 1}'
        made.append({'class': 'Book', 'features': features})
    persons = [
        {'class': 'Person', 'features': {
            'name': f'Person {number}.{place}', 'favourite': f'//@books.{place}', 'likes': [f'//@books.{place}', f'{far}#//@books.{place}']
        }}
        for place in range(members)
    ]
    features = {'name': f'Library {number}', 'books': made, 'members': persons}
    return {'format': 2, 'roots': [{'class': 'Library', 'features': features}]}


def make(top, files, objects):
    """Makes a folder of `files` files with `objects` objects each, a hundred files in a subfolder. The files have no fault."""
    for number in range(files):
        path = Path(top, f'{number // 100:04}', f'{number:06}.json')
        path.parent.mkdir(exist_ok=True)
        path.write_text(json.dumps(library(number, files, objects), separators=(',', ':')))


def family(pid):
    """A process and the processes that it has started, each with its resident memory in bytes."""
    found, waiting = {}, [pid]
    while waiting:
        one = waiting.pop()
        try:
            pages = int(Path(f'/proc/{one}/statm').read_text().split()[1])
            for task in os.listdir(f'/proc/{one}/task'):
                waiting += map(int, Path(f'/proc/{one}/task/{task}/children').read_text().split())
        except (OSError, IndexError):
            continue
        found[one] = pages * resource.getpagesize()
    return found


class Peak:
    """Measures memory while a block runs: the most that this process and all processes that it started had together, and the most that one
    of them had, in bytes."""

    def __init__(self, *others):
        self.total = self.one = self.here = 0
        self._pids = [os.getpid(), *others]
        self._is_over = threading.Event()
        self._thread = threading.Thread(target=self._look, daemon=True)

    def _look(self):
        while not self._is_over.wait(0.1):
            sizes = {pid: size for top in self._pids for pid, size in family(top).items()}
            self.total = max(self.total, sum(sizes.values()))
            self.one = max(self.one, *sizes.values())
            self.here = max(self.here, sizes.get(os.getpid(), 0))

    def __enter__(self):
        self.began = time.perf_counter()
        self._thread.start()
        return self

    def __exit__(self, *_):
        self.seconds = time.perf_counter() - self.began
        self._is_over.set()
        self._thread.join()
