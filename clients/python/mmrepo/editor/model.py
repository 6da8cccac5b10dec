"""The model that is edited: the repository, its copy that notifications keep, and the events for the windows."""

from __future__ import annotations

import threading
from typing import Any, Callable, Dict, Iterator, List, Optional, Sequence, Set

from ..errors import Refused
from ..loading import parsed
from ..notices import Kind, Notice, View
from ..repository import Repository
from ..resources import Resource
from .documents import MOST, differences, places_of, written
from .edits import Edits
from .events import Events
from .files import Files
from .forms import CONTENTS, Id, described
from .mirror import Changes, Mirror, Told
from .problems import Problems
from .reading import asked, object_of, read_object, read_resources


class Turn:
    """A lock that gives the repository to the thread that holds it. The thread that holds it may take it a second time."""

    def __init__(self, repo: Repository) -> None:
        self._lock = threading.RLock()
        self._repo = repo

    def __enter__(self) -> None:
        self._lock.acquire()
        self._repo._session.take()

    def __exit__(self, *_: object) -> None:
        self._lock.release()


class Model:
    """The state that the windows share. One thread at a time uses it: the one that holds the `lock`."""

    def __init__(self, repo: Repository, files: Files) -> None:
        """Reads all resources, and follows each change from now on."""
        self.lock = Turn(repo)
        self.repo, self.files = repo, files
        self.events = Events()
        self.mirror = Mirror(repo.metamodel)
        self.edits = Edits(repo, self.mirror)
        self.changed: Set[Id] = set()  # the resources that were edited since they were opened or saved
        self._told: List[Told] = []
        self._view: Optional[View] = None
        read_resources(repo, self.mirror, repo.resources, repo.resolve_all().left > 0)
        for resource in repo.resources:
            self._follow(resource)
        self.problems = Problems(repo, self.mirror)
        self.problems.look_at_all()

    def _follow(self, resource: Resource) -> None:
        """Follows each change in a resource from now on."""
        if self._view is None:
            self._view = self.repo.attach(self._hear, resource)
        else:
            self._view.watch(resource)

    def _hear(self, notice: Notice) -> None:
        """Keeps a notification until the step is done."""
        if notice.kind is not Kind.REMOVING_ADAPTER:
            self._told.append(self.mirror.told(notice))

    def step(self, do: Callable[[], Any]) -> Any:
        """Executes something on the model, and sends the windows its event, even if it is refused half way."""
        with self.lock:
            try:
                return do()
            finally:
                self._tell()

    def _tell(self, changes: Optional[Changes] = None) -> None:
        """Takes the notifications, and sends the windows an event if there are any."""
        told, self._told = self._told, []
        if not told:
            return
        if changes is None:
            changes = self.mirror.replay(told)
        touched: Set[Id] = {it[1] for it in told}
        for number, (holder, under) in changes.come.items():
            touched.update(read_object(self.repo, self.mirror, number, holder, under))
        self.changed.update(way[0] for way in map(self.mirror.path, touched) if way and isinstance(way[0], str))
        self.events.tell({
            'notices': told, 'gone': changes.gone, 'problems': self.problems.look_at(touched, changes.gone), 'changed': sorted(self.changed),
        })

    # Files

    def new_file(self, folder: int, name: str) -> str:
        """Makes an empty resource for a file, and returns its word."""
        resource = self.files.new(folder, name)
        read_resources(self.repo, self.mirror, [resource], False)
        self._follow(resource)
        self.changed.add(resource._word)
        self.events.tell({'resources': self.files.listed(), 'changed': sorted(self.changed)})
        return resource._word

    def load(self, folder: int, name: str, document: str) -> Dict[str, Any]:
        """Makes a resource for a file with the content of a document, and resolves all proxies."""
        word = self.new_file(folder, name)
        resource = self.resource(word)
        assert resource is not None
        count = resource.load(document)
        read_resources(self.repo, self.mirror, [resource], True)
        self._tell(Changes({}, []))
        below = list(self.mirror.below(word))
        self.events.tell({'problems': self.problems.look_at(below, ())})
        self.step(self.repo.resolve_all)
        return {'resource': word, 'count': count}

    def save(self, force: bool) -> Dict[str, Any]:
        """Writes the files that have changed. Returns what was written, or why nothing can be written."""
        done = self.files.save(force)
        if 'findings' not in done:
            self.changed.clear()
            self.events.tell({'changed': []})
        return done

    def resource(self, word: Id) -> Optional[Resource]:
        """The resource of a word, or None."""
        return next((it for it in self.repo.resources if it._word == word), None)

    # What is asked

    def start(self) -> Dict[str, Any]:
        """What a window needs at first."""
        return {
            'number': self.events.number, 'metamodel': described(self.repo.metamodel), 'resources': self.files.listed(),
            'folders': [str(it.path) for it in self.files.folders], 'findings': self.files.findings(), 'changed': sorted(self.changed),
            'problems': self.problems.counts(), 'file': self.files.given.metamodel, 'has_ecore': bool(self.files.given.ecore),
        }

    def nodes(self, ids: Sequence[Id]) -> Dict[str, Any]:
        """The content of nodes; null for a node that is not there."""
        found = {it: self.mirror.nodes.get(it) for it in ids}
        return {
            'number': self.events.number, 'nodes': {str(it): entry and entry.state() for it, entry in found.items()},
            'problems': {str(it): self.problems.of(it) for it in ids if isinstance(it, int)},
        }

    def asked(self, ids: Sequence[Id]) -> Dict[str, Any]:
        """The content of nodes in the repository, which is asked for each of their features."""
        found: Dict[str, Any] = {}
        for it in ids:
            entry = self.mirror.nodes.get(it)
            if entry is not None:
                found[str(it)] = asked(self.mirror, object_of(self.repo, it) if isinstance(it, int) else self.resource(it)).state()
        return {'number': self.events.number, 'nodes': found}

    def compared(self) -> Dict[str, Any]:
        """Compares the server's copy with the repository, resource by resource, and returns the differences."""
        places = places_of(self.mirror)
        uris = {it._word: it.uri for it in self.repo.resources}
        found: List[str] = []
        for resource in self.repo.resources:
            def refer(number: int) -> str:
                place = places.get(number)
                if place is None:
                    return f'nowhere#{number}'
                return place.fragment if place.resource == resource._word else f'{uris[str(place.resource)]}#{place.fragment}'

            here = written(self.mirror, self.mirror.nodes[resource._word].values.get(CONTENTS, []), refer)
            found += [f'{self.files.name(resource)}: {it}' for it in _compared(resource, here)]
        return {'objects': len(places), 'differences': found[:MOST]}


def _compared(resource: Resource, here: Dict[str, Any]) -> Iterator[str]:
    """The differences between a document and the save of a resource."""
    try:
        there = parsed(resource.save())
    except Refused as refused:
        yield f'it can\'t be compared: {refused.name}'
        return
    yield from differences(here, there)
