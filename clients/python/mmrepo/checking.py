"""Checks a group of files: the faults of their documents, proxies that lead nowhere, and features that are too short."""

from __future__ import annotations

from typing import Callable, Iterator, List, NamedTuple, Optional, Sequence, Set, Tuple

from .findings import Finding
from .loading import Loaded, first_number, parsed
from .proxies import LIMIT, UNREAD, Found, Judge
from .shards import Group, Models, Part
from .uris import name_of
from .walking import Met, place_text, shortage

Placed = Tuple[int, Finding]  # with the number of the object in the document


class Scope(NamedTuple):
    """What is checked: the files with or below the names of `tops`, in which an empty name stands for all files, but not the
    metamodel. A proxy may lead outside if its URI begins with one of `accepted`.
    """

    tops: Tuple[str, ...]
    accepted: Tuple[str, ...]
    metamodel: Optional[str] = None

    def has(self, name: Optional[str]) -> bool:
        """Whether a file is checked."""
        return name is not None and name != self.metamodel and any(top in ('', name) or name.startswith(f'{top}/') for top in self.tops)


class Report(NamedTuple):
    """The findings of a group, and how many files and objects it had."""

    findings: List[Finding]
    files: int
    objects: int


class Checked(NamedTuple):
    """A loaded file of the group: the proxies of its document, and its objects that have a feature with a lower bound."""

    loaded: Loaded
    proxies: List[Found]
    bounded: List[Met]


def check_group(models: Models, scope: Scope, names: Group) -> Report:
    """Checks some files. The files to which they refer are loaded beside them. If the repository can't hold all of them, the
    group is loaded again for the remaining files.
    """
    findings: List[Finding] = []
    placed: List[Placed] = []
    with models.opened() as part:
        files = _loaded(part, names)
        findings += part.loader.findings
        placed += [short for it in files for short in _short(part, it)]
        objects = sum(it.loaded.count for it in files)
        later = sorted(set().union(*(part.targets(it.proxies) for it in files)))
        _load_some(part, later)
        placed += _judged(part, scope, files, lambda target: target not in later)
    while later:
        with models.opened() as part:
            files = _loaded(part, names)
            now = _load_some(part, later)
            placed += _judged(part, scope, files, lambda target: target in now)
    order = {name: place for place, name in enumerate(names)}
    findings += [it for _, it in sorted(placed, key=lambda it: it[0])]
    return Report(sorted(findings, key=lambda it: order[it.file]), len(names), objects)


def _loaded(part: Part, names: Group) -> List[Checked]:
    """Loads a group. The findings of the loader say what can't be loaded."""
    files: List[Checked] = []
    for name in names:
        loaded = part.loader.load(name)
        if loaded is not None and loaded.count:
            objects = list(part.shapes.walk(parsed(loaded.document)))
            bounded = [met for met in objects if met.shape.bounded]
            files.append(Checked(loaded._replace(document=''), part.proxies(loaded, objects), bounded))
    return files


def _short(part: Part, file: Checked) -> Iterator[Placed]:
    """The features of objects that have fewer values than they should."""
    if not file.bounded:
        return
    first = first_number(file.loaded.resource)
    answers = part.repo._session.answers([f'validate #{first + met.number}' for met in file.bounded])
    for met, answer in zip(file.bounded, answers):
        names = answer[1:-1].split(' ')
        for feature in met.shape.bounded:
            if feature.name in names:
                place = place_text((met.place, feature.name, None))
                yield met.number, Finding(file.loaded.name, 'SHORT', place, shortage(met, feature))


def _load_some(part: Part, later: List[str]) -> Set[str]:
    """Loads waiting files, and takes them off the list, until the repository is full. A file that the repository can't hold at
    all is taken off too.
    """
    tried: Set[str] = set()
    while later:
        part.loader.load(later[0])
        if tried and part.loader.unread.get(later[0]) == LIMIT:
            break
        tried.add(later.pop(0))
    return tried


def _judged(part: Part, scope: Scope, files: Sequence[Checked], is_now: Callable[[Optional[str]], bool]) -> Iterator[Placed]:
    """The findings of the proxies that lead to certain files, without those that repeat another finding."""
    for file in files:
        proxies = [it for it in file.proxies if is_now(name_of(part.base, it.proxy.uri))]
        judge = Judge(part.repo._session, part.base, file.loaded.name, file.loaded.resource.uri, part.loader.unread)
        for proxy, finding in judge.findings(proxies):
            if finding.kind == UNREAD and scope.has(name_of(part.base, proxy.proxy.uri)):
                continue  # the file has a finding itself
            if finding.kind == 'OUTSIDE' and proxy.proxy.uri.startswith(scope.accepted):
                continue
            yield proxy.link.number, finding
