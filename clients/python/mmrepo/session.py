"""A session: the commands of a repository, and its known objects, resources and views."""

from __future__ import annotations

from typing import TYPE_CHECKING, Any, Callable, Dict, List, Optional, Sequence
from weakref import ref

from . import interrupts
from .answers import OUTCOMES, checked, read_counts, read_document, read_names, read_ok
from .batches import Batch
from .engines import Engine
from .errors import BadLine, MmrepoError
from .exchange import Exchange
from .journals import Made
from .metamodel import EClass, EReference, EStructuralFeature, Metamodel
from .notices import Notice, View
from .objects import EObject, Node, name_object, new_object
from .resources import Resource
from .values import data_word, is_number, value_of, values_of
from .web_urls import parse

if TYPE_CHECKING:
    from .folders import Folder

FEW = 10_000  # from so many known objects on, objects that Python has collected are removed


class Session(Exchange):
    """An exchange with an engine, the metamodel, and the known objects, resources and views."""

    def __init__(self, engine: Engine, metamodel: Metamodel) -> None:
        super().__init__(engine)
        self.metamodel = metamodel
        self.folders: List[Folder] = []
        self.is_shard = False  # whether the session has only a part of a model; then no file is written
        self._next = 0  # the number that the next object gets
        self._objects: Dict[str, ref[EObject]] = {}
        self._many = FEW
        self._resources: Dict[str, Resource] = {}
        interrupts.watch(self)

    # Several lines, and calls

    def answers(self, lines: Sequence[str]) -> List[str]:
        """The first lines of the answers to several lines, which are sent at once. The views are notified when all are answered."""
        return self._asked_all(lines, lambda line, answer: answer)

    def outcomes(self, lines: Sequence[str], keep: Callable[[List[Any]], None]) -> List[Any]:
        """The results of several commands, which are sent at once: None for `ok`, a truth value, how many objects were deleted,
        the object that was made, or the Refused of a refused command. `keep` is called with them before the views are notified.
        """
        return self._asked_all(lines, self._outcome, keep)

    def raw(self, line: str) -> List[str]:
        """The lines that a line prints. No view is notified of them."""
        return self.raw_all([line])[0]

    def raw_all(self, lines: Sequence[str]) -> List[List[str]]:
        """The lines that each of several lines prints."""
        self.check()
        self.busy = True
        try:
            found = [text.split('\n')[:-1] for text in self.engine.exchange_all(lines)]
            for line, answer in zip(lines, found):
                self._record(line, answer[0] if answer else '')
        except BaseException:
            self._leave()
            raise
        self.busy = False
        if self.interrupted:
            self._hand_out()
        return found

    def _outcome(self, line: str, answer: str) -> Any:
        """What a command of a batch gives."""
        if answer in OUTCOMES:
            return OUTCOMES[answer]
        if answer.startswith('refused '):
            return self._refusal(line, answer)
        if answer == 'bad line':
            return BadLine(line)
        return self.named(answer) if answer[:1] == '#' else read_counts(['deleted'], answer)[0]

    def load(self, word: str, document: str) -> int:
        """Loads a document into a resource, given by its word, and returns how many objects were made."""
        # A line has no newline. JSON allows a newline only between tokens, and there a tab means the same.
        line = f'load {word} ' + document.replace('\n', '\t')
        call = self.engine.load
        if call is None:
            return self.ask(line, self._read_loaded)
        number, data = int(word[1:]), document.encode()
        return self._called(line, lambda: call(number, data), self._read_loaded)

    def _read_loaded(self, answer: str) -> int:
        count, = read_counts(['loaded'], answer)
        self._next += count
        return count

    def list_length(self, word: str, name: str) -> int:
        """How many values a list has."""
        call = self.engine.list_length
        if call is None:
            return len(self.values(f'get {word} {name}'))
        is_resource, number = word[0] == 'r', int(word[1:])
        return self._called(f'get {word} {name}', lambda: call(is_resource, number, name), int)

    def list_value(self, word: str, name: str, index: int) -> Any:
        """The value at an index of a list; the index is not negative. Raises an IndexRefused if there is none."""
        call = self.engine.list_value
        assert call is not None
        is_resource, number = word[0] == 'r', int(word[1:])
        return self._called(f'get {word} {name}', lambda: call(is_resource, number, name, index), self._read_value)

    def explained(self, line: str) -> List[str]:
        """What has to be fixed in the last line."""
        words = line.split(' ', 2)
        return self.engine.explained(line, self.uri_of(words[1]) if words[0] == 'load' and len(words) > 1 else None)

    # Answers of a kind

    def counts(self, line: str, *words: str) -> List[int]:
        """The numbers in an answer that has a number after each of some words, as `deleted 3`."""
        return self.ask(line, lambda answer: read_counts(words, answer))

    def values(self, line: str) -> List[Any]:
        """The values in an answer that lists them in brackets."""
        return self.ask(line, lambda answer: values_of(answer, self.named))

    def text(self, line: str) -> str:
        """The text that a command answers."""
        return self.ask(line, lambda answer: checked(value_of(answer, self.named), str))

    def object(self, line: str, eclass: Optional[EClass] = None) -> EObject:
        """The object that a command answers."""
        return self.ask(line, lambda answer: self._read_object(answer, eclass))

    def _read_object(self, answer: str, eclass: Optional[EClass]) -> EObject:
        if answer[:1] != '#':
            raise ValueError('no object')
        found = self.named(answer, eclass)
        number = int(answer[1:])
        if number >= self._next:
            self._next = number + 1
        return found

    def optional(self, line: str) -> Optional[EObject]:
        """The object in an answer that is an object or `null`."""
        return self.ask(line, lambda answer: None if answer == 'null' else checked(self.named(answer), EObject))

    def within(self, line: str) -> Optional[Resource]:
        """The resource in an answer that is a resource or `null`."""
        return self.ask(line, lambda answer: None if answer == 'null' else checked(self.named(answer), Resource))

    def names(self, line: str) -> List[str]:
        """The names in an answer that lists them in brackets."""
        return self.ask(line, read_names)

    def document(self, line: str) -> str:
        """The document that a command answers."""
        return self.ask(line, read_document)

    def class_of(self, word: str) -> EClass:
        """The class of an object."""
        return self.ask(f'class {word}', self._read_class)

    def _read_class(self, answer: str) -> EClass:
        verb, _, name = answer.partition(' ')
        if verb != 'class' or name not in self.metamodel.classes:
            raise ValueError('no class')
        return self.metamodel.classes[name]

    # Nodes and words

    def batch(self) -> Batch:
        """Commands that are collected, and sent at once."""
        return Batch(self)

    def make(self, objects: Sequence[EObject]) -> None:
        """Makes the objects of a batch that are not made yet; their classes are known. If some of them are refused, the Refused of
        the first is raised; the others are made.
        """
        waiting = iter(objects)

        def read(line: str, answer: str) -> Optional[MmrepoError]:
            made = next(waiting)
            if answer.startswith('refused '):
                return self._refusal(line, answer)
            if answer[:1] != '#' or not is_number(answer[1:]):
                raise ValueError('no object')
            name_object(made, answer)
            known[answer] = ref(made)
            self._next = int(answer[1:]) + 1
            return None

        known = self._objects
        for error in self._asked_all([f'new {it.eClass.name}' for it in objects], read):
            if error is not None:
                raise error

    def resources(self) -> List[Resource]:
        """The resources that were made, in order."""
        return list(self._resources.values())

    def uri_of(self, word: str) -> Optional[str]:
        """The URI of a resource; None if the word names no resource."""
        found = self._resources.get(word)
        return None if found is None else found.uri

    def resource(self, line: str, uri: str) -> Resource:
        """The resource that a command makes."""
        return self.ask(line, lambda answer: self._read_resource(answer, uri))

    def begin_with(self, made: Made) -> None:
        """Records what the program had made at its start. The resources are numbered from 0, and so are the objects."""
        for number, uri in enumerate(made.uris):
            self._read_resource(f'r{number}', uri)
        self._next = made.objects

    def _read_resource(self, answer: str, uri: str) -> Resource:
        if answer[:1] != 'r' or not is_number(answer[1:]) or answer in self._resources:
            raise ValueError('no new resource')
        url = parse(uri, None)
        made = self._resources[answer] = Resource(self, answer, uri if url is None else url.text())
        return made

    def attach(self, node: Node, hearer: Callable[[Notice], Any], how: str) -> View:
        """The view that a command attaches to a node."""
        number = self.views.lowest()

        def read(answer: str) -> View:
            read_ok(answer)
            return self.views.add(self, number, hearer)

        return self.ask(f'attach A{number} {node._word} {how}', read)

    def named(self, word: str, eclass: Optional[EClass] = None) -> Any:
        """The object, the resource or the view of a word. Raises a ValueError for any other word. One number always gives the
        same Python object, as long as somebody has it.
        """
        known = self._objects.get(word)
        if known is not None:
            found = known()
            if found is not None:
                return found
        if word[:1] == 'A':
            return self.views.named(word)
        if word in self._resources:
            return self._resources[word]
        if word[:1] != '#' or not is_number(word[1:]):
            raise ValueError(f'{word} is no node')
        if len(self._objects) >= self._many:
            self._objects = {it: known for it, known in self._objects.items() if known() is not None}
            self._many = max(FEW, 2 * len(self._objects))
        made = new_object(self, word, eclass)
        self._objects[word] = ref(made)
        return made

    def contains(self, container: EObject, feature: EReference, part: EObject) -> bool:
        """Whether a reference has an object."""
        found = self.ask(f'get {container._word} {feature.name}', str)
        return part._word in (found[1:-1].split(' ') if feature.many else [found])

    def objects(self, eclass: Optional[EClass]) -> List[EObject]:
        """The objects that live, by their numbers: all, or those of a class and of the classes below it."""
        lines = [f'class #{number}' for number in range(self._next)]
        classes = {f'class {name}': it for name, it in self.metamodel.classes.items() if eclass is None or it.isSubTypeOf(eclass)}
        found = zip(range(self._next), self.answers(lines))
        return [self.named(f'#{number}', classes[answer]) for number, answer in found if answer in classes]

    def _record(self, line: str, answer: str) -> None:
        """Counts the objects that a line has made, and records the resource that it has made."""
        if answer[:1] == '#' and line.lstrip(' ').startswith('new '):
            self._next = max(self._next, int(answer[1:]) + 1)
        elif answer[:1] == 'r' and is_number(answer[1:]) and line.lstrip(' ').startswith('resource '):
            self._read_resource(answer, value_of(line.strip(' ')[len('resource'):].lstrip(' '), self.named))
        elif answer.startswith('loaded '):
            self._next += int(answer[len('loaded '):])

    def check_node(self, node: Any) -> None:
        """Raises a TypeError for anything but an object or a resource, and a ValueError for one of another repository."""
        if not isinstance(node, Node):
            raise TypeError(f'{node!r} is no object and no resource')
        if node._session is not self:
            raise ValueError(f'{node!r} is of another repository')

    def value_word(self, value: Any, feature: Optional[EStructuralFeature]) -> str:
        """The word of a value of a feature. Raises a ValueError for an object of another repository."""
        if isinstance(value, EObject):
            if value._session is not self:
                self.check_node(value)
            return value._word
        return data_word(value, feature is not None and feature.is_enumeration)

    def close(self) -> None:
        """Ends the engine in the regular way."""
        self.check()
        interrupts.leave(self)
        self.engine.close()

    def end(self, why: str) -> None:
        """Ends the engine at once."""
        self.check()
        interrupts.leave(self)
        self.engine.end(why)
