"""Proxies of a loaded document: where they lead, and why a proxy can't be resolved."""

from __future__ import annotations

import re
from typing import TYPE_CHECKING, Dict, Iterator, List, Mapping, NamedTuple, Sequence, Tuple

from .findings import Finding
from .metamodel import EReference
from .uris import name_of, shortened
from .values import Proxy, text_word, value_of, values_of
from .walking import Link, place_text

if TYPE_CHECKING:
    from .session import Session

_REFUSED = re.compile(r'refused [0-9]+ ([A-Z_]+)')
LIMIT = 'LIMIT'  # the kind of a finding on a file that a repository can't hold
UNREAD = 'UNREAD'  # the kind of a finding on a proxy that leads to a file which has findings itself
RESOLVED = 'NOT_PROXY'  # the refusal of `resolve` if the proxy was resolved before


class Found(NamedTuple):
    """A proxy: the word of its object, the link that it comes from, and its address."""

    word: str
    link: Link
    proxy: Proxy

    @property
    def command(self) -> str:
        """The line that resolves it."""
        return f'resolve {self.word} {self.link.feature.name} {self.link.index}'


def proxies_of(session: Session, first: int, links: Sequence[Link]) -> List[Found]:
    """The proxies at the links of a document, given the number of its first object."""
    words = [f'#{first + link.number}' for link in links]
    asked = list(dict.fromkeys(f'get {word} {link.feature.name}' for word, link in zip(words, links)))
    answers = dict(zip(asked, session.answers(asked)))
    read: Dict[str, List[object]] = {}
    found: List[Found] = []
    for word, link in zip(words, links):
        line = f'get {word} {link.feature.name}'
        if line not in read:
            read[line] = values_of(answers[line], str) if link.feature.many else [value_of(answers[line], str)]
        value = read[line][link.index]
        if isinstance(value, Proxy):
            found.append(Found(word, link, value))
    return found


class Judge:
    """Says why proxies of the file `own` can't be resolved."""

    def __init__(self, session: Session, base: str, own: str, uri: str, unread: Mapping[str, str]) -> None:
        """`unread` has the names of the files that could not be loaded, each with the kind of its finding."""
        self._session, self._base, self._own, self._uri, self._unread = session, base, own, uri, unread

    def findings(self, proxies: Sequence[Found]) -> Iterator[Tuple[Found, Finding]]:
        """Resolves each proxy, and returns the refused ones with a finding each."""
        answers = self._session.answers([it.command for it in proxies])
        for proxy, answer in zip(proxies, answers):
            refused = _REFUSED.fullmatch(answer)
            if refused is None or refused[1] == RESOLVED:
                continue
            yield proxy, Finding(self._own, *self._why(proxy, refused[1]))

    def _why(self, found: Found, refusal: str) -> Tuple[str, str, str]:
        """The kind of a finding, its place and its text."""
        kind, text = self._reason(found, refusal)
        return kind, place_text(found.link.place), text

    def _reason(self, found: Found, refusal: str) -> Tuple[str, str]:
        """The kind of a finding and its text."""
        address = found.proxy.address
        shown = text_word(shortened(self._base, self._uri, address))
        name = name_of(self._base, found.proxy.uri)
        wanted = found.link.feature.eType.name
        if name is not None and self._unread.get(name) == LIMIT:
            return LIMIT, f'{shown} leads to {name}, for which there is no room beside this file'
        if name in self._unread:
            return UNREAD, f'{shown} leads to {name}, which is not loaded'
        if refusal == 'UNLOADED' and name is None:
            return 'OUTSIDE', f'{shown} leads out of the folder'
        if refusal == 'UNLOADED':
            return refusal, f'{shown} leads to no file of the folder'
        if refusal == 'UNRESOLVED':
            return refusal, f'{shown} leads to no object of {name or found.proxy.uri}'
        if refusal == 'TYPE':
            return refusal, f'{shown} leads to {self._class_at(address)}, and a {wanted} is wanted'
        if refusal == 'DUPLICATE':
            return refusal, f'{shown} leads to an object that the list has already'
        if refusal == 'UNMATCHED' and isinstance(found.link.feature, EReference) and found.link.feature.eOpposite:
            back = self._uri + '#' + self._session.text(f'fragment {found.word}')
            there = text_word(shortened(self._base, found.proxy.uri, back))
            return refusal, f'{shown} does not name it back: its {found.link.feature.eOpposite.name} lacks {there}'
        return refusal, f'{shown} is refused: {refusal}'

    def _class_at(self, address: str) -> str:
        """The class of the object at an address."""
        found = self._session.optional(f'at {text_word(address)}')
        return f'a {found.eClass.name}' if found is not None else 'an object of a different class'
