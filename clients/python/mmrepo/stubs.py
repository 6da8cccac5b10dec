"""`python3 -m mmrepo stubs META.json`: writes the classes of a metamodel for type checkers and editors. docs/PYTHON.md is the page on it."""

from __future__ import annotations

import argparse
import builtins
import keyword
import sys
from typing import Iterator, List

from .errors import MmrepoError
from .metamodel import EAttribute, EClass, EStructuralFeature, Metamodel
from .objects import EObject
from .repository import Repository

REFUSED = 1
DATA = {'EString': 'str', 'EInt': 'int', 'ELong': 'int', 'EBoolean': 'bool'}
HEAD = '''# Made by `python3 -m mmrepo stubs`. For type checkers alone: objects have these classes' features, and are no instances of them.
from typing import Any, Callable, Iterable, List, Literal, Optional, Union, overload
import mmrepo
from mmrepo import EObject, FeatureList, Proxy
'''


def add_arguments(parser: argparse.ArgumentParser) -> None:
    """The arguments of the command."""
    parser.add_argument('metamodel', metavar='META', help='the file of the metamodel')


def main(words: argparse.Namespace) -> int:
    """Prints the stubs, and gives the status."""
    try:
        with Repository(words.metamodel) as repo:
            lines = list(stubs(repo.metamodel))
    except (OSError, MmrepoError) as error:
        print(f'error: {error}', file=sys.stderr)
        return REFUSED
    print('\n'.join(lines))
    return 0


def stubs(metamodel: Metamodel) -> Iterator[str]:
    """The lines of the stubs: the enumerations, the classes, and a Repository that makes objects of them."""
    yield HEAD
    for name, enum in metamodel.enums.items():
        yield f'{_type(name)} = Literal[{", ".join(map(repr, enum.eLiterals))}]'
    for eclass in _supers_first(metamodel):
        yield from _class(eclass)
    yield from _repository(metamodel)


def _type(name: str) -> str:
    """The name of a class or an enumeration in the stubs."""
    taken = keyword.iskeyword(name) or name in ('Repository', 'EObject', 'FeatureList', 'Proxy', 'mmrepo') or hasattr(builtins, name)
    return f'{name}_' if taken else name


def _supers_first(metamodel: Metamodel) -> List[EClass]:
    """The classes, each after its supertypes."""
    found: List[EClass] = []
    waiting = list(metamodel.classes.values())[::-1]
    while waiting:
        top = waiting[-1]
        missing = [it for it in top.eSuperTypes if it not in found]
        if top in found or not missing:
            waiting.pop()
            if top not in found:
                found.append(top)
        else:
            waiting += missing
    return found


def _class(eclass: EClass) -> Iterator[str]:
    """The lines of a class."""
    above = ', '.join(_type(it.name) for it in eclass.eSuperTypes) or 'EObject'
    yield ''
    yield f'class {_type(eclass.name)}({above}):'
    features = [it for it in eclass.eStructuralFeatures if not _is_hidden(it.name)]
    for feature in features:
        yield from _feature(feature)
    if not features:
        yield '    ...'


def _is_hidden(name: str) -> bool:
    """Whether a feature is no attribute of the class in Python, and is reached only as an item."""
    return keyword.iskeyword(name) or name.startswith('__') or hasattr(EObject, name)


def _feature(feature: EStructuralFeature) -> Iterator[str]:
    """The lines of a feature: a property for a list, else an attribute. No type says that a reference may also have a proxy."""
    if feature.many:
        yield '    @property'
        yield f'    def {feature.name}(self) -> FeatureList[{_value(feature)}]: ...'
        yield f'    @{feature.name}.setter'
        yield f'    def {feature.name}(self, value: FeatureList[{_value(feature)}]) -> None: ...'
    else:
        yield f'    {feature.name}: {_optional(feature)}'


def _value(feature: EStructuralFeature) -> str:
    """The type of one value."""
    name = feature.eType.name
    return DATA[name] if name in DATA and isinstance(feature, EAttribute) else _type(name)


def _optional(feature: EStructuralFeature) -> str:
    """The type of a feature of one value. Numbers and truth values are never null."""
    value = _value(feature)
    return value if value in ('int', 'bool') or feature.is_enumeration else f'Optional[{value}]'


def _repository(metamodel: Metamodel) -> Iterator[str]:
    """The lines of a Repository whose `create` gives objects of the classes."""
    classes = [it for it in metamodel.classes.values() if not it.abstract]
    yield ''
    yield 'class Repository(mmrepo.Repository):'
    yield '    def __enter__(self) -> Repository: ...'
    ignored = '  # type: ignore[override]'
    for eclass in classes:
        if len(classes) > 1:
            yield f'    @overload{ignored if eclass is classes[0] else ""}'
        made = f'def create(self, eclass: Literal[{eclass.name!r}], /, **features: Any) -> {_type(eclass.name)}: ...'
        yield f'    {made}{ignored if len(classes) == 1 else ""}'
