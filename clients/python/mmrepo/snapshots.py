"""What a node and all nodes below it have, as a dict that notifications keep up to date."""

from __future__ import annotations

from typing import TYPE_CHECKING, Any, Dict, List, Tuple, Union

from .notices import Kind, Notice
from .objects import EObject
from .values import value_of, values_of

if TYPE_CHECKING:
    from .resources import Resource
    from .session import Session

Node = Union['EObject', 'Resource']


class Snapshot(Dict[Node, Dict[str, Any]]):
    """The features of a node and of each node below it, by their names: a value, or a list of values. `snapshot` of a
    repository makes it.

    `replay` makes the change of a notification in the snapshot. If all notifications of a deep view of the node are replayed,
    the snapshot stays right for the node and for each node that stays below it; this is proved of the repository's own
    snapshots. A node that comes below it later is not in the snapshot.
    """

    def replay(self, notice: Notice) -> None:
        """Makes the change of a notification in the snapshot. A notification of a node that the snapshot does not have changes
        nothing.
        """
        features = self.get(notice.notifier)
        if features is None or notice.feature is None:
            return
        name, value = notice.feature, features.get(notice.feature)
        if not isinstance(value, list):
            features[name] = notice.new
        elif notice.kind is Kind.ADD:
            value.insert(notice.position, notice.new)
        elif notice.kind is Kind.REMOVE:
            del value[notice.position]
        elif notice.kind is Kind.MOVE:
            value.insert(notice.position, value.pop(notice.old))
        elif notice.kind is Kind.RESOLVE:
            value[notice.position] = notice.new


def snapshot_of(session: Session, node: Node) -> Snapshot:
    """The snapshot of a node."""
    found = Snapshot()
    if isinstance(node, EObject):
        roots = [node]
    else:
        roots = node.eContents
        found[node] = {'contents': list(roots)}
    objects = [it for root in roots for it in (root, *root.eAllContents())]
    asked: List[Tuple[EObject, str, bool]] = [
        (it, feature.name, feature.many) for it in objects for feature in it.eClass.eAllStructuralFeatures()
    ]
    answers = session.answers([f'get {it._word} {name}' for it, name, _ in asked])
    for (it, name, many), answer in zip(asked, answers):
        read = values_of if many else value_of
        found.setdefault(it, {})[name] = read(answer, session.named)
    return found
