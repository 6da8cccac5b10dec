"""Findings: what is wrong with a file of a folder, and at which place of its document."""

from __future__ import annotations

import re
from typing import Dict, NamedTuple

_PLACED = re.compile(r'(roots(?:\[[0-9]+\]|\.[A-Za-z_][A-Za-z0-9_]*)*): (.*)', re.S)


class Finding(NamedTuple):
    """Something that is wrong with a file. `file` is its name in the folder, as `sub/town.json`.

    `kind` is the cause for which a document is refused, as `VALUE`; the refusal of a command, as `UNRESOLVED` or `LIMIT`; or
    `FILE`, `LONG`, `TOOL`, `LEFT_OUT`, `OUTSIDE`, `UNREAD`, `SHORT`, `CHANGED`. `place` is the place in the document, as
    `roots[0].features.books[3]`, or empty. `text` says what is wrong.
    """

    file: str
    kind: str
    place: str
    text: str

    @property
    def line(self) -> str:
        """The finding in one line."""
        return ': '.join(part for part in (self.file, self.place, self.text) if part)

    def record(self) -> Dict[str, str]:
        """The finding as a dict for JSON, by the names of its parts."""
        return dict(self._asdict())


def explained(file: str, kind: str, said: str) -> Finding:
    """The finding for a line of `--explain`, which may begin with a place."""
    found = _PLACED.fullmatch(said)
    return Finding(file, kind, *found.groups()) if found else Finding(file, kind, '', said)
