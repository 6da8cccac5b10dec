"""Notes of what a tool changes or leaves out, by kind and name. Losses of content come first, and are counted at the end."""

from __future__ import annotations

import sys
from collections import Counter
from dataclasses import dataclass, field
from typing import Dict, List, Optional, Tuple

from .faults import one_line

MOST = 10  # so many notes of one kind and name are printed, the others counted
LONGEST = 100  # the most characters of a name in a note
UNTOLD = ('package', 'annotation', 'operation', 'instance class')  # kinds that lose nothing, and are counted
LOST = 3  # with --strict, the status of a tool that left out content


def shortened(text: str, most: int = LONGEST) -> str:
    """A text that is cut to what fits on a line."""
    return text if len(text) <= most else text[:most - 1] + '…'


def counted(count: int, kind: str) -> str:
    """A number of things of a kind."""
    return f'{count} {kind}' + ('' if count == 1 else 'es' if kind.endswith('s') else 's')


@dataclass(frozen=True)
class Note:
    """A part that could not be taken over as it is: its kind, its name, its line if it is at one, and what became of it."""

    kind: str
    name: str
    line: Optional[int]
    text: str

    @property
    def place(self) -> str:
        """The name with the line."""
        return self.name if self.line is None else f'{self.name} in line {self.line}'


@dataclass
class Notes:
    """The notes of one run, in order. `objects_below` counts the objects that were left out with what contains them."""

    losses: List[Note] = field(default_factory=list)
    told: List[Note] = field(default_factory=list)
    counts: Dict[Tuple[str, str], int] = field(default_factory=dict)
    lost: Dict[str, int] = field(default_factory=Counter)
    objects_below: int = 0

    def tell(self, kind: str, name: str, text: str, line: Optional[int] = None, loses: bool = False) -> None:
        """Adds a note. Of many notes of one kind and name, at lines of a file, the first are kept and the others counted."""
        key = (kind, name)
        self.lost[kind] += loses
        if line is not None:
            self.counts[key] = self.counts.get(key, 0) + 1
        if self.counts.get(key, 0) <= MOST:
            made = Note(kind, shortened(one_line(name)), line, one_line(text))
            (self.losses if loses else self.told).append(made)

    def all(self) -> List[Note]:
        """The notes, those of losses first, and then how many more there are of a kind and name."""
        more = [
            Note(kind, shortened(one_line(name)), None, f'{count - MOST} more')
            for (kind, name), count in self.counts.items() if count > MOST
        ]
        return self.losses + self.told + more

    def sums(self) -> List[str]:
        """How many things were left out: those without content, and those with content."""
        untold = Counter(note.kind for note in self.told if note.kind in UNTOLD)
        lines = [f'{", ".join(counted(untold[kind], kind) for kind in UNTOLD if kind in untold)} left out without a loss'] if untold else []
        lost = ', '.join(counted(count, kind) for kind, count in self.lost.items() if count)
        if lost:
            below = f', {counted(self.objects_below, "object")} below' if self.objects_below else ''
            lines.append(f'{lost} left out{below}' + (below and (' it' if sum(self.lost.values()) == 1 else ' them')))
        return lines

    def print_lines(self, tool: str) -> None:
        """Prints a line for each note on standard error."""
        for note in self.all():
            if note.kind not in UNTOLD:
                print(f'{tool}: {note.kind} {note.place}: {note.text}', file=sys.stderr)
        for line in self.sums():
            print(f'{tool}: {line}', file=sys.stderr)

    def table(self) -> str:
        """The notes as a Markdown table."""
        rows = [('Kind', 'Name', 'What became of it'), ('---', '---', '---')]
        rows += [(note.kind, note.place, note.text) for note in self.all()]
        return ''.join('| ' + ' | '.join(cell.replace('|', '\\|') for cell in row) + ' |\n' for row in rows)

    def end(self, tool: str, is_report: bool, is_strict: bool) -> int:
        """Prints the notes, as lines or as a whole table, and returns the status of the tool."""
        if is_report:
            sys.stderr.write(self.table())
        else:
            self.print_lines(tool)
        return LOST if is_strict and any(self.lost.values()) else 0
