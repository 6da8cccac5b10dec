"""Prints the findings of a check: for a reader, as JSON, or as annotations of a workflow."""

from __future__ import annotations

import json
from typing import Dict, List, TextIO, Type

from .findings import Finding


class Counts:
    """How many files and objects were checked, how many findings there are, and how many files have findings."""

    def __init__(self) -> None:
        self.files = self.objects = self.findings = self.faulty = 0

    @property
    def text(self) -> str:
        """The counts in one line."""
        found = f'{self.findings:,} finding{"" if self.findings == 1 else "s"} in {self.faulty:,} of ' if self.findings else 'no findings in '
        return f'{found}{self.files:,} file{"" if self.files == 1 else "s"} with {self.objects:,} object{"" if self.objects == 1 else "s"}'


class Report:
    """Prints a line for each finding, and the counts."""

    def __init__(self, out: TextIO) -> None:
        self._out = out

    def add(self, finding: Finding) -> None:
        """Prints a finding, whose file is a path."""
        self._print(_on_one_line(finding.line))

    def end(self, counts: Counts) -> None:
        """Prints the counts."""
        self._print(counts.text)

    def _print(self, text: str) -> None:
        self._out.write(text + '\n')


class JsonReport(Report):
    """Prints one JSON document, with a line for each finding."""

    def __init__(self, out: TextIO) -> None:
        super().__init__(out)
        self._separator = '{"findings":['

    def add(self, finding: Finding) -> None:
        self._out.write(self._separator + '\n' + json.dumps(finding.record()))
        self._separator = ','

    def end(self, counts: Counts) -> None:
        start = '' if counts.findings else self._separator
        rest: Dict[str, int] = {'count': counts.findings, 'faulty': counts.faulty, 'files': counts.files, 'objects': counts.objects}
        self._print(f'{start}\n],' + json.dumps(rest, separators=(',', ':'))[1:])


class GithubReport(Report):
    """Prints a workflow command of GitHub for each finding. The command makes the finding an annotation of its file."""

    def add(self, finding: Finding) -> None:
        file = _escaped(finding.file).replace(':', '%3A').replace(',', '%2C')
        text = ': '.join(part for part in (finding.place, finding.text) if part)
        self._print(f'::error file={file},title={finding.kind}::{_escaped(text)}')


REPORTS: Dict[str, Type[Report]] = {'text': Report, 'json': JsonReport, 'github': GithubReport}


def _escaped(text: str) -> str:
    """A text as it is escaped in a workflow command."""
    return text.replace('%', '%25').replace('\r', '%0D').replace('\n', '%0A')


def _on_one_line(text: str) -> str:
    """A text without line breaks, and without characters that can't be printed."""
    parts: List[str] = [char if char.isprintable() else char.encode('unicode_escape', 'surrogatepass').decode() for char in text]
    return ''.join(parts)
