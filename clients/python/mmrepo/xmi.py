"""XMI files of a folder, by the tools for Ecore and XMI (docs/ECORE.md), which run as programs."""

from __future__ import annotations

import os
import re
import shutil
import subprocess
import sys
import tempfile
from pathlib import Path
from typing import Dict, List, NamedTuple, Sequence

from .directory import Directory
from .errors import MmrepoError

TOOLS = 'MMREPO_TOOLS'  # the folder of the tools, in the environment
HEAD = 4_096  # bytes in which a root element names its package

_SPACE = re.compile(rb'\bnsURI\s*=\s*["\']([^"\']+)["\']')


class ToolFailed(MmrepoError):
    """A tool for Ecore and XMI is not there, or refused a file. The message says what is wrong."""


class Converted(NamedTuple):
    """The document of an XMI file, and a line for each part that was left out."""

    document: bytes
    notes: List[str]


def tool_file(name: str) -> str:
    """The file of a tool: in the folder that MMREPO_TOOLS names, else in `tools` beside `clients`, else on the PATH."""
    given = os.environ.get(TOOLS)
    beside = Path(__file__).resolve().parents[3] / 'tools' / name
    if given:
        found = str(Path(given, name))
    elif beside.is_file():
        found = str(beside)
    else:
        found = shutil.which(name) or ''
    if not os.path.isfile(found):
        raise ToolFailed(f'no tool {name}: name the folder of the tools by {TOOLS} in the environment')
    return found


class Xmi:
    """Reads and writes the XMI files of a folder, with the Ecore files of their packages."""

    def __init__(self, directory: Directory, ecore: Sequence[str], names: Sequence[str]) -> None:
        """`names` are the XMI files of the folder. References among them may go by names and ids."""
        self._directory = directory
        self._ecore = [os.path.abspath(file) for file in ecore]
        self._names = names
        self._aliases: Dict[str, List[bytes]] = {}

    def read(self, name: str, content: bytes) -> Converted:
        """The document of a file of this content. References to other files stay as they are written."""
        beside = [word for other in self._referred(name, content) for word in ('--beside', self._directory.full(other))]
        with tempfile.TemporaryDirectory() as room:
            output = os.path.join(room, 'document.json')
            said = self._run('xmi2doc', [*beside, '-o', output, self._directory.full(name)])
            notes = [line.partition(': ')[2] for line in self._with_names(said).splitlines()]
            return Converted(Path(output).read_bytes(), notes)

    def write(self, document: bytes) -> bytes:
        """The XMI of a document."""
        with tempfile.TemporaryDirectory() as room:
            file, output = os.path.join(room, 'document.json'), os.path.join(room, 'made.xmi')
            Path(file).write_bytes(document)
            self._run('doc2xmi', ['-o', output, file])
            return Path(output).read_bytes()

    def _referred(self, name: str, content: bytes) -> List[str]:
        """The other files to which the file may refer: its content has their name, or the URI of their package, before a `#`."""
        return [
            other for other in self._names
            if other != name and any(alias + b'#' in content for alias in self._aliases_of(other))
        ]

    def _aliases_of(self, name: str) -> List[bytes]:
        """What a reference to a file may have directly before its `#`: the file's name, or the URI of its package."""
        if name not in self._aliases:
            head = self._directory.read(name)[:HEAD]
            self._aliases[name] = [os.fsencode(name.rpartition('/')[2]), *_SPACE.findall(head)[:1]]
        return self._aliases[name]

    def _run(self, tool: str, words: Sequence[str]) -> str:
        """Runs a tool, and returns what it prints on standard error. Raises a ToolFailed if it refuses the file."""
        command = [sys.executable, tool_file(tool)]
        for file in self._ecore:
            command += ['--ecore', file]
        done = subprocess.run([*command, *words], stdin=subprocess.DEVNULL, stdout=subprocess.PIPE, stderr=subprocess.PIPE)
        said = done.stderr.decode('utf-8', 'replace')
        if done.returncode != 0:
            raise ToolFailed(self._with_names(said).strip())
        return said

    def _with_names(self, said: str) -> str:
        """What a tool says, with the names of files in place of their paths."""
        return said.replace(os.path.join(self._directory.path, ''), '')
