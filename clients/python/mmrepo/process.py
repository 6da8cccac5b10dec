"""The process of the program: a line goes to it, and the text of its answer comes back."""

from __future__ import annotations

import os
import shutil
import subprocess
import tempfile
from pathlib import Path
from typing import List, Optional, Sequence, Tuple, Union

from .engines import PROGRAM, Engine
from .errors import (
    REFUSED,
    JournalRefused,
    MetamodelRefused,
    MmrepoError,
    NotStarted,
    ProgramEnded,
    ReplyCut,
    ReplyNotUnderstood,
    shown,
)

LONGEST_LINE = 16_777_216  # bytes
TOGETHER = 32_768  # bytes of lines that are sent at once: a pipe of Linux holds twice as many, so the writing never waits for an answer
AT_ONCE = 65_536  # bytes that are read at once
SECONDS_TO_END = 60  # how long a program may take to end after its last line
JOURNAL_REFUSED = 'journal refused: '

_BESIDE = Path(__file__).resolve().parent / 'bin/mmrepo'


def program_file(given: Optional[str]) -> str:
    """The file of the program: the argument, else the file that MMREPO names, else the one that is installed with this package,
    else `mmrepo` on the PATH.
    """
    name = given or os.environ.get('MMREPO') or (str(_BESIDE) if _BESIDE.is_file() else 'mmrepo')
    found = shutil.which(name)
    if found is None:
        raise NotStarted(f'no program {name}: name it by program=, by MMREPO in the environment, or put mmrepo on the PATH')
    return found


class Program(Engine):
    """A program that runs in its live mode over a metamodel."""

    name = PROGRAM
    may_hang = True

    def __init__(self, file: str, metamodel: str, journal: Optional[str] = None) -> None:
        """Starts the program. Raises a NotStarted if the system does not run the file, a MetamodelRefused for a fault of the
        metamodel, and a JournalRefused if the program does not take the journal.
        """
        super().__init__()
        self._metamodel = metamodel
        self._journal = journal
        self._said = tempfile.TemporaryFile()
        self._said_before = 0  # how many bytes of its standard error were read
        self._sent = 0  # how many lines it was sent
        self._data: Union[bytes, bytearray] = b''  # what was read
        self._at = 0  # where the next answer begins in `_data`
        self._known = 0  # the offset in `_data` before which the next answer does not end
        command = [file, '--meta', os.path.abspath(metamodel), '--live', '--explain']
        if journal is not None:
            command += ['--journal', os.path.abspath(journal)]
        try:
            # In a session of its own the program gets no Ctrl-C from a terminal. Its standard error is a file, since a pipe could be full.
            self._process = subprocess.Popen(
                command, stdin=subprocess.PIPE, stdout=subprocess.PIPE, stderr=self._said, start_new_session=True, bufsize=0
            )
        except (OSError, ValueError) as found:
            self._said.close()
            raise NotStarted(f'{file} was not started: {found}') from found
        assert self._process.stdin is not None and self._process.stdout is not None
        self._input, self._output = self._process.stdin, self._process.stdout
        # A skipped line has an empty answer, which shows that the metamodel was accepted.
        if self.exchange(''):
            raise self.not_understood('', 'an answer to an empty line')

    def exchange(self, line: str) -> str:
        """The text that a line prints."""
        data = data_of(line) + b'\n'
        try:
            self._send(line, 1, data)
            return self._answer(line)
        except BaseException:
            # Half of an answer may still come, so nothing that is read from now on belongs to a line.
            self.end(f'the exchange of a line failed: {shown(line)}')
            raise

    def exchange_all(self, lines: Sequence[str]) -> List[str]:
        """The texts that lines print. Many lines are sent at once, which takes a fraction of the time."""
        waiting = [(line, data_of(line) + b'\n') for line in lines]
        answers: List[str] = []
        at = 0
        while at < len(waiting):
            end, size = at + 1, len(waiting[at][1])
            while end < len(waiting) and size + len(waiting[end][1]) <= TOGETHER:
                size += len(waiting[end][1])
                end += 1
            answers += self._exchange_some(waiting[at:end])
            at = end
        return answers

    def _exchange_some(self, lines: Sequence[Tuple[str, bytes]]) -> List[str]:
        """Sends some lines at once, and reads the answer to each."""
        first = lines[0][0]
        if self.is_shut:
            self.exchange(first)
        try:
            self._send(first, len(lines), b''.join(data for _, data in lines))
            return [self._answer(line) for line, _ in lines]
        except BaseException:
            self.end(f'the exchange of lines failed, from this one on: {shown(first)}')
            raise

    def _send(self, line: str, count: int, data: bytes) -> None:
        """Sends bytes that begin with a whole line."""
        try:
            sent = self._input.write(data)
            while sent < len(data):
                sent += self._input.write(memoryview(data)[sent:])
        except OSError:
            raise self._failure(line, False) from None
        self._sent += count

    def _answer(self, line: str) -> str:
        """Reads up to the empty line after the answer to a line."""
        end = self._end()
        while end is None:
            more = os.read(self._output.fileno(), AT_ONCE)
            if not more:
                raise self._failure(line, len(self._data) > self._at)
            if self._at == len(self._data):
                self._data, self._at, self._known = more, 0, 0
            else:
                if isinstance(self._data, bytes):
                    self._data = bytearray(self._data)
                self._data += more
            end = self._end()
        found = self._data[self._at:end]
        self._at = self._known = end + 1
        try:
            return found.decode('utf-8')
        except UnicodeDecodeError:
            raise self.not_understood(line, repr(bytes(found))) from None

    def _end(self) -> Optional[int]:
        """The offset, in what was read, of the empty line after the next answer; None if it was not read yet."""
        if self._data[self._at:self._at + 1] == b'\n':
            return self._at
        end = self._data.find(b'\n\n', self._known)
        if end < 0:
            self._known = max(self._at, len(self._data) - 1)
            return None
        return end + 1

    def explained(self, line: str, uri: Optional[str]) -> List[str]:
        """What `--explain` says of the line that was sent last, without its number. For most lines it says nothing."""
        start = f'line {self._sent}: '
        if self.exchange(''):  # when this empty line is answered, the explanation of the line before is complete
            raise self.not_understood('', 'an answer to an empty line')
        return [said[len(start):] for said in self._news().split('\n') if said.startswith(start)]

    def _news(self) -> str:
        """What the program wrote on standard error since the last call. Reading leaves the offset of the file, which is shared
        with the program, as it is.
        """
        size = os.fstat(self._said.fileno()).st_size
        data = os.pread(self._said.fileno(), size - self._said_before, self._said_before)
        self._said_before += len(data)
        return data.decode('utf-8', 'replace')

    def _failure(self, line: str, is_cut: bool) -> MmrepoError:
        """The error for a program that ended by itself, or that took no more input."""
        status, said = self._ending()
        if status == 1 and said.startswith(REFUSED):
            fault, *explained = said[len(REFUSED):].split('\n')
            return MetamodelRefused(self._metamodel, fault, explained)
        if status == 1 and said.startswith(JOURNAL_REFUSED):
            fault, *explained = said[len(JOURNAL_REFUSED):].split('\n')
            return JournalRefused(str(self._journal), fault, explained)
        kind = ReplyCut if is_cut else ProgramEnded
        what = 'the answer was cut' if is_cut else 'the program ended'
        return kind(f'{what}, at the line `{shown(line)}`', status, said)

    def _ending(self) -> Tuple[Optional[int], str]:
        """The status with which the process ended, or None if it was killed; and what it wrote on standard error."""
        try:
            status: Optional[int] = self._process.wait(SECONDS_TO_END)
        except subprocess.TimeoutExpired:
            status = None
        said = self._news().strip()
        self.end('the program ended')
        return status, said

    def not_understood(self, line: str, answer: str) -> ReplyNotUnderstood:
        """Ends the process, and returns the error for an answer that no command can have."""
        self.end('the program answered what no command answers')
        return ReplyNotUnderstood(f'not understood: {shown(answer)}, at the line `{shown(line)}`')

    def end(self, why: str) -> None:
        """Ends the process at once. Later lines raise a RepositoryClosed with the reason."""
        self.shut(why)
        self._process.kill()
        self._process.wait()
        for stream in (self._input, self._output, self._said):
            try:
                stream.close()
            except OSError:
                pass  # what was not written yet has no reader

    def abandon(self) -> None:
        """Leaves the process to the parent of a fork: only the streams are closed here."""
        super().abandon()
        self._process.returncode = 0
        for stream in (self._input, self._output, self._said):
            stream.close()

    def close(self) -> None:
        """Ends the input, and waits for the program. Raises a ProgramEnded if it ends with a status other than 0."""
        if self.is_shut:
            return
        self.shut('the repository is closed')
        try:
            self._process.communicate(timeout=SECONDS_TO_END)
        except subprocess.TimeoutExpired:
            self._process.kill()
        status, said = self._ending()
        if status != 0:
            raise ProgramEnded('the program ended, when it was closed', status, said)


def data_of(line: str) -> bytes:
    """The bytes of a line, without a newline. Raises a ValueError if they can't be read as one line."""
    data = line.encode('utf-8')
    if len(data) > LONGEST_LINE:
        raise ValueError(f'a line has at most {LONGEST_LINE} bytes, and this one {len(data)}')
    if b'\n' in data:
        raise ValueError('a line has no newline')
    return data
