"""The errors of this package. Each of them is a MmrepoError."""

from __future__ import annotations

from typing import TYPE_CHECKING, Any, Callable, Optional, Sequence, Tuple

if TYPE_CHECKING:
    from .findings import Finding
    from .folders import Folder

REFUSED = 'metamodel refused: '  # before the fault, in what the program says
SOME = 10  # findings that a message shows
SHOWN = 200  # the most characters of a line that a message shows


def shown(line: str) -> str:
    """The beginning of a line, as a message shows it."""
    return line if len(line) <= SHOWN else line[:SHOWN] + ' ..'


class MmrepoError(Exception):
    """The base of all errors of this package."""


class Refused(MmrepoError):
    """A command was refused: it has changed nothing. docs/SCRIPT.md lists the refusals.

    `number` and `name` identify the refusal, as 8 and `TYPE`. `cause` has the number and the name of the cause if a document
    was refused, else it is None. `explained` has a line for each thing to fix in the document, in the words of `--explain`.
    `command` is the line of the script.
    """

    def __init__(
        self, command: str, number: int, name: str, cause: Optional[Tuple[int, str]] = None, explained: Sequence[str] = ()
    ) -> None:
        super().__init__(command, number, name, cause, explained)
        self.command = command
        self.number = number
        self.name = name
        self.cause = cause
        self.explained = tuple(explained)

    def __str__(self) -> str:
        cause = f' {self.cause[0]} {self.cause[1]}' if self.cause else ''
        said = f'refused {self.number} {self.name}{cause}: {shown(self.command)}'
        return '\n'.join([said, *self.explained])


class IndexRefused(Refused, IndexError):
    """The refusal 10 INDEX: an index is past the end of a list."""


class BadLine(MmrepoError):
    """The program does not know a command, since it is older than this package. `command` is the line."""

    def __init__(self, command: str) -> None:
        super().__init__(command)
        self.command = command

    def __str__(self) -> str:
        return f'the program does not know the line: {shown(self.command)}'


class MetamodelRefused(MmrepoError):
    """The metamodel has a fault. `fault` is the message of the program, as `7 CYCLE class 0`; docs/METAMODEL.md lists the
    faults. `explained` has a line for each thing to fix, in the words of `--explain`.
    """

    def __init__(self, file: str, fault: str, explained: Sequence[str] = ()) -> None:
        super().__init__(file, fault, explained)
        self.file = file
        self.fault = fault
        self.explained = tuple(explained)

    def __str__(self) -> str:
        return '\n'.join([f'{self.file}: metamodel refused: {self.fault}', *self.explained])


class JournalRefused(MmrepoError):
    """The program does not take a journal, and leaves it as it is. `fault` is the message of the program, as `IN_USE`;
    docs/JOURNAL.md lists the faults. `explained` has the words of `--explain`.
    """

    def __init__(self, file: str, fault: str, explained: Sequence[str] = ()) -> None:
        super().__init__(file, fault, explained)
        self.file = file
        self.fault = fault
        self.explained = tuple(explained)

    def __str__(self) -> str:
        return '\n'.join([f'{self.file}: journal refused: {self.fault}', *self.explained])


class ProgramError(MmrepoError):
    """The program can't be used, and its process is ended.

    `status` is the exit status of a process that ended by itself, else None; a negative status is the signal that ended it.
    `said` is what the process wrote on standard error.
    """

    def __init__(self, why: str, status: Optional[int] = None, said: str = '') -> None:
        super().__init__(why, status, said)
        self.why = why
        self.status = status
        self.said = said

    def __str__(self) -> str:
        status = '' if self.status is None else f', status {self.status}'
        said = f': {self.said}' if self.said else ''
        return f'{self.why}{status}{said}'


class NotStarted(ProgramError):
    """No engine can be started: for example, there is no program or library of the name, or the system can't run or load it."""


class ProgramEnded(ProgramError):
    """The program ended before it answered."""


class ReplyCut(ProgramError):
    """The program ended in the middle of an answer."""


class ReplyNotUnderstood(ProgramError):
    """The program's answer is not one that the command can have."""


class CallableFailed(MmrepoError):
    """An attached callable raised an error, which is the `__cause__`.

    The command was done, all other callables were called with their notifications, and the repository goes on. `callable` is
    the one that failed, and `notice` the notification that it was called with.
    """

    def __init__(self, callable: Callable[..., Any], notice: Any) -> None:
        super().__init__(callable, notice)
        self.callable = callable
        self.notice = notice

    def __str__(self) -> str:
        return f'{self.callable!r} failed on {self.notice!r}: {self.__cause__!r}'


class NotOpened(MmrepoError):
    """A folder was opened with `strict`, and something could not be loaded or resolved. The repository has everything else.
    `folder` is the folder; its `findings` say what is wrong.
    """

    def __init__(self, folder: Folder) -> None:
        super().__init__(folder)
        self.folder = folder

    def __str__(self) -> str:
        return f'{self.folder.path}: {_counted(self.folder.findings)}'


class NotLoaded(MmrepoError):
    """Files of a shard could not be loaded; or a resource was to be made for a file of a folder, and that file could not be loaded
    when the folder was opened. `findings` give the reason for each file. `what` is the shard, or the name of the file.
    """

    def __init__(self, findings: Sequence[Finding], what: str = 'the shard') -> None:
        super().__init__(findings, what)
        self.findings = list(findings)
        self.what = what

    def __str__(self) -> str:
        return f'{self.what} is not loaded: {_counted(self.findings)}'


class NotSaved(MmrepoError):
    """Nothing was written, since a file can't be saved. `findings` give the reason for each file."""

    def __init__(self, findings: Sequence[Finding]) -> None:
        super().__init__(findings)
        self.findings = list(findings)

    def __str__(self) -> str:
        return f'nothing was written: {_counted(self.findings)}'


def _counted(findings: Sequence[Finding]) -> str:
    """How many findings there are, and the first of them."""
    more = '' if len(findings) <= SOME else f'\n.. and {len(findings) - SOME} more'
    return f'{len(findings)} finding{"" if len(findings) == 1 else "s"}\n' + '\n'.join(it.line for it in findings[:SOME]) + more


class NotOwner(MmrepoError):
    """A repository was used by a thread other than the one that opened it, or by the child of a fork. Nothing was done."""


class RepositoryClosed(MmrepoError):
    """The repository takes no further commands. The message says why."""
