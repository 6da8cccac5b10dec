"""`python3 -m mmrepo shell META [PATH]`: a prompt for the lines of a script. docs/FOLDERS.md is the page on it."""

from __future__ import annotations

import argparse
import os
import sys
from contextlib import suppress
from typing import Callable, Dict, Iterable, Iterator, List, Optional, Sequence

from .completion import Completion
from .drawing import LINES, Drawing
from .errors import MmrepoError, NotSaved, NotStarted
from .folders import Folder
from .loading import XMI_FILES
from .process import program_file
from .repository import Repository
from .uris import BASE

HISTORY = 'MMREPO_HISTORY'  # the file of the history, in the environment
REMEMBERED = 1_000  # lines of the history
WRONG_USE, ENDED = 2, 3
HELP = """Each line of docs/SCRIPT.md is a command, as: new Book, set #0 name "Emma", get #0 books. The shell has further ones:
  tree [NODE [LINES]]  draws an object or a resource with all that it contains; without a node, all resources
  show OBJ             shows all features of an object
  changed              names the files that saveall would write
  saveall [force]      writes the files that have changed (docs/FOLDERS.md)
  help, quit"""


class Shell:
    """Answers lines: the lines of a script, and the shell's own commands."""

    def __init__(self, repo: Repository, folder: Optional[Folder], out: Callable[[str], None], says: Callable[[str], None]) -> None:
        """Answers go to `out`, and messages to `says`."""
        self._repo, self._folder, self._out, self._says = repo, folder, out, says
        self._session = repo._session
        self._is_warned = False
        self.is_over = False
        self.drawing = Drawing(self._session, repo.metamodel)
        self.own: Dict[str, Callable[[Sequence[str]], None]] = {
            'tree': self._tree, 'show': self._show, 'changed': self._changed, 'saveall': self._save_all, 'help': self._help,
            'quit': self._quit, 'exit': self._quit,
        }

    def answer(self, line: str) -> None:
        """Answers a line for a reader: the names of the objects follow below the answer."""
        words = line.split()
        own = self.own.get(words[0]) if words else None
        if own != self._quit:
            self._is_warned = False
        if own is not None:
            own(words[1:])
            return
        for answer in self.scripted(line):
            self._out(answer)
            for below in self.drawing.answered(answer):
                self._out(below)

    def scripted(self, line: str, number: Optional[int] = None) -> List[str]:
        """The lines that a script prints for a line. A message says what is wrong with the line, and its number."""
        try:
            answers = self._session.raw(line)
        except ValueError as error:
            self._says(_numbered(number, 'it is not UTF-8' if isinstance(error, UnicodeError) else str(error)))
            return ['bad line']
        if answers and answers[0].startswith(('refused ', 'bad line')):
            for said in self._session.explained(line):
                self._says(_numbered(number, said))
        return answers

    def _tree(self, words: Sequence[str]) -> None:
        """Draws a node, or all resources."""
        if len(words) > 2 or len(words) == 2 and not words[1].isdigit():
            self._says('tree is written as: tree [NODE [LINES]]')
            return
        most = max(1, int(words[1])) if len(words) == 2 else LINES
        for node in words[:1] or [it._word for it in self._repo.resources]:
            for line in self.drawing.tree(node, most):
                self._out(line)

    def _show(self, words: Sequence[str]) -> None:
        """Shows the features of an object."""
        if len(words) != 1 or self.drawing.class_of(words[0]) is None:
            self._says('show is written as: show OBJ, of an object that is there, as show #0')
            return
        for line in self.drawing.features(words[0]):
            self._out(line)

    def _changed(self, _: Sequence[str]) -> None:
        """Names the files that have changed."""
        for name in self._unsaved():
            self._out(name)

    def _unsaved(self) -> List[str]:
        """The paths of the files that have changed."""
        return [str(it.path) for it in self._folder.changed()] if self._folder else []

    def _save_all(self, words: Sequence[str]) -> None:
        """Writes the files that have changed."""
        if self._folder is None:
            self._says('no folder is open: python3 -m mmrepo shell META PATH opens one')
            return
        try:
            for path in self._repo.save_all(force=list(words) == ['force']):
                self._out(f'saved {path}')
        except (NotSaved, OSError) as error:
            self._says(str(error))

    def _help(self, _: Sequence[str]) -> None:
        self._out(HELP)

    def _quit(self, _: Sequence[str]) -> None:
        """Ends the shell; if files have changed, only at the second of two `quit` in a row."""
        unsaved = self._unsaved()
        self.is_over = self._is_warned or not unsaved
        if not self.is_over:
            self._is_warned = True
            self._says(f'not saved: {", ".join(unsaved)}; saveall writes them, and quit once more leaves them')

    def end(self) -> None:
        """Says at the end of the input which files are not saved."""
        unsaved = self._unsaved()
        if unsaved and not self.is_over:
            self._says(f'not saved: {", ".join(unsaved)}')


def add_arguments(parser: argparse.ArgumentParser) -> None:
    """The arguments of the command."""
    parser.add_argument('metamodel', metavar='META', help='the file of the metamodel')
    parser.add_argument('path', nargs='?', metavar='PATH', help='a folder, which is opened')
    parser.add_argument('--base', default=BASE, metavar='URI', help=f'the URI of the folder ({BASE})')
    parser.add_argument('--ecore', action='append', default=[], metavar='FILE', help='an Ecore file of the metamodel: *.xmi are read too')
    parser.add_argument('--suffix', action='append', default=[], metavar='TEXT', help='the ending of XMI files, in place of .xmi')
    parser.add_argument(
        '--script', nargs='?', const='-', metavar='FILE', help='answers the lines of a file, or of standard input, as the program does'
    )


def main(words: argparse.Namespace) -> int:
    """Opens the folder, and answers lines to the end of the input."""
    sys.stdout.reconfigure(errors='backslashreplace')
    sys.stderr.reconfigure(errors='backslashreplace')
    try:
        repo = Repository(words.metamodel, _program())
        folder = repo.open(words.path, words.base, words.ecore, False, words.suffix or XMI_FILES) if words.path else None
        lines = _lines_of(words.script) if words.script else None
    except (OSError, ValueError, MmrepoError) as error:
        print(f'error: {error}', file=sys.stderr)
        return WRONG_USE
    shell = Shell(repo, folder, print, lambda text: print(text, file=sys.stderr))
    try:
        if lines is not None:
            _run_script(shell, lines)
        else:
            _begin(folder)
            _run_prompt(shell, repo)
        repo.close()
    except KeyboardInterrupt:
        print('error: interrupted', file=sys.stderr)
        return ENDED
    except (MmrepoError, NotStarted) as error:
        print(f'error: {error}', file=sys.stderr)
        return ENDED
    return 0


def _program() -> Optional[str]:
    """The program, which explains lines that are wrong; None if there is only the library."""
    try:
        return program_file(None)
    except NotStarted:
        return None


def _lines_of(file: str) -> Iterator[str]:
    """The lines of a script, each without its newline. Bytes that are not UTF-8 are kept."""
    stream = sys.stdin.buffer if file == '-' else open(file, 'rb')

    def read() -> Iterator[str]:
        with stream:
            for line in stream:
                yield line.rstrip(b'\n').decode('utf-8', 'surrogateescape')

    return read()


def _run_script(shell: Shell, lines: Iterable[str]) -> None:
    """Prints what a script prints."""
    for number, line in enumerate(lines, 1):
        for answer in shell.scripted(line, number):
            print(answer)
        sys.stdout.flush()
    shell.end()


def _begin(folder: Optional[Folder]) -> None:
    """Says what was opened."""
    if folder is not None:
        for finding in folder.findings:
            print(finding.line, file=sys.stderr)
        for resource in folder.resources:
            print(f'{resource._word} {resource.path}')


def _run_prompt(shell: Shell, repo: Repository) -> None:
    """Asks for lines, with a history and completion if there is a terminal."""
    is_terminal = sys.stdin.isatty()
    remember = _edit_lines(shell, repo) if is_terminal else (lambda: None)
    try:
        while not shell.is_over:
            try:
                shell.answer(input('> ') if is_terminal else _next_line())
            except EOFError:
                shell.end()
                break
            except KeyboardInterrupt:
                print()  # what was typed is thrown away; a line that was given is answered
    finally:
        remember()


def _next_line() -> str:
    """The next line of standard input. Raises an EOFError at its end."""
    line = sys.stdin.buffer.readline()
    if not line:
        raise EOFError
    return line.rstrip(b'\n').decode('utf-8', 'surrogateescape')


def _edit_lines(shell: Shell, repo: Repository) -> Callable[[], None]:
    """Reads the history, and completes words at the tabulator key. Returns a function that writes the history. Without
    `readline` nothing is read or completed, and the function does nothing.
    """
    try:
        import readline
    except ImportError:
        return lambda: None
    completion = Completion(repo.metamodel, shell.drawing.class_of, list(shell.own))
    found: List[str] = []

    def complete(begun: str, state: int) -> Optional[str]:
        if state == 0:
            before = readline.get_line_buffer()[:readline.get_begidx()].split()
            found[:] = completion.candidates(before, begun)
        return found[state] + ' ' if state < len(found) else None

    file = os.environ.get(HISTORY) or os.path.expanduser('~/.mmrepo_history')
    with suppress(OSError):
        readline.read_history_file(file)
    readline.set_history_length(REMEMBERED)
    readline.set_completer_delims(' ')
    readline.set_completer(complete)
    readline.parse_and_bind('tab: complete')

    def remember() -> None:
        with suppress(OSError):
            readline.write_history_file(file)

    return remember


def _numbered(number: Optional[int], said: str) -> str:
    """What is said of a line, after the number of the line if it has one."""
    return said if number is None else f'line {number}: {said}'
