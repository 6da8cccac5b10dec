"""How a tool ends: with its output, or with one line that says what is wrong."""

from __future__ import annotations

import gc
import itertools
import os
import sys
from typing import Callable, Iterable, Iterator, NoReturn, Optional, Tuple

PIECE = 1 << 16  # bytes of one read


class ToolError(Exception):
    """A fault of the input. The message is the line that the user reads."""


def fault(file: str, line: Optional[int], text: str) -> NoReturn:
    """Ends with a fault at a line of a file."""
    place = file if line is None else f'{file}:{line}'
    raise ToolError(f'{place}: {text}')


def one_line(text: str) -> str:
    """The text without line breaks and other control characters, so that it prints as one line."""
    return ''.join(char if char.isprintable() else ' ' for char in text)


def run(name: str, main: Callable[[], int]) -> NoReturn:
    """Runs a tool and ends the process, with the status of the tool, or with 1 for a fault, which is printed in one line."""
    gc.disable()  # what is read stays until the end, and a search for cycles would look through all of it again and again
    try:
        status = main()
        sys.stdout.flush()
        sys.exit(status)
    except ToolError as found:
        text = str(found)
    except RecursionError:
        text = 'the input nests too deep'
    except MemoryError:
        text = 'the input is too large for the memory'
    except OSError as found:
        text = f'the output cannot be written: {found.strerror}'
        os.dup2(os.open(os.devnull, os.O_WRONLY), sys.stdout.fileno())
    clear = '\r\033[K' if sys.stderr.isatty() else ''
    print(clear + one_line(f'{name}: {text}'), file=sys.stderr)
    sys.exit(1)


def read_bytes(path: str) -> bytes:
    """The bytes of a file; `-` is the standard input."""
    try:
        if path == '-':
            return sys.stdin.buffer.read()
        with open(path, 'rb') as file:
            return file.read()
    except (OSError, ValueError) as found:
        fault(path, None, getattr(found, 'strerror', None) or str(found))


def pieces(path: str) -> Tuple[int, Iterator[bytes]]:
    """The length of a file, which is 0 for the standard input, and its bytes piece by piece."""
    try:
        file = sys.stdin.buffer if path == '-' else open(path, 'rb')
        length = 0 if path == '-' else os.fstat(file.fileno()).st_size
        first = file.read(PIECE)
    except (OSError, ValueError) as found:
        fault(path, None, getattr(found, 'strerror', None) or str(found))
    return length, itertools.chain([first], iter(lambda: file.read(PIECE), b''))


def write_pieces(path: Optional[str], made: Iterable[bytes]) -> None:
    """Writes bytes to a file, or to the standard output."""
    if path is None:
        for piece in made:
            sys.stdout.buffer.write(piece)
        return
    try:
        with open(path, 'wb') as file:
            for piece in made:
                file.write(piece)
    except (OSError, ValueError) as found:
        fault(path, None, getattr(found, 'strerror', None) or str(found))


def write_text(path: Optional[str], text: str) -> None:
    """Writes a text in UTF-8 to a file, or to the standard output."""
    write_pieces(path, [text.encode('utf-8')])
