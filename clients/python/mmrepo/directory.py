"""The files below a directory. No name leads out of the directory, and no symbolic link is followed."""

from __future__ import annotations

import errno
import os
import secrets
import stat
from contextlib import contextmanager
from hashlib import blake2b
from typing import Iterable, Iterator, List, NamedTuple, Optional, Sequence, Tuple, Union

_FOLDER = os.O_RDONLY | os.O_DIRECTORY | os.O_NOFOLLOW | os.O_CLOEXEC
_READ = os.O_RDONLY | os.O_NOFOLLOW | os.O_NONBLOCK | os.O_CLOEXEC  # a pipe without a writer is opened too, and then refused
_MAKE = os.O_WRONLY | os.O_CREAT | os.O_EXCL | os.O_NOFOLLOW | os.O_CLOEXEC
LINK = 'it is a symbolic link, which is not followed'


def digest_of(content: bytes) -> bytes:
    """The hash of a content, by which contents are compared."""
    return blake2b(content, digest_size=16).digest()


def checked_name(name: str) -> str:
    """The name of a file below a directory, as `sub/town.json`. Raises a ValueError if it may lead out of the directory."""
    parts = name.split('/')
    if any(part in ('', '.', '..') for part in parts) or '\0' in name:
        raise ValueError(f'{name!r} does not name a file below the folder')
    return name


def reason(error: OSError) -> str:
    """Why a file can't be read or written."""
    return LINK if error.errno == errno.ELOOP else f"it can't be read: {error.strerror}"


class State(NamedTuple):
    """A file at one moment: the hash of its content, its mode, and a mark that differs after a change of the file."""

    digest: bytes
    mode: int
    mark: Tuple[int, ...]


class Directory:
    """A directory, and the files below it by their names, as `sub/town.json`."""

    def __init__(self, path: Union[str, os.PathLike]) -> None:
        """The directory of a path, which may itself be a symbolic link. Raises an OSError if it is not a directory."""
        self.path = os.fspath(path)
        self._real = os.path.realpath(self.path)
        os.close(os.open(self._real, _FOLDER))

    def full(self, name: str) -> str:
        """The path of a file, for a reader and for other programs."""
        return os.path.join(self.path, name)

    def name_of(self, path: str) -> Optional[str]:
        """The name of the file of a path; None if the file is not below the directory."""
        name = os.path.relpath(os.path.realpath(path), self._real)
        return None if name.split('/')[0] in ('.', '..') else name

    def names(self, suffixes: Sequence[str]) -> Tuple[List[str], List[Tuple[str, str]]]:
        """The files whose names have one of the suffixes, in order; and the names that are refused, each with the reason."""
        names: List[str] = []
        refused: List[Tuple[str, str]] = []
        fd = os.open(self._real, _FOLDER)
        try:
            _look(fd, '', tuple(suffixes), names, refused)
        finally:
            os.close(fd)
        return sorted(names), sorted(refused)

    @contextmanager
    def _folder(self, name: str, makes: bool = False) -> Iterator[Tuple[int, str]]:
        """The open directory of a file, and the file's name there. If `makes` is set, directories on the way are made."""
        *folders, leaf = checked_name(name).split('/')
        fd = os.open(self._real, _FOLDER)
        try:
            for folder in folders:
                if makes:
                    try:
                        os.mkdir(folder, dir_fd=fd)
                        os.fsync(fd)
                    except FileExistsError:
                        pass
                below = os.open(folder, _FOLDER, dir_fd=fd)
                os.close(fd)
                fd = below
            yield fd, leaf
        finally:
            os.close(fd)

    def read(self, name: str) -> bytes:
        """The content of a file. Raises an OSError for a symbolic link, and for anything else that is not a regular file."""
        return self._read(name)[0]

    def _read(self, name: str) -> Tuple[bytes, os.stat_result]:
        with self._folder(name) as (fd, leaf), open(os.open(leaf, _READ, dir_fd=fd), 'rb') as file:
            status = os.fstat(file.fileno())
            if not stat.S_ISREG(status.st_mode):
                raise OSError(errno.EINVAL, 'it is no regular file', name)
            return file.read(), status

    def has(self, name: str) -> bool:
        """Whether something has the name of a file; a link or a folder counts."""
        try:
            with self._folder(name) as (fd, leaf):
                os.stat(leaf, dir_fd=fd, follow_symlinks=False)
                return True
        except (OSError, ValueError):
            return False

    def state(self, name: str) -> Optional[State]:
        """The state of a file; None if there is none. Raises an OSError as `read` does."""
        try:
            content, status = self._read(name)
        except FileNotFoundError:
            return None
        return State(digest_of(content), stat.S_IMODE(status.st_mode), _mark(status))

    def is_as(self, name: str, state: Optional[State]) -> bool:
        """Whether a file still has a state: nobody has changed it."""
        try:
            with self._folder(name) as (fd, leaf):
                mark = _mark(os.stat(leaf, dir_fd=fd, follow_symlinks=False))
        except FileNotFoundError:
            return state is None
        return state is not None and mark == state.mark

    def replacement(self, name: str, content: bytes, mode: Optional[int]) -> Replacement:
        """New content for a file, written to the disk. `put` puts it in the file's place."""
        leaf = f'.mmrepo-{secrets.token_hex(8)}.tmp'
        with self._folder(name, True) as (fd, _):
            with open(os.open(leaf, _MAKE, 0o666, dir_fd=fd), 'wb') as file:
                try:
                    file.write(content)
                    file.flush()
                    if mode is not None:
                        os.fchmod(file.fileno(), mode)
                    os.fsync(file.fileno())
                except BaseException:
                    os.unlink(leaf, dir_fd=fd)
                    raise
        return Replacement(self, name, leaf)

    def sync(self, names: Iterable[str]) -> None:
        """Syncs the folders of some files, so that the names of the files are on the disk."""
        for name in {name.rpartition('/')[0]: name for name in names}.values():
            with self._folder(name) as (fd, _):
                os.fsync(fd)


class Replacement:
    """New content of a file. The new content is in a second file beside the first, until `put` puts the second file in the place
    of the first in one step. A crash leaves the old content or the new one, and perhaps the second file, whose name begins with
    `.mmrepo-`.
    """

    def __init__(self, directory: Directory, name: str, temporary: str) -> None:
        self._directory, self._name, self._temporary = directory, name, temporary
        self._is_done = False

    def put(self) -> None:
        """Puts the second file in the place of the first."""
        with self._directory._folder(self._name) as (fd, leaf):
            os.rename(self._temporary, leaf, src_dir_fd=fd, dst_dir_fd=fd)
            self._is_done = True

    def drop(self) -> None:
        """Deletes the second file, unless it was put in the place of the first."""
        if not self._is_done:
            self._is_done = True
            with self._directory._folder(self._name) as (fd, _):
                os.unlink(self._temporary, dir_fd=fd)


def _look(fd: int, above: str, suffixes: Tuple[str, ...], names: List[str], refused: List[Tuple[str, str]]) -> None:
    """Adds the files of an open directory and of the directories below it, and the names that are refused."""
    with os.scandir(fd) as entries:
        found = list(entries)
    for entry in found:
        name, is_wanted = above + entry.name, entry.name.endswith(suffixes)
        if entry.is_symlink():
            if is_wanted or _leads_to_folder(entry):
                refused.append((name, LINK))
        elif entry.is_dir(follow_symlinks=False):
            try:
                below = os.open(entry.name, _FOLDER, dir_fd=fd)
            except OSError as error:
                refused.append((name, reason(error)))
                continue
            try:
                _look(below, f'{name}/', suffixes, names, refused)
            finally:
                os.close(below)
        elif is_wanted and entry.is_file(follow_symlinks=False):
            names.append(name)
        elif is_wanted:
            refused.append((name, 'it is no regular file'))


def _leads_to_folder(entry: os.DirEntry) -> bool:
    """Whether a link leads to a directory. False if it leads nowhere, or is part of a cycle of links."""
    try:
        return entry.is_dir()
    except OSError:
        return False


def _mark(status: os.stat_result) -> Tuple[int, ...]:
    """Values of which each change of the file changes at least one."""
    return status.st_dev, status.st_ino, status.st_size, status.st_mtime_ns, status.st_ctime_ns
