"""`python3 -m mmrepo check META PATH..`: checks each document of folders. docs/FOLDERS.md is the page on it."""

from __future__ import annotations

import argparse
import os
import signal
import sys
from concurrent.futures import Executor, ProcessPoolExecutor
from contextlib import contextmanager
from functools import partial
from typing import Iterator, List, NamedTuple, Optional, Sequence, Tuple

from .checking import Scope, check_group
from .directory import Directory
from .errors import MmrepoError, NotStarted
from .findings import Finding
from .loading import XMI_FILES
from .progress import Progress
from .reports import REPORTS, Counts, Report
from .repository import Repository
from .shards import Models, groups, in_order, models_of
from .uris import BASE

OBJECTS = 20_000  # objects of a group: enough to hide the start of the program, and few enough that each process gets several groups
FOUND, WRONG_USE, NOT_FINISHED, INTERRUPTED = 1, 2, 3, 130
DASK = 'dask://'


class WrongUse(Exception):
    """The command can't be done with these arguments. The message says why."""


class Files(NamedTuple):
    """The files to check, by their names below a folder. The path of the folder is shown before the names."""

    root: str
    shown: str
    tops: Tuple[str, ...]
    names: List[str]
    refused: List[Tuple[str, str]]
    metamodel: Optional[str]


def add_arguments(parser: argparse.ArgumentParser) -> None:
    """The arguments of the command."""
    parser.add_argument('metamodel', metavar='META', help='the file of the metamodel')
    parser.add_argument('paths', nargs='+', metavar='PATH', help='folders, and files')
    parser.add_argument('--root', metavar='DIR', help='the folder of all files that references lead to (the folder of the paths)')
    parser.add_argument('--base', default=BASE, metavar='URI', help=f'the URI of that folder ({BASE})')
    parser.add_argument('--accept', action='append', default=[], metavar='URI', help='references to what begins so may lead outside')
    parser.add_argument('--ecore', action='append', default=[], metavar='FILE', help='an Ecore file of the metamodel: *.xmi are read too')
    parser.add_argument('--suffix', action='append', default=[], metavar='TEXT', help='the ending of XMI files, in place of .xmi')
    parser.add_argument('--format', choices=list(REPORTS), default='text', help='how findings are printed')
    parser.add_argument('--jobs', type=int, default=os.cpu_count() or 1, metavar='N', help='how many processes check')
    parser.add_argument('--executor', metavar='dask://HOST:PORT', help='the scheduler of Dask whose workers check')


def main(words: argparse.Namespace) -> int:
    """Checks the files, prints the findings, and returns the status."""
    sys.stdout.reconfigure(errors='backslashreplace')
    try:
        models = _models(words)
        files = _files(models, words)
        with _executor(words) as executor:
            counts = _check(models, files, words, executor)
    except (WrongUse, NotStarted) as error:
        print(f'error: {error}', file=sys.stderr)
        return WRONG_USE
    except KeyboardInterrupt:
        return INTERRUPTED
    except BrokenPipeError:
        os.dup2(os.open(os.devnull, os.O_WRONLY), sys.stdout.fileno())
        return NOT_FINISHED
    except (MmrepoError, OSError, RuntimeError) as error:
        print(f'error: the check was not finished: {error}', file=sys.stderr)
        return NOT_FINISHED
    return FOUND if counts.findings else 0


def _models(words: argparse.Namespace) -> Models:
    """The models below the root. Raises a WrongUse if the metamodel is refused, or if a file or a folder is not there."""
    if words.jobs < 1:
        raise WrongUse(f'--jobs {words.jobs}: at least one process is needed')
    for path in [words.metamodel, *words.ecore]:
        if not os.path.isfile(path):
            raise WrongUse(f'no file {path}')
    for path in words.paths:
        if not os.path.exists(path):
            raise WrongUse(f'no file or folder {path}')
    try:
        models = models_of(_root(words), words.metamodel, words.base, words.ecore, words.suffix or XMI_FILES)
        Repository(words.metamodel, models.program).close()
    except NotStarted:
        raise
    except (OSError, ValueError, MmrepoError) as error:
        raise WrongUse(error) from None
    return models


def _root(words: argparse.Namespace) -> str:
    """The folder of all files: the argument, else the lowest folder that contains all paths."""
    if words.root is not None:
        return words.root
    if len(words.paths) == 1 and os.path.isdir(words.paths[0]):
        return words.paths[0]
    folders = [it if os.path.isdir(it) else os.path.dirname(it) or '.' for it in words.paths]
    return os.path.commonpath([os.path.realpath(it) for it in folders])


def _files(models: Models, words: argparse.Namespace) -> Files:
    """The files that are checked."""
    root = Directory(models.path)
    shown = os.path.realpath(_root(words)) if any(map(os.path.isabs, words.paths)) else os.path.relpath(_root(words))
    names: List[str] = []
    refused: List[Tuple[str, str]] = []
    tops: List[str] = []
    for path in words.paths:
        folder, leaf = (path, '') if os.path.isdir(path) else os.path.split(path)
        real = os.path.relpath(os.path.realpath(folder or '.'), models.path)
        top = os.path.normpath(os.path.join(real, leaf))
        if top.split(os.sep)[0] == os.pardir:
            raise WrongUse(f'{path} is not below {words.root}')
        tops.append('' if top == '.' else top)
        if leaf:
            names.append(top)
        else:
            below, wrong = Directory(path).names(['.json', *models.xmi_suffixes])
            names += [os.path.normpath(os.path.join(real, it)) for it in below]
            refused += [(os.path.normpath(os.path.join(real, it)), why) for it, why in wrong]
    own = root.name_of(words.metamodel)
    return Files(models.path, shown, tuple(tops), sorted(set(names) - {own}), sorted(set(refused)), own)


@contextmanager
def _executor(words: argparse.Namespace) -> Iterator[Optional[Executor]]:
    """The executor of the check: worker processes, workers of Dask, or None for this process."""
    if words.executor is not None:
        if not words.executor.startswith(DASK):
            raise WrongUse(f'--executor {words.executor}: it is written as {DASK}HOST:PORT')
        try:
            from distributed import Client
        except ImportError:
            raise WrongUse('--executor needs the package distributed of Dask, which is not installed') from None
        try:
            client = Client('tcp://' + words.executor[len(DASK):], set_as_default=False)
        except (OSError, ValueError) as error:
            raise WrongUse(f'--executor {words.executor}: {error}') from None
        with client, client.get_executor() as executor:
            yield executor
    elif words.jobs == 1:
        yield None
    else:
        with ProcessPoolExecutor(words.jobs, initializer=_leave_interrupts) as pool:
            yield pool


def _leave_interrupts() -> None:
    """Ignores Ctrl-C in a worker: the process that gave the work handles it."""
    signal.signal(signal.SIGINT, signal.SIG_IGN)


def _check(models: Models, files: Files, words: argparse.Namespace, executor: Optional[Executor]) -> Counts:
    """Checks the files, and prints the findings of a file after those of the files before it."""
    counts, report, progress = Counts(), REPORTS[words.format](sys.stdout), Progress(len(files.names))
    refused = [Finding(name, 'FILE', '', why) for name, why in files.refused]
    counts.files = len(refused)
    _print(refused, files, counts, report, progress)
    scope = Scope(files.tops, tuple(words.accept), files.metamodel)
    work = partial(check_group, models, scope)
    for done in in_order(work, groups(models, files.names, OBJECTS), executor):
        counts.files += done.files
        counts.objects += done.objects
        _print(done.findings, files, counts, report, progress)
        progress.step(counts.files - len(refused), counts.findings)
    progress.clear()
    report.end(counts)
    sys.stdout.flush()
    return counts


def _print(findings: Sequence[Finding], files: Files, counts: Counts, report: Report, progress: Progress) -> None:
    """Prints findings under the paths of their files."""
    if findings:
        progress.clear()
    for finding in findings:
        report.add(finding._replace(file=os.path.normpath(os.path.join(files.shown, finding.file))))
    counts.findings += len(findings)
    counts.faulty += len({it.file for it in findings})
    sys.stdout.flush()
