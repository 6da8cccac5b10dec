"""Opens folders as a model, and serves the page of it until Ctrl-C."""

from __future__ import annotations

import argparse
import gc
import os
import re
import sys
import threading
import webbrowser
from contextlib import closing
from typing import List, Sequence

from ..errors import MmrepoError
from ..folders import Folder
from ..loading import XMI_FILES
from ..repository import Repository
from .files import Files, Given
from .model import Model
from .server import Server

WRONG_USE = 2
_PLAIN = re.compile(r'[A-Za-z0-9_-]+')


def edit(words: argparse.Namespace) -> int:
    """Opens the folders, and serves the page until Ctrl-C."""
    sys.stdout.reconfigure(errors='backslashreplace')
    sys.stderr.reconfigure(errors='backslashreplace')
    try:
        repo = Repository(words.metamodel)
    except (OSError, ValueError, MmrepoError) as error:
        return _wrong(error)
    with closing(repo):
        try:
            model = _model(repo, words)
            server = Server(model, words.port)
        except (OSError, OverflowError, ValueError, MmrepoError) as error:
            return _wrong(error)
        with server:
            _serve(server, not words.no_browser)
        with model.lock:  # no connection is in the middle of a call
            _say_unsaved(model)
            return 0


def _wrong(error: BaseException) -> int:
    """Says why the editor does not begin."""
    print(f'error: {error}', file=sys.stderr)
    return WRONG_USE


def _serve(server: Server, has_browser: bool) -> None:
    """Serves the page until Ctrl-C."""
    try:
        print(server.address, flush=True)
        if has_browser:
            threading.Thread(target=webbrowser.open, args=(server.address,), daemon=True).start()
        server.serve_forever()
    except KeyboardInterrupt:
        pass
    server.model.events.end()


def _model(repo: Repository, words: argparse.Namespace) -> Model:
    """The model of the folders, or an empty one without a file."""
    gc.disable()  # the objects that are read stay; if the collector looked through them, an edit would wait now and then
    for path in words.paths:
        os.makedirs(path, exist_ok=True)
    suffixes = tuple(words.suffix) or XMI_FILES
    folders: List[Folder] = [repo.open(path, base, words.ecore, False, suffixes) for path, base in zip(words.paths, bases(words))]
    if not folders:
        repo.resource(words.base + 'model.json')
    model = Model(repo, Files(repo, Given(os.path.abspath(words.metamodel), tuple(words.ecore), suffixes), folders))
    gc.freeze()
    gc.enable()
    return model


def bases(words: argparse.Namespace) -> Sequence[str]:
    """The URI of each folder: the `--base`. If there are several folders, each has its own URI below the base, so that they
    refer to one another as folders beside each other do.
    """
    if len(words.paths) < 2:
        return [words.base]
    names = [os.path.basename(os.path.abspath(path)) for path in words.paths]
    plain = len(set(names)) == len(names) and all(_PLAIN.fullmatch(name) for name in names)
    return [f'{words.base}{name if plain else number}/' for number, name in enumerate(names)]


def _say_unsaved(model: Model) -> None:
    """Says what was edited and not saved."""
    names = [it['name'] for it in model.files.listed() if it['resource'] in model.changed]
    if names:
        print(f'not saved: {", ".join(names)}', file=sys.stderr)
