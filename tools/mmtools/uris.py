"""URIs of resources: joined with one another as the repository joins them, and the paths of files."""

from __future__ import annotations

import os
from typing import Optional
from urllib.parse import unquote, urlsplit

from .web_urls import SCHEME, Url, parse

DEEP = 20  # the most levels of folders above a relative URI
NOWHERE = 'http://nowhere.invalid/' + '0/' * DEEP


def joined(base: Optional[str], uri: str) -> Optional[str]:
    """A URI joined with the URI of a resource, or read alone if there is no base; None if the result is no URI of http or https. Without
    a base a relative URI stays relative.
    """
    there = parse(base, None) if base is not None else None
    if there is None and base is None and SCHEME.fullmatch(uri) is None:
        return relative(uri)
    found = parse(uri, there)
    return found.text() if found is not None else None


def relative(uri: str) -> Optional[str]:
    """A relative URI with its path as the URL Standard writes it."""
    base = parse(NOWHERE, None)
    assert base is not None
    found = parse(uri, base)
    if found is None:
        return None
    text = found.text()
    if uri.startswith('?'):
        return f'?{found.query}'
    if found.host != base.host or uri[:1] in ('/', '\\'):
        return text[len('http:'):] if found.host != base.host else text[len(NOWHERE.rstrip('0/')):]
    return below(found, base)


def below(found: Url, base: Url) -> str:
    """The path from the folder of a URL."""
    folder = base.path[:-1]
    same = next((place for place, (one, other) in enumerate(zip(found.path[:-1], folder)) if one != other), len(found.path) - 1)
    same = min(same, len(folder))
    path = '/'.join(['..'] * (len(folder) - same) + found.path[same:])
    return ('' if path else '.') + path + ('' if found.query is None else f'?{found.query}')


def path_of(uri: str) -> str:
    """The path of a URI of a file or of a platform. A relative URI is the path itself."""
    try:
        return unquote(urlsplit(uri).path if uri.startswith(('file:', 'platform:')) else uri)
    except ValueError:
        return uri


def real_path(folder: str, path: str) -> str:
    """The real path of a file in a folder; the joined path if there is no real one."""
    joined_path = os.path.join(folder, path)
    try:
        return os.path.realpath(joined_path)
    except ValueError:
        return joined_path
