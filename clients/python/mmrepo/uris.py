"""The URIs of files: a base, and the name of a file below it."""

from __future__ import annotations

import os
import posixpath
import re
from functools import lru_cache
from typing import Optional
from urllib.parse import quote, unquote_to_bytes, urljoin

from .web_urls import parse

BASE = 'http://models.example/'

_HOST = r'[a-z0-9]+(?:-+[a-z0-9]+)*'
_BASE = re.compile(rf"https?://{_HOST}(?:\.{_HOST})*(?::[1-9][0-9]*)?/(?:[A-Za-z0-9._~!$&'()*+,;=:@-]+/)*")
# What the URL Standard leaves as it is in a path. It writes a percent sign and two hexadecimal digits for any other byte.
_SAFE = "/|[]'~!$&()*+,;=:@-._"


def checked_base(base: str) -> str:
    """A base URI. Raises a ValueError if the URL Standard writes it in another way, or if it does not end with a slash."""
    url = parse(base, None) if _BASE.fullmatch(base) else None
    if url is None or url.text() != base:
        raise ValueError(f'{base!r} is no base: a base is written as {BASE} or http://models.example/town/')
    return base


def uri_of(base: str, name: str) -> str:
    """The URI of a file, as the URL Standard writes it."""
    return base + quote(os.fsencode(name), _SAFE)


def name_of(base: str, uri: str) -> Optional[str]:
    """The name of the file of a URI; None if the URI belongs to no file below the base."""
    if not uri.startswith(base):
        return None
    name = os.fsdecode(unquote_to_bytes(uri[len(base):]))
    return name if uri_of(base, name) == uri else None


def shortened(base: str, own: str, address: str) -> str:
    """The text of a reference to an address, in the document of the URI `own`: relative, if both are below the base."""
    uri, mark, fragment = address.partition('#')
    return _relative(base, own.rpartition('/')[0] + '/', uri) + mark + fragment


@lru_cache(maxsize=10_000)
def _relative(base: str, folder: str, uri: str) -> str:
    """A URI relative to a folder, if joining the relative URI with the folder gives the URI again; else the URI itself."""
    if not (folder.startswith(base) and uri.startswith(base)):
        return uri
    way = posixpath.relpath('/' + uri[len(base):], '/' + folder[len(base):])
    for text in (way, './' + way):
        if urljoin(folder, text) == uri:
            return text
    return uri
