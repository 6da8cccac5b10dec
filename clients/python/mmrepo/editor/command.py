"""`python3 -m mmrepo edit META [PATH..]`: edits models in the browser. docs/EDITOR.md is the page on it."""

from __future__ import annotations

import argparse

from ..uris import BASE


def add_arguments(parser: argparse.ArgumentParser) -> None:
    """The arguments of the command."""
    parser.add_argument('metamodel', metavar='META', help='the file of the metamodel')
    parser.add_argument('paths', nargs='*', metavar='PATH', help='folders, which are opened; one that is not there is made')
    parser.add_argument('--port', type=int, default=0, metavar='N', help='the port of the server (a free one)')
    parser.add_argument('--no-browser', action='store_true', help='opens no browser')
    parser.add_argument('--base', default=BASE, metavar='URI', help=f'the URI of the folder ({BASE})')
    parser.add_argument('--ecore', action='append', default=[], metavar='FILE', help='an Ecore file of the metamodel: *.xmi are read too')
    parser.add_argument('--suffix', action='append', default=[], metavar='TEXT', help='the ending of XMI files, in place of .xmi')


def main(words: argparse.Namespace) -> int:
    """Opens the folders, and serves the page until Ctrl-C."""
    from .serving import edit  # here, so that the other commands of the package begin without a server

    return edit(words)
