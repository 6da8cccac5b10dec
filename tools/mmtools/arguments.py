"""The arguments of the tools that read a model with its Ecore files."""

from __future__ import annotations

import argparse
from typing import Any


class Several(argparse.Action):
    """An option that takes several files. `last` has the files of the last such option on the command line."""

    def __call__(self, parser: argparse.ArgumentParser, words: argparse.Namespace, values: Any, option: Any = None) -> None:
        """Adds the files to those of earlier options of the name."""
        words.last = [*getattr(words, self.dest), *values]
        setattr(words, self.dest, words.last)


def add_note_options(parser: argparse.ArgumentParser) -> None:
    """The options of a tool that notes what it bends and leaves out."""
    parser.add_argument('--report', action='store_true', help='tell all that is bent and left out as a Markdown table')
    parser.add_argument('--strict', action='store_true', help='end with status 3 if content is left out; the output is the same')


def parse(tool: str, file: str, what: str) -> argparse.Namespace:
    """The arguments. The file may be the last one after an option that takes several files."""
    parser = argparse.ArgumentParser(prog=tool, description=what, usage=f'{tool} --ecore FILE.ecore .. [options] {file}')
    parser.set_defaults(last=[])
    parser.add_argument('file', nargs='?', metavar=file, help='the file to read')
    parser.add_argument(
        '--ecore', nargs='+', action=Several, default=[], metavar='FILE.ecore',
        help='the Ecore files of its packages, in the order in which ecore2mm got them'
    )
    parser.add_argument('--uri', metavar='URI', help='the URI of the resource; references are joined with it')
    parser.add_argument(
        '--beside', nargs='+', action=Several, default=[], metavar='FILE.xmi',
        help='XMI files that references lead to: ids, names and keys become positions, and names are bent as there'
    )
    add_note_options(parser)
    parser.add_argument('-o', '--output', metavar='FILE', help='write to a file')
    words = parser.parse_args()
    if words.file is None and words.last:
        words.file = words.last.pop()
    if words.file is None or not words.ecore:
        parser.error(f'--ecore with at least one file, and {file} are required')
    return words
