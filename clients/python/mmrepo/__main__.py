"""The commands of the package: `python3 -m mmrepo check META PATH..`, `shell META [PATH]`, `edit META [PATH..]` and `stubs META`."""

from __future__ import annotations

import argparse
import sys

from . import check, shell, stubs
from .editor import command as edit

COMMANDS = {
    'check': (check, 'checks each document of folders'),
    'shell': (shell, 'a prompt for the lines of a script'),
    'edit': (edit, 'an editor in the browser'),
    'stubs': (stubs, 'writes the classes of a metamodel for type checkers'),
}


def main() -> int:
    """Reads the arguments and runs the command."""
    parser = argparse.ArgumentParser(prog='mmrepo', description='Commands on models in folders (docs/FOLDERS.md), and on a metamodel.')
    commands = parser.add_subparsers(dest='command', required=True, metavar='COMMAND')
    for name, (module, what) in COMMANDS.items():
        module.add_arguments(commands.add_parser(name, help=what, description=module.__doc__))
    words = parser.parse_args()
    return COMMANDS[words.command][0].main(words)


if __name__ == '__main__':
    sys.exit(main())
