"""Shared by the tests of the tools: running a tool, and running the program on a document."""

import os
import subprocess
import sys
import tempfile
import unittest
from pathlib import Path

HERE = Path(__file__).resolve().parent
TOP = HERE.parent.parent
PROGRAM = Path(os.environ.get('MMREPO') or TOP / 'crates/mmrepo/out/mmrepo')
URI = 'http://m.example/a'


COMPILED = tempfile.TemporaryDirectory()  # the folder of compiled modules, outside of the project and shared by all runs
ENVIRONMENT = {name: value for name, value in os.environ.items() if name != 'PYTHONDONTWRITEBYTECODE'}
ENVIRONMENT['PYTHONPYCACHEPREFIX'] = COMPILED.name


def command_of(tool, words):
    """The command line of a tool."""
    return [sys.executable, str(TOP / 'tools' / tool), *map(str, words)]


class Ended:
    """A tool that has ended: its status, and the text of both streams."""

    def __init__(self, done):
        self.status, self.out, self.err = done.returncode, done.stdout.decode(), done.stderr.decode()


def run_tool(tool, *words):
    """Runs a tool in the folder of the tests."""
    done = subprocess.run(
        command_of(tool, words), cwd=HERE, env=ENVIRONMENT, stdout=subprocess.PIPE, stderr=subprocess.PIPE, stdin=subprocess.DEVNULL
    )
    return Ended(done)


def run_program(meta, script):
    """What the program prints for a script; its line on standard error if it ends with a status other than 0."""
    if not PROGRAM.exists():
        raise AssertionError(f'no program at {PROGRAM}')
    with tempfile.TemporaryDirectory() as room:
        file = Path(room, 'meta.json')
        file.write_bytes(meta.encode())
        done = subprocess.run([PROGRAM, '--meta', file], input=script.encode(), stdout=subprocess.PIPE, stderr=subprocess.PIPE)
    return done.stdout.decode() if done.returncode == 0 else done.stderr.decode()


def load_and_save(meta, document, uri=URI):
    """The answer of `load` for a document, and the document that `save` returns."""
    printed = run_program(meta, f'resource "{uri}"\nload r0 {document.strip()}\nsave r0\n').split('\n')
    return printed[1], printed[2] + '\n'


class ToolTest(unittest.TestCase):
    """A test with a temporary folder for files."""

    maxDiff = None

    def setUp(self):
        self.room = tempfile.TemporaryDirectory()
        self.addCleanup(self.room.cleanup)

    def file(self, name, content):
        """Writes a file from a text or from bytes, and returns its path."""
        path = Path(self.room.name, name)
        path.write_bytes(content if isinstance(content, bytes) else content.encode())
        return path

    def tool(self, tool, *words):
        """Runs a tool that must succeed, and returns what it prints."""
        ended = run_tool(tool, *words)
        self.assertEqual(ended.status, 0, ended.err)
        return ended.out

    def notes(self, tool, *words):
        """Runs a tool that must succeed, and returns its lines on standard error without its name."""
        ended = run_tool(tool, *words)
        self.assertEqual(ended.status, 0, ended.err)
        return [line[len(tool) + 2:] for line in ended.err.splitlines()]

    def assert_fault(self, line, tool, *words):
        """Checks that a tool ends with status 1 and prints one line, on standard error. `ROOM` in the line is the folder of the files."""
        ended = run_tool(tool, *words)
        told = ended.err.replace(str(self.room.name), 'ROOM')
        self.assertEqual((ended.status, ended.out, told), (1, '', f'{tool}: {line}\n'))
