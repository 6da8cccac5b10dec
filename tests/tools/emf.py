"""EMF as the reference: a program in Java (folder emf) that reads and writes XMI by EMF, and prints what EMF has read. It is compiled at
its first use."""

import subprocess
import sys
import tempfile

from support import HERE, TOP

sys.path.insert(0, str(TOP / 'bench'))

from java_emf import MISSING, WHY, compiled  # noqa: E402, F401

SOURCES = HERE / 'emf'


class Emf:
    """One process of the program, which all tests share."""

    one = None

    def __init__(self):
        self.room = tempfile.TemporaryDirectory()
        path = compiled(SOURCES.glob('*.java'), self.room.name)
        self.process = subprocess.Popen(
            ['java', '-Xshare:auto', '-XX:TieredStopAtLevel=1', '-cp', path, 'Judge'],
            stdin=subprocess.PIPE, stdout=subprocess.PIPE,
        )

    def send(self, words):
        """Sends a command; returns the lines of its answer."""
        self.process.stdin.write(('\t'.join(map(str, words)) + '\n').encode())
        self.process.stdin.flush()
        lines = []
        for line in iter(self.process.stdout.readline, b'.\n'):
            if not line:
                raise AssertionError(f'the judge ended at {words}')
            lines.append(line.decode().rstrip('\n'))
        return lines


def ask(*words):
    """The answer of EMF to a command."""
    Emf.one = Emf.one or Emf()
    return Emf.one.send(words)


def close():
    """Ends the process."""
    if Emf.one is not None:
        Emf.one.process.stdin.close()
        Emf.one.process.wait()
        Emf.one.process.stdout.close()
        Emf.one.room.cleanup()
        Emf.one = None


def read(ecore, *files):
    """What EMF reads of XMI files, without their names; the errors come first."""
    lines = ask('packages', *ecore)
    return lines + ask('read', *files)
