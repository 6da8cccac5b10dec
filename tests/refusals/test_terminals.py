"""Lines that are printed for a person at a terminal, and not for a program on a pipe."""

import os
import pty
import select
import subprocess
import tempfile
import unittest
from pathlib import Path

from shop import METAMODEL, PROGRAM, SECONDS


def read_all(terminal):
    """All that is written to a terminal until no process has it open."""
    found = b''
    while select.select([terminal], [], [], SECONDS)[0]:
        try:
            data = os.read(terminal, 4096)
        except OSError:  # Linux reports the end by this error
            break
        if not data:
            break
        found += data
    return found.decode().replace('\r\n', '\n')


class Terminals(unittest.TestCase):
    """Runs whose standard error or standard input is a terminal."""

    def setUp(self):
        room = tempfile.TemporaryDirectory()
        self.addCleanup(room.cleanup)
        self.folder = Path(room.name)
        (self.folder / 'meta.json').write_text(METAMODEL)
        self.ours, self.theirs = pty.openpty()
        self.addCleanup(os.close, self.ours)

    def start(self, *words, **streams):
        """Starts the program, and closes this process's copy of the program's end of the terminal."""
        process = subprocess.Popen([PROGRAM, *words], cwd=self.folder, **streams)
        self.addCleanup(process.wait)
        self.addCleanup(process.kill)
        os.close(self.theirs)
        return process

    def said(self, *words):
        """What a run prints on standard error, which is a terminal, and its status."""
        process = self.start(*words, stdin=subprocess.DEVNULL, stdout=subprocess.DEVNULL, stderr=self.theirs)
        text = read_all(self.ours)
        return text, process.wait(SECONDS)

    def test_a_file_that_is_not_there(self):
        """For a missing metamodel the file and the system's reason follow the line that programs read."""
        reason = 'No such file or directory (os error 2)'
        self.assertEqual(self.said('--meta', 'nope.json'), (f'run stopped: READ\nnope.json: {reason}\n', 3))

    def test_a_script_that_is_not_there(self):
        """The same for a missing script."""
        reason = 'No such file or directory (os error 2)'
        self.assertEqual(self.said('--meta', 'meta.json', '--script', 'nope'), (f'run stopped: READ\nnope: {reason}\n', 3))

    def test_a_folder(self):
        """A folder can be opened but not read, and the reason says so."""
        self.assertEqual(self.said('--meta', '.'), ("run stopped: READ\n.: it can't be read\n", 3))

    def test_a_refused_metamodel_is_explained_if_asked_for(self):
        """A refused metamodel is explained by `--explain` alone."""
        (self.folder / 'wrong.json').write_text('{"classes":[{"nam":"A"}]}')
        self.assertEqual(self.said('--meta', 'wrong.json'), ('metamodel refused: 2 LAYOUT\n', 1))

    def test_a_pipe_gets_one_line(self):
        """On a pipe there is one line and no reason."""
        os.close(self.theirs)
        done = subprocess.run(
            [PROGRAM, '--meta', 'nope.json'], cwd=self.folder, stdin=subprocess.DEVNULL, capture_output=True, timeout=SECONDS
        )
        self.assertEqual((done.stdout, done.stderr, done.returncode), (b'', b'run stopped: READ\n', 3))

    def typed(self, text, *options):
        """What a live run prints on both streams if a person types a text."""
        process = self.start(
            '--meta', 'meta.json', '--live', *options, stdin=self.theirs, stdout=subprocess.PIPE, stderr=subprocess.PIPE
        )
        os.write(self.ours, text.encode() + b'\x04')
        printed, said = process.communicate(timeout=SECONDS)
        return printed.decode(), said.decode().replace('> ', ''), process.returncode

    def test_words_of_other_programs(self):
        """`help`, `quit` and `exit` are bad lines, and a line tells a person what to do."""
        printed, said, status = self.typed('help\nquit\nexit\nfrob\nnew Shop\n')
        self.assertEqual((printed, status), ('bad line\n\n' * 4 + '#0\n\n', 0))
        end = 'Ctrl-D ends the program'
        self.assertEqual(said.split('\n'), [f'mmrepo --help shows what can be typed; {end}', end, end, '', ''])

    def test_with_explain(self):
        """With `--explain` there is the same line; other bad lines are explained."""
        _, said, _ = self.typed('quit\nfrob\n', '--explain')
        self.assertIn('Ctrl-D ends the program\n', said)
        self.assertIn('line 2: unknown verb "frob"; mmrepo --help has them all\n', said)

    def test_a_pipe_is_no_person(self):
        """Lines from a pipe get their answers alone."""
        os.close(self.theirs)
        done = subprocess.run(
            [PROGRAM, '--meta', 'meta.json', '--live'], cwd=self.folder, input=b'help\nquit\n', capture_output=True, timeout=SECONDS
        )
        self.assertEqual((done.stdout, done.stderr, done.returncode), (b'bad line\n\nbad line\n\n', b'', 0))


if __name__ == '__main__':
    unittest.main()
