"""The program is stopped at each of its system calls: the call fails, or the program is killed at the call."""

import shutil
import subprocess
import tempfile
import unittest
from pathlib import Path

from journaled import SECONDS, Check, blocks, command, run

STRACE = shutil.which('strace')
MOST = 60  # at most so many calls of one name in a run
LINES = [
    [b'new Book', b'set #0 name "Emma"', b'get #0 name'],
    [b'new Library', b'add #1 books #0', b'frob', b'attach A1 #0 flat', b'set #0 pages 7'],
    [b'delete #1', b'delete #0', b'new Book', b'resource "http://m.example/a"'],
]
# The journals to begin with: none, an empty file, a whole journal, and one with a torn end, which is cut off when the journal is opened.
STARTS = ('none', 'empty', 'at rest', 'torn')
CALLS = ('write', 'pwrite64', 'fdatasync', 'fsync', 'ftruncate')


@unittest.skipUnless(STRACE, 'no strace: the package strace is not installed')
class Calls(unittest.TestCase):
    """Each system call of dialogues that begin with each kind of file."""

    def setUp(self):
        room = tempfile.TemporaryDirectory()
        self.addCleanup(room.cleanup)
        self.room = Path(room.name)
        run([b'new Folder', b'new Person', b'set #1 name "Knightley"'], self.room / 'begun')
        self.begun = (self.room / 'begun').read_bytes()

    def journal(self, start):
        """Makes the journal with which a dialogue begins, and the check that knows its lines."""
        file = self.room / 'journal'
        file.unlink(missing_ok=True)
        check = Check(self, file)
        if start == 'empty':
            file.touch()
        elif start != 'none':
            file.write_bytes(self.begun if start == 'at rest' else self.begun + b'set #1 name "torn"\n se')
            check.before = [b'new Folder', b'new Person', b'set #1 name "Knightley"']
        return check

    def stopped(self, check, call, how, number):
        """Runs the dialogue under strace, which stops one call by its number; returns the answers, the status, and standard error."""
        words = [STRACE, '-f', '-qq', '-o', '/dev/null', '-e', f'trace={call}', '-e', f'inject={call}:{how}:when={number}']
        running = subprocess.Popen(
            [*words, *command(check.journal)], stdin=subprocess.PIPE, stdout=subprocess.PIPE, stderr=subprocess.PIPE, bufsize=0
        )
        text, wanted = b'', 0
        for lines in LINES:
            try:
                running.stdin.write(b''.join(line + b'\n' for line in lines))
            except BrokenPipeError:
                break
            wanted += len(lines)
            while len(blocks(text)) < wanted:
                piece = running.stdout.read(65_536)
                if not piece:
                    break
                text += piece
        rest, said = running.communicate(timeout=SECONDS)
        return blocks(text + rest), running.returncode, said.decode()

    def stop_at_each(self, how, is_stopped):
        """Stops the dialogue at each call until no call is left, checks the journal each time, and prints how many calls of each name there
        were."""
        counts, more, sent = {}, 0, [line for lines in LINES for line in lines]
        for start in STARTS:
            for call in CALLS:
                for number in range(1, MOST):
                    check = self.journal(start)
                    answered, status, said = self.stopped(check, call, how, number)
                    if (status, said) == (0, ''):
                        self.assertEqual(len(answered), len(sent))
                        break
                    with self.subTest(start=start, call=call, number=number):
                        self.assertTrue(is_stopped(call, status, said), (status, said))
                        check.after(sent, answered)
                        counts[call] = counts.get(call, 0) + 1
                        more += check.more
                else:
                    self.fail(f'more calls of {call} than {MOST}')
        self.assertEqual(set(counts), set(CALLS))
        print(f'{how}: {counts}, after {more} of them the journal had lines that were not answered')

    def test_each_call_fails(self):
        """If a call fails, the run stops with status 3 and a line, and all that was answered is in the journal."""
        def is_stopped(call, status, said):
            return (status, said) == (3, f'run stopped: {"WRITE" if call == "write" else "JOURNAL"}\n')
        self.stop_at_each('error=EIO', is_stopped)

    def test_each_call_finds_the_disk_full(self):
        """If a call finds the disk full, the run stops in the same way."""
        def is_stopped(call, status, said):
            return (status, said) == (3, f'run stopped: {"WRITE" if call == "write" else "JOURNAL"}\n')
        self.stop_at_each('error=ENOSPC', is_stopped)

    def test_the_program_is_killed_at_each_call(self):
        """After a kill at any call, all that was answered is in the journal."""
        self.stop_at_each('signal=SIGKILL', lambda call, status, said: said == '' and status in (-9, 137))
