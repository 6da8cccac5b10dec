"""How a repository is closed, and its process with it."""

import os
import signal
import subprocess
import sys
import time

from support import CLIENT, LIBRARY, PROGRAM, ClientTest

from mmrepo import Repository, RepositoryClosed


class Closing(ClientTest):
    """How a repository is closed, and its process with it."""

    def test_closed(self):
        with Repository(LIBRARY, PROGRAM) as repo:
            book = repo.create('Book')
        self.assertEqual(repo._session.engine._process.returncode, 0)
        for call in (lambda: repo.create('Book'), lambda: book.name, lambda: list(book.tags), lambda: repo.attach(print, book)):
            with self.assertRaises(RepositoryClosed):
                call()
        repo.close()

    def test_error_inside(self):
        """An error in a `with` block closes the repository."""
        with self.assertRaises(ZeroDivisionError):
            with Repository(LIBRARY, PROGRAM) as repo:
                1 / 0
        self.assertIsNotNone(repo._session.engine._process.returncode)

    def test_interrupted_in_an_exchange(self):
        # The fake program presses Ctrl-C twice, and does not answer.
        """A second Ctrl-C kills a program that does not answer."""
        body = 'import time\nnext(lines())\nos.kill(os.getppid(), 2)\ntime.sleep(1.5)\nos.kill(os.getppid(), 2)\ntime.sleep(60)'
        self.addCleanup(signal.signal, signal.SIGINT, signal.signal(signal.SIGINT, signal.default_int_handler))
        with self.assertRaises(KeyboardInterrupt):
            with Repository(LIBRARY, self.fake(body)) as repo:
                repo.create('Book')
        self.assertEqual(repo._session.engine._process.returncode, -signal.SIGKILL)

    def test_the_program_goes_with_its_client(self):
        """The program ends if the process of the client ends without closing."""
        code = f'import os, mmrepo\nrepo = mmrepo.Repository({str(LIBRARY)!r}, {str(PROGRAM)!r})\nrepo.create("Book")\n'
        code += 'print(repo._session.engine._process.pid, flush=True)\nos._exit(0)'
        done = subprocess.run(
            [sys.executable, '-c', code], env={**os.environ, 'PYTHONPATH': str(CLIENT)}, stdout=subprocess.PIPE, check=True
        )
        until = time.monotonic() + 30
        while is_running(int(done.stdout)):
            self.assertLess(time.monotonic(), until)
            time.sleep(0.01)

    def test_two_at_once(self):
        with Repository(LIBRARY, PROGRAM) as first, Repository(LIBRARY, PROGRAM) as second:
            first.close()
            self.assertEqual(repr(second.create('Book')), '<Book #0>')


def is_running(process):
    """Whether a process runs and is no zombie."""
    try:
        with open(f'/proc/{process}/stat') as file:
            return file.read().rpartition(')')[2].split()[0] != 'Z'
    except FileNotFoundError:
        return False
