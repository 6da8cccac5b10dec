"""The messages of the program on a journal, and what it leaves of the file."""

import hashlib
import resource
import shutil
import signal
import subprocess
import tempfile
import unittest
from pathlib import Path

from journaled import LIBRARY, PROGRAM, SECONDS, command, run

USAGE = b"Usage: mmrepo [OPTIONS] --meta <FILE>\n\nFor more information, try '--help'.\n"
HEAD = b' mmrepo-journal 1 ' + hashlib.sha256(LIBRARY.read_bytes()).hexdigest().encode() + b'\n'
BEGUN = HEAD + b' new Book\n set #0 name "Emma"\n\n'


class Outcomes(unittest.TestCase):
    """Journals and other files, with and without --explain."""

    def setUp(self):
        room = tempfile.TemporaryDirectory()
        self.addCleanup(room.cleanup)
        self.file = Path(room.name) / 'journal'

    def ends(self, status, said, explained, lines=()):
        """Checks that the program ends with a status and a line over the file, and prints one line more with --explain; returns the old
        content."""
        before = self.file.read_bytes() if self.file.is_file() else None
        for options, wanted in (((), said), (('--explain',), f'{said}{self.file}: {explained}\n')):
            self.assertEqual(run(lines, self.file, *options)[1:], (status, wanted))
        return before

    def is_refused(self, word, explained):
        """Checks that the journal is refused with a word, and that the file stays as it is."""
        before = self.ends(1, f'journal refused: {word}\n', explained)
        self.assertEqual(self.file.read_bytes(), before)

    def test_a_new_file(self):
        """A new file gets the head line, and the lines that change the model."""
        lines = [b'new Book', b'get #0 pages', b'set #0 name "Emma"', b'set #0 pages :NOVEL', b'frob', b'', b'attach A1 #0 flat']
        self.assertEqual(run(lines, self.file)[1:], (0, ''))
        self.assertEqual(self.file.read_bytes(), BEGUN)

    def test_an_empty_file(self):
        """An empty file is begun as a new one."""
        self.file.touch()
        self.assertEqual(run([b'new Book', b'set #0 name "Emma"'], self.file)[1:], (0, ''))
        self.assertEqual(self.file.read_bytes(), BEGUN)

    def test_the_model_comes_back(self):
        """The next start has the objects with their numbers, and no adapters."""
        run([b'new Book', b'attach A1 #0 flat', b'set #0 name "Emma"'], self.file)
        answers, status, said = run([b'get #0 name', b'detach A1', b'new Book'], self.file)
        self.assertEqual((answers, status, said), ([b'"Emma"\n', b'refused 25 NO_ADAPTER\n', b'#1\n'], 0, ''))

    def test_a_line_that_changes_nothing_is_kept(self):
        """A line that is done is kept, even if the model is the same after it."""
        run([b'new Book', b'add #0 tags "a"', b'add #0 tags "a"'], self.file)
        self.assertEqual(self.file.read_bytes(), HEAD + b' new Book\n add #0 tags "a"\n add #0 tags "a"\n\n')

    def test_a_journal_is_a_script(self):
        """A journal without its first line is a script that makes the same model."""
        run([b'new Book', b'set #0 name "Emma"'], self.file)
        script = self.file.read_bytes().partition(b'\n')[2] + b'get #0 name\n'
        done = subprocess.run([PROGRAM, '--meta', LIBRARY], input=script, stdout=subprocess.PIPE, timeout=SECONDS)
        self.assertEqual(done.stdout, b'#0\nok\n"Emma"\n')

    def test_a_torn_end(self):
        """What follows the last whole line is cut off."""
        for torn in (b'', b'x', b'\nset #0 name "torn"\n', b' set #0 name "to', b'set #0 name "torn"\n\n', b'\n\n', b'\0' * 99):
            with self.subTest(torn=torn):
                self.file.write_bytes(BEGUN[:-1] + torn)
                self.assertEqual(run([b'get #0 name'], self.file), ([b'"Emma"\n'], 0, ''))
                self.assertEqual(self.file.read_bytes(), BEGUN)

    def test_what_is_left_of_a_head(self):
        """A journal whose head line is torn is begun anew."""
        whole = b'\n' + HEAD[1:] + b'\n'
        lefts = [whole[:length] for length in range(len(whole) + 1)] + [b'X' + whole[1:length] for length in range(1, len(whole) + 1)]
        lefts += [b'X', b'\n' + b'garbage\n' * 9]
        for left in lefts:
            with self.subTest(left=left):
                self.file.write_bytes(left)
                self.assertEqual(run([], self.file), ([], 0, ''))
                self.assertEqual(self.file.read_bytes(), HEAD + b'\n')

    def test_a_foreign_file(self):
        """A file that is no journal is refused, and left as it is."""
        for text in (b'A text.\n', b' A text.\n', b'\n' + b'A text.\n' * 99, b'  mmrepo-journal 1 0\n', HEAD[1:], LIBRARY.read_bytes()):
            with self.subTest(text=text):
                self.file.write_bytes(text)
                self.is_refused('NO_JOURNAL', 'it is no journal, and is left as it is: name a new file')

    def test_another_metamodel(self):
        """A journal is refused with a metamodel other than the one with which it was begun."""
        self.file.write_bytes(b' mmrepo-journal 1 ' + b'0' * 64 + b'\n new Book\n\n')
        explained = f'it was begun with another metamodel than {LIBRARY}: its first line has the SHA-256 of that file'
        self.is_refused('OTHER_METAMODEL', explained)

    def test_a_line_that_is_not_done(self):
        """A journal with a line that is refused, bad or only asks is refused, and left as it is."""
        for line in (b' set #7 name "x"\n', b' frob\n', b' get #0 name\n', b' attach A1 #0 flat\n', b' \n'):
            with self.subTest(line=line):
                self.file.write_bytes(BEGUN[:-1] + line + b' new Book\n\n')
                self.is_refused('LINE 4', 'line 4 is not done when it is run again, so the program did not write it')

    def test_in_use(self):
        """A second program is refused until the first one ends or is killed."""
        with subprocess.Popen(command(self.file), stdin=subprocess.PIPE, stdout=subprocess.PIPE) as first:
            first.stdin.write(b'new Book\n')
            first.stdin.flush()
            first.stdout.readline()
            self.is_refused('IN_USE', 'another process has it open')
            first.kill()
        self.assertEqual(run([b'new Book'], self.file), ([b'#1\n'], 0, ''))

    def test_a_file_that_is_not_opened(self):
        """A folder, and a file in a missing folder, stop the run with the system's reason."""
        room = self.file.parent
        self.file = room
        self.ends(3, 'run stopped: JOURNAL\n', 'Is a directory (os error 21)')
        self.file = room / 'nowhere' / 'journal'
        self.ends(3, 'run stopped: JOURNAL\n', 'No such file or directory (os error 2)')

    def limited(self, size, lines, *options):
        """Runs lines while no file may have more than `size` bytes."""
        def limit():
            signal.signal(signal.SIGXFSZ, signal.SIG_IGN)
            resource.setrlimit(resource.RLIMIT_FSIZE, (size, size))
        text = b''.join(line + b'\n' for line in lines)
        done = subprocess.run(
            command(self.file, *options), input=text, stdout=subprocess.PIPE, stderr=subprocess.PIPE, preexec_fn=limit, timeout=SECONDS
        )
        return done.stdout, done.returncode, done.stderr.decode()

    def test_a_full_disk(self):
        """If the disk is full, the commit has no answer, and the journal has the lines from before."""
        run([b'new Book'], self.file)
        begun = self.file.read_bytes()
        said = 'run stopped: JOURNAL\n'
        lines = [b'set #0 name "%s"' % (b'x' * 500)]
        self.assertEqual(self.limited(len(begun) + 100, lines), (b'', 3, said))
        self.assertEqual(self.limited(len(begun) + 100, lines, '--explain'), (b'', 3, f"{said}{self.file}: it can't be written\n"))
        self.assertEqual(run([b'get #0 name'], self.file), ([b'null\n'], 0, ''))
        self.assertEqual(self.file.read_bytes(), begun)

    def test_explained_lines(self):
        """--explain numbers lines from the first line of the input, and knows the objects that the journal's lines made."""
        self.file.write_bytes(BEGUN)
        said = 'line 2: there is no object #3: the last that was made is #0\n'
        self.assertEqual(run([b'get #0 name', b'get #3 name'], self.file, '--explain'), ([b'"Emma"\n', b'refused 1 NO_OBJECT\n'], 0, said))

    def test_strict(self):
        """With --strict a refused line of the input gives status 4; lines of the journal don't."""
        self.assertEqual(run([b'new Book'], self.file, '--strict')[1], 0)
        self.assertEqual(run([b'new Nothing'], self.file, '--strict')[1], 4)

    def test_only_with_live(self):
        """--journal without --live is an error."""
        done = subprocess.run([PROGRAM, '--meta', LIBRARY, '--journal', self.file], input=b'', stderr=subprocess.PIPE)
        self.assertEqual((done.returncode, done.stderr), (2, b"error: --journal can't be used without --live\n\n" + USAGE))
        self.assertFalse(self.file.exists())

    @unittest.skipUnless(shutil.which('strace'), 'no strace: the package strace is not installed')
    def test_lines_that_come_together_are_synced_together(self):
        """A thousand lines that come together take at most six syncs, and lines that only ask take none."""
        def syncs(lines):
            log = self.file.with_name('log')
            words = ['strace', '-f', '-qq', '-o', log, '-e', 'trace=fdatasync', *command(self.file)]
            subprocess.run(words, input=b''.join(lines), stdout=subprocess.DEVNULL, check=True)
            return len(log.read_text().splitlines())
        run([b'new Book'], self.file)
        self.assertEqual(syncs([b'get #0 pages\n'] * 1000), 0)
        self.assertLessEqual(syncs([b'set #0 pages 7\n'] * 1000), 6)
