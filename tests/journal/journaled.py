"""Runs the program with a journal, makes random lines for it, and checks which model it must have after a crash."""

import os
import select
import subprocess
from pathlib import Path

TOP = Path(__file__).resolve().parent.parent.parent
PROGRAM = Path(os.environ.get('MMREPO', TOP / 'crates/mmrepo/out/mmrepo')).resolve()
LIBRARY = TOP / 'examples/library.json'
SEED = int(os.environ.get('JOURNAL_SEED', '1'))
SECONDS = 60  # the longest wait for the program
CHANGES = {
    'new', 'set', 'unset', 'add', 'remove', 'removevalue', 'move', 'delete', 'resource', 'load', 'resolve', 'resolveall',
}
FEATURES = {
    'Library': ('name', 'books', 'members', 'staff'),
    'Book': ('name', 'pages', 'genre', 'tags', 'scores', 'note', 'library', 'next', 'prev'),
    'Person': ('name', 'job', 'likes', 'favourite'),
    'Folder': ('subs', 'parent'),
}


def command(journal=None, *options):
    """The command line that starts the program in live mode."""
    words = [str(PROGRAM), '--meta', str(LIBRARY), '--live', *options]
    return words + (['--journal', str(journal)] if journal else [])


def blocks(text):
    """The answers in an output, as bytes. What no empty line ends is not yet an answer."""
    found, answer = [], b''
    for line in text.splitlines(keepends=True):
        if line == b'\n':
            found.append(answer)
            answer = b''
        else:
            answer += line
    return found


def run(lines, journal=None, *options):
    """Runs the program over lines; returns its answers, its status, and its standard error."""
    text = b''.join(line + b'\n' for line in lines)
    done = subprocess.run(
        command(journal, *options), input=text, stdout=subprocess.PIPE, stderr=subprocess.PIPE, timeout=SECONDS
    )
    return blocks(done.stdout), done.returncode, done.stderr.decode()


def is_kept(line, answer):
    """Whether the journal keeps a line: whether the line asked for a change, and the change was done."""
    words = line.split()
    return bool(words) and words[0].decode() in CHANGES and not answer.startswith((b'refused ', b'bad line'))


def kept(lines, answers):
    """The lines that the journal keeps, by their answers."""
    return [line for line, answer in zip(lines, answers) if is_kept(line, answer)]


def has(ask):
    """The model that a program has: the class and each feature of its objects, and the document of each resource. `ask` returns the answers
    to lines."""
    count = int(ask([b'new Folder'])[0][1:])
    classes = ask([b'class #%d' % number for number in range(count)])
    questions = [b'%s r%d%s' % (verb, number, what) for number in range(4) for verb, what in ((b'get', b' contents'), (b'save', b''))]
    for number, answer in enumerate(classes):
        name = answer.decode().strip().partition(' ')[2]
        for feature in FEATURES.get(name, ()):
            questions += [b'%s #%d %s' % (verb, number, feature.encode()) for verb in (b'get', b'isset')]
    return classes, ask(questions)


def lines_of(file):
    """The lines that a journal stands for, by docs/JOURNAL.md: those that begin with a space and end with a newline, up to the first other
    line."""
    found = []
    for line in file.split(b'\n')[:-1]:
        if not line.startswith(b' '):
            break
        found.append(line[1:])
    return found


class Lines:
    """Random lines over the library: most are done, some are refused, some are bad, and some only ask."""

    def __init__(self, chance):
        self.chance = chance
        self.objects = 0
        self.resources = 0

    def object(self):
        """The number of an object, rarely of one that is not there."""
        return b'#%d' % self.chance.randrange(max(1, self.objects) + 1)

    def next(self):
        """Makes one line."""
        chance = self.chance
        kind = chance.randrange(20)
        if kind < 4 or self.objects < 4:
            self.objects += 1
            return b'new ' + chance.choice((b'Book', b'Book', b'Library', b'Person', b'Folder'))
        if kind < 7:
            return b'set %s %s' % (self.object(), chance.choice((b'name "n%d"' % chance.randrange(99), b'pages %d' % chance.randrange(999), b'note null')))
        if kind < 10:
            feature = chance.choice((b'books', b'members', b'likes', b'subs', b'staff'))
            return b'add %s %s %s' % (self.object(), feature, self.object())
        if kind == 10:
            return b'add %s tags "t%d" 0' % (self.object(), chance.randrange(9))
        if kind == 11:
            return b'remove %s %s 0' % (self.object(), chance.choice((b'tags', b'books', b'likes')))
        if kind == 12:
            return b'move %s tags 0 1' % self.object()
        if kind == 13:
            return b'set %s %s %s' % (self.object(), chance.choice((b'next', b'favourite', b'library')), self.object())
        if kind == 14:
            return b'delete ' + self.object() if chance.randrange(3) == 0 else b'unset %s %s' % (self.object(), chance.choice((b'name', b'tags', b'next')))
        if kind == 15:
            self.resources += 1
            return b'resource "http://m.example/%d"' % chance.randrange(6)
        if kind == 16:
            return b'add r%d contents %s' % (chance.randrange(3), self.object())
        if kind == 17:
            return chance.choice((b'frob', b'', b'new Nothing', b'get #0 name', b'seen A1'))
        if kind == 18:
            return b'attach A%d %s deep' % (chance.randrange(1, 9), self.object())
        return b'load r%d {"format":1,"roots":[{"class":"Book","features":{"name":"of a document %d"}}]}' % (chance.randrange(4), chance.randrange(99))

    def some(self, count):
        """Makes `count` lines."""
        return [self.next() for _ in range(count)]


def read_some(stream, seconds):
    """What comes on a stream within some seconds: no bytes at its end, None if it is silent."""
    if not select.select([stream], [], [], seconds)[0]:
        return None
    return os.read(stream.fileno(), 65_536)


class Check:
    """Checks a journal after crashes: its model must be that of the lines that were answered, and perhaps of some of the lines after them.
    """

    def __init__(self, test, journal):
        self.test = test
        self.journal = Path(journal)
        self.before = []  # the lines that the journal is known to have
        self.more = 0  # how often the journal had lines that were not answered

    def after(self, lines, answered, whole=True):
        """Checks the journal after a crash: `lines` were sent, and `answered` are the answers that came. Returns the lines that the journal
        has."""
        test = self.test
        wanted = run([*self.before, *lines])[0][len(self.before):]
        test.assertEqual(answered, wanted[:len(answered)], 'an answer is another one than without a journal')
        least = kept(lines[:len(answered)], wanted)
        most = kept(lines, wanted)
        given, status, said = run([], self.journal)
        test.assertEqual((given, status, said), ([], 0, ''), 'the program does not start')
        file = lines_of(self.journal.read_bytes())
        test.assertTrue(file[0].startswith(b'mmrepo-journal 1 '))
        found = file[1:]
        test.assertEqual(found[:len(self.before)], self.before, 'a line from before is lost')
        new = found[len(self.before):]
        test.assertGreaterEqual(len(new), len(least), 'a line that was answered is lost')
        test.assertEqual(new, most[:len(new)], 'there is a line that was not sent')
        self.more += len(new) > len(least)
        self.before = found
        if whole:
            self.same_model()

    def same_model(self):
        """Checks that the model of the journal is the model that its lines make without a journal."""
        data, copy = self.journal.read_bytes(), self.journal.with_name('copy')

        def from_journal(lines):
            copy.write_bytes(data)
            return run(lines, copy)[0]

        self.test.assertEqual(has(from_journal), has(lambda lines: run([*self.before, *lines])[0][len(self.before):]))
