"""The program starts with random files that a disk may have after a crash."""

import os
import random
import shutil
import tempfile
import unittest
from pathlib import Path

from disk import Answer, Cut, after_crash, recorded
from journaled import FEATURES, SEED, Lines, blocks, kept, lines_of, run

STRACE = shutil.which('strace')
IMAGES = int(os.environ.get('JOURNAL_IMAGES', '600'))
AGAIN = 5  # files tried for each crash during a recovery


@unittest.skipUnless(STRACE, 'no strace: the package strace is not installed')
class Disks(unittest.TestCase):
    """Files in which any part of what was written since the last sync is lost or is garbage."""

    def setUp(self):
        room = tempfile.TemporaryDirectory()
        self.addCleanup(room.cleanup)
        self.room = Path(room.name)
        self.chance = random.Random(SEED)

    def begins(self, image):
        """Starts the program with a file; returns what it has, and the lines of the journal afterwards."""
        copy = self.room / 'image'
        copy.write_bytes(image)
        found = run(self.questions, copy)
        self.assertEqual(found[1:], (0, ''), 'the program does not start')
        return found[0], lines_of(copy.read_bytes())[1:]

    def given(self, count):
        """What the program has after the first `count` lines that the journal keeps."""
        if count not in self.known:
            self.known[count] = run([*self.kept[:count], *self.questions])[0][count:]
        return self.known[count]

    def crashes(self, lines, together, images):
        """Records a dialogue, starts the program with files that crashes at random moments leave, and returns how many files of each kind
        there were."""
        calls = recorded(STRACE, self.room, self.room / 'journal', lines, together)
        answers = run(lines)[0]
        made = int(run([*lines, b'new Folder'])[0][-1][1:])
        self.questions = [
            b'get #%d %s' % (number, feature.encode())
            for number in range(made + 1) for feature in sorted({name for names in FEATURES.values() for name in names})
        ]
        self.questions += [b'save r%d' % number for number in range(4)]
        self.kept, self.known = kept(lines, answers), {}
        counts = {'files': 0, 'with more than was answered': 0, 'that were repaired': 0, 'of a crash in the recovery': 0}
        for number in range(images):
            moment = self.chance.randrange(len(calls) + 1)
            with self.subTest(seed=SEED, together=together, image=number, moment=moment):
                self.crash(calls[:moment], lines, answers, counts)
        return counts

    def crash(self, calls, lines, answers, counts):
        """Starts the program with a file that a crash after some calls may leave, and checks its lines and its model."""
        image = after_crash(self.chance, b'', calls)
        answered = len(blocks(b''.join(call.data for call in calls if isinstance(call, Answer))))
        had, found = self.begins(image)
        least = len(kept(lines[:answered], answers))
        self.assertGreaterEqual(len(found), least, 'a line that was answered is lost')
        self.assertEqual(found, self.kept[:len(found)], 'there is a line that was not sent')
        self.assertEqual(had, self.given(len(found)), 'the model is another one')
        counts['files'] += 1
        counts['with more than was answered'] += len(found) > least
        if self.chance.randrange(10) == 0:
            self.crash_again(image, found, counts)

    def crash_again(self, image, found, counts):
        """Crashes while the program recovers from a file, and starts it with a file that this crash may leave."""
        copy = self.room / 'again'
        copy.write_bytes(image)
        calls = recorded(STRACE, self.room, copy, [], 1)
        counts['that were repaired'] += any(isinstance(call, Cut) for call in calls)
        for _ in range(AGAIN):
            left = after_crash(self.chance, image, calls[:self.chance.randrange(len(calls) + 1)])
            self.assertEqual(self.begins(left), (self.given(len(found)), found))
            counts['of a crash in the recovery'] += 1

    def test_lines_that_come_one_by_one(self):
        """Each line is answered before the next is sent."""
        print('one by one:', self.crashes(Lines(self.chance).some(40), 1, IMAGES // 3))

    def test_lines_that_come_together(self):
        """Eight lines are sent at a time, so that a commit has several lines."""
        print('eight at once:', self.crashes(Lines(self.chance).some(120), 8, IMAGES // 3))

    def test_a_commit_of_many_sectors(self):
        """160 lines are sent at a time, so that a commit is longer than a sector."""
        print('all at once:', self.crashes(Lines(self.chance).some(160), 160, IMAGES // 3))
