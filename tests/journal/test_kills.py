"""The program is killed at random moments of random dialogues."""

import os
import random
import subprocess
import tempfile
import time
import unittest

from journaled import SEED, Check, Lines, blocks, command, read_some

KILLS = int(os.environ.get('JOURNAL_KILLS', '40'))
A_FILE = 10  # kills with one journal


class Kills(unittest.TestCase):
    """Kills at random moments, one after another with one journal."""

    def test_nothing_that_was_answered_is_lost(self):
        """After each kill the journal has all lines that were answered, and perhaps some of the lines after them, in order."""
        chance, more = random.Random(SEED), 0
        for first in range(0, KILLS, A_FILE):
            with tempfile.TemporaryDirectory() as room:
                check, lines = Check(self, f'{room}/journal'), Lines(chance)
                for kill in range(first, min(KILLS, first + A_FILE)):
                    sent, answered = killed(chance, check.journal, lines)
                    with self.subTest(seed=SEED, kill=kill):
                        check.after(sent, answered)
                more += check.more
        print(f'{KILLS} kills, after {more} of them the journal had lines that were not answered')


def killed(chance, journal, lines):
    """Sends lines, some one by one and some together, and kills the program; returns the lines that were sent and the answers that came."""
    running = subprocess.Popen(command(journal), stdin=subprocess.PIPE, stdout=subprocess.PIPE, bufsize=0)
    sent, text = [], b''
    for _ in range(chance.randrange(12)):
        some = lines.some(chance.choice((1, 1, 1, 5, 30)))
        sent += some
        running.stdin.write(b''.join(line + b'\n' for line in some))
        while len(blocks(text)) < len(sent):
            text += read_some(running.stdout, 60)
    some = lines.some(chance.choice((1, 1, 20, 300)))
    sent += some
    running.stdin.write(b''.join(line + b'\n' for line in some))
    time.sleep(chance.random() * chance.choice((0.0005, 0.002, 0.01)))
    running.kill()
    rest = running.communicate()[0]
    return sent, blocks(text + rest)
