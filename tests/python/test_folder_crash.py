"""Crashes and full disks while `save_all` writes: after any system call each file has its old content or its new one."""

import errno
import os
import re
import resource
import shutil
import signal
import subprocess
import sys
import unittest
from collections import Counter
from pathlib import Path
from unittest import mock

from folder_support import FolderTest
from support import CLIENT, LIBRARY, PROGRAM

from mmrepo import NotSaved

STRACE = shutil.which('strace')
CALLS = ['openat', 'mkdirat', 'write', 'fchmod', 'fsync', 'rename', 'renameat', 'renameat2', 'unlink', 'unlinkat', 'linkat', 'close']

# A script that changes two files and makes one in a new folder. It prints `saving` before it saves, and `saved` afterwards.
SAVES = f"""
import os, sys
sys.path.insert(0, {str(CLIENT)!r})
sys.dont_write_bytecode = True
from mmrepo import Repository
repo = Repository({str(LIBRARY)!r}, {str(PROGRAM)!r})
folder = repo.open(sys.argv[1], strict=True)
library = folder.resources[2].contents[0]
library.books.insert(0, repo.create('Book'))
folder.resource('new/x.json').append(repo.create('Folder'))
os.write(1, b'saving')
repo.save_all()
os.write(1, b'saved')
os._exit(0)
"""


def is_whole(name):
    """Whether a file belongs to the model; a crash may leave temporary files beside it."""
    return not os.path.basename(name).startswith('.mmrepo-')


@unittest.skipUnless(STRACE, 'no strace: the package strace is not installed')
class Killed(FolderTest):
    """The process is killed at each system call that writes, one after another."""

    def run_traced(self, top, *words):
        """Runs the script under strace. Returns its output, the names of its calls before and after saving begins, and the trace of the
        latter."""
        trace = Path(self.room.name, 'trace')
        command = [STRACE, '-o', trace, '-e', 'trace=' + ','.join(CALLS), *words, sys.executable, '-I', '-S', '-c', SAVES, top]
        done = subprocess.run(command, stdout=subprocess.PIPE, stderr=subprocess.PIPE)
        before, after = re.split(r'write\(1.*"saving".*', trace.read_text() + 'write(1, "saving")\n', 2)[:2]
        return done.stdout, [re.findall(r'^(\w+)\(', text, re.M) for text in (before, after)], after

    def fresh(self):
        """A copy of the folder of the test."""
        top = Path(self.room.name, 'copy')
        shutil.rmtree(top, ignore_errors=True)
        shutil.copytree(self.top, top)
        return top

    def contents_of(self, top):
        """The bytes of each file of the model below a folder."""
        return {str(it.relative_to(top)): it.read_bytes() for it in top.rglob('*') if it.is_file() and is_whole(it.name)}

    def test_each_call(self):
        """After a kill at any call each file has its old content or its new one."""
        top = self.fresh()
        said, (before, after), _ = self.run_traced(top)
        self.assertEqual(said, b'savingsaved')
        old, new = self.contents(), self.contents_of(top)
        self.assertEqual(sorted(new), ['alone.json', 'new/x.json', 'sub/b.json', 'town.json'])
        earlier, later = Counter(before), Counter(after)
        earlier['write'] += 1  # the one that prints `saving`
        self.assertGreaterEqual(later['fsync'] + later['write'], 9)
        kills, outcomes = 0, set()
        for call, count in later.items():
            for number in range(earlier[call] + 1, earlier[call] + count + 1):
                top = self.fresh()
                said, _, _ = self.run_traced(top, '-e', f'inject={call}:signal=KILL:when={number}')
                kills += said == b'saving'
                found = self.contents_of(top)
                for name in {*old, *found}:
                    with self.subTest(call=call, number=number, name=name):
                        self.assertIn(found.get(name), (old.get(name), new.get(name)))
                outcomes.add(tuple(sorted(name for name in found if found[name] != old.get(name))))
        self.assertGreaterEqual(kills, 20)
        # Depending on the call, none, some or all of the files are new.
        self.assertLessEqual({(), ('new/x.json', 'sub/b.json', 'town.json')}, outcomes)
        self.assertGreaterEqual(len(outcomes), 3)

    def test_order(self):
        """All contents are synced before the first rename, and the folders after the last one."""
        _, _, text = self.run_traced(self.fresh(), '-y')
        calls = [line for line in text.splitlines() if re.match(r'fsync|rename', line)]
        steps = [
            'content' if '.mmrepo-' in line and line.startswith('fsync') else line.partition('(')[0] for line in calls
        ]
        renames = [index for index, step in enumerate(steps) if step.startswith('rename')]
        self.assertEqual((len(renames), steps.count('content')), (3, 3))
        self.assertLess(max(index for index, step in enumerate(steps) if step == 'content'), renames[0])
        self.assertEqual(steps[renames[-1] + 1:], ['fsync'] * 3)


class Failing(FolderTest):
    """A system call fails."""

    def failing(self, name, number):
        """A patch with which the call of a number of a function of `os` fails, and the list of its calls."""
        real, calls = getattr(os, name), []

        def called(*words, **options):
            calls.append(words)
            if len(calls) == number:
                raise OSError(errno.ENOSPC, 'No space left on device')
            return real(*words, **options)

        return mock.patch(f'os.{name}', called), calls

    def saved_with(self, name, number):
        """Saves while a call fails. Returns the contents after the failure, None if the call was not made, and the contents after saving
        again."""
        with self.opened() as repo:
            folder = repo.open(self.top, strict=True)
            folder.resources[2].contents[0].books.insert(0, repo.create('Book'))
            patch, _ = self.failing(name, number)
            with patch:
                try:
                    repo.save_all()
                except (OSError, NotSaved) as error:
                    self.assertIn('No space left on device', str(error))
                    failed = self.contents()
                    repo.save_all()  # writes the rest
                    return failed, self.contents()
            return None, self.contents()

    def test_each_call(self):
        """After any failed call each file has its old content or its new one, no other file is left, and saving again succeeds."""
        old, failures = self.contents(), 0
        with self.opened() as repo:
            repo.open(self.top).resources[2].contents[0].books.insert(0, repo.create('Book'))
            repo.save_all()
        new = self.contents()
        for name in ('open', 'fsync', 'fchmod', 'rename'):
            for number in range(1, 100):
                for file, content in old.items():
                    self.write(file, content)
                failed, saved = self.saved_with(name, number)
                self.assertEqual(saved, new)
                if failed is None:
                    break
                failures += 1
                with self.subTest(name=name, number=number):
                    self.assertEqual(set(failed), set(old))  # no temporary file is left
                    for file in old:
                        self.assertIn(failed[file], (old[file], new[file]))
                    self.assertTrue(name == 'rename' or number > 2 or failed == old)
        self.assertGreaterEqual(failures, 8)

    def test_full_disk(self):
        """If a file can't be written to its end, all files stay as they were."""
        old = self.contents()
        folder = self.repo.open(self.top, strict=True)
        folder.resources[2].contents[0].name = 'x' * 60_000
        handler = signal.signal(signal.SIGXFSZ, signal.SIG_IGN)
        limits = resource.getrlimit(resource.RLIMIT_FSIZE)
        resource.setrlimit(resource.RLIMIT_FSIZE, (1_000, limits[1]))
        try:
            with self.assertRaises(OSError):
                self.repo.save_all()
        finally:
            resource.setrlimit(resource.RLIMIT_FSIZE, limits)
            signal.signal(signal.SIGXFSZ, handler)
        self.assertEqual(self.contents(), old)
        self.assertEqual(self.repo.save_all(), [self.top / 'town.json'])
