"""`python3 -m mmrepo shell`: lines, trees, completion and history, and a folder that is opened and saved."""

import os
import pty
import re
import select
import signal
import subprocess
import sys
import time
from pathlib import Path

from support import CLIENT, LIBRARY, PROGRAM, TOP, ClientTest, LibraryTest

from mmrepo.completion import VERBS, WITH_FEATURE, Completion
from mmrepo.drawing import Drawing

TOWN = """{"format":2,"roots":[{"class":"Library","features":{"name":"Town","books":[
 {"class":"Book","features":{"name":"Emma","tags":["a"]}},{"class":"Book","features":{"pages":7}}],
 "members":[{"class":"Person","features":{"name":"Ann","favourite":"//@books.0"}}]}},{"class":"Folder","features":{"subs":[
 {"class":"Folder","features":{"subs":[{"class":"Folder","features":{}}]}},{"class":"Folder","features":{}}]}}]}
"""
TREE = """r0 http://models.example/town.json
├── [0] #0 Library "Town"
│   ├── books[0] #1 Book "Emma"
│   ├── books[1] #2 Book
│   └── members[0] #3 Person "Ann"
└── [1] #4 Folder
    ├── subs[0] #5 Folder
    │   └── subs[0] #6 Folder
    └── subs[1] #7 Folder
"""


class ShellTest(ClientTest):
    """A test with a folder of one file."""

    def setUp(self):
        super().setUp()
        self.top = Path(self.room.name, 'models')
        self.top.mkdir()
        self.town = self.top / 'town.json'
        self.town.write_text(TOWN)
        self.history = Path(self.room.name, 'history')
        self.environment = {
            **os.environ, 'PYTHONPATH': str(CLIENT), 'MMREPO': str(PROGRAM), 'PYTHONDONTWRITEBYTECODE': '1', 'TERM': 'dumb',
            'MMREPO_HISTORY': str(self.history), 'INPUTRC': '/dev/null',
        }

    def command(self, *words, meta=LIBRARY):
        """The command line for some arguments."""
        return [sys.executable, '-m', 'mmrepo', 'shell', str(meta), *map(str, words)]

    def shell(self, text, *words, **options):
        """Runs the shell with a text on standard input; returns its status and both outputs."""
        data = text if isinstance(text, bytes) else text.encode()
        done = subprocess.run(
            self.command(*words, **options), cwd=self.room.name, env=self.environment, input=data, stdout=subprocess.PIPE, stderr=subprocess.PIPE
        )
        return done.returncode, done.stdout.decode(), done.stderr.decode()


class Lines(ShellTest):
    """Lines that come from a pipe."""

    def test_tree(self):
        """`tree` draws the roots, a resource or an object, and says if lines are left out."""
        self.assertEqual(self.shell('tree\n', 'models'), (0, 'r0 models/town.json\n' + TREE, ''))
        self.assertEqual(self.shell('tree r0 3', 'models')[1].splitlines()[-2:], [
            '│   ├── books[0] #1 Book "Emma"', '.. more than 3 lines: tree r0 30 shows more'
        ])
        self.assertEqual(self.shell('tree #4\n', 'models')[1].splitlines()[1:], [
            '#4 Folder', '├── subs[0] #5 Folder', '│   └── subs[0] #6 Folder', '└── subs[1] #7 Folder'
        ])

    def test_answers(self):
        """An answer that names objects is followed by a line on each of them."""
        said = self.shell('get #0 books\nnew Book\nat "http://models.example/town.json#//@members.0"\nget #1 tags\ncontents r0\nget #3 likes\n', 'models')
        self.assertEqual(said, (0, 'r0 models/town.json\n'
                                '[#1 #2]\n  #1 Book "Emma"\n  #2 Book\n#8\n  #8 Book\n#3\n  #3 Person "Ann"\n["a"]\n'
                                '[#0 #4]\n  #0 Library "Town"\n  #4 Folder\n[]\n', ''))

    def test_show(self):
        """`show` prints the values of an object; those that are not set are in parentheses."""
        self.assertEqual(self.shell('show #3\n', 'models')[1].splitlines()[1:], [
            '#3 Person "Ann"', '  name = "Ann"', '  (job = null)', '  (likes = [])', '  favourite = #1 Book "Emma"',
        ])

    def test_what_is_wrong(self):
        """A bad line is explained as by `--explain`, without the number of the line."""
        self.assertEqual(self.shell('nwe Book\nset #0 pages 01\ntree x y\nshow\nsaveall\n'), (
            0, 'bad line\nbad line\n',
            'unknown verb "nwe"; is "new" meant?\n'
            '"01" is not a value: null, true, false, a whole number, a text in quotation marks, :LITERAL, or an object, as #0\n'
            'tree is written as: tree [NODE [LINES]]\nshow is written as: show OBJ, of an object that is there, as show #0\n'
            'no folder is open: python3 -m mmrepo shell META PATH opens one\n'
        ))

    def test_new_resource(self):
        """A new resource is shown by `tree`, with the URI that the repository gives it."""
        self.assertEqual(self.shell('resource "HTTP://M.example"\nnew Book\nadd r0 contents #0\ntree\n')[1].splitlines()[-2:], [
            'r0 http://m.example/', '└── [0] #0 Book'
        ])

    def test_script(self):
        """With `--script`, the examples and faulty lines print what the program prints."""
        names = sorted(it.name[:-4] for it in (TOP / 'examples').glob('*.txt'))
        self.assertTrue(names)
        scripts = [(TOP / f'examples/{name}.txt').read_bytes() for name in names]
        scripts.append(b'nwe Book\n\n  \nnew Book\n\xff\xfe\nset #0 name "\xc3\xa9"\nget #0 name\nattach A1 #0 flat\nset #0 pages 1\nload r0\nbook\ttab\nend\r')
        for number, script in enumerate(scripts):
            done = subprocess.run([PROGRAM, '--meta', LIBRARY, '--live', '--explain'], input=script, stdout=subprocess.PIPE, stderr=subprocess.PIPE)
            wanted = done.stdout.decode().replace('\n\n', '\n').lstrip('\n').replace('\n\n', '\n')
            file = self.file('script.txt', script)
            status, out, said = self.shell('', '--script', file)
            self.assertEqual((status, out), (0, wanted), names[number:number + 1])
            self.assertEqual(said, done.stderr.decode())
            self.assertEqual(self.shell(script, '--script')[1], wanted)

    def test_saving(self):
        """`changed` lists the changed files, `saveall` writes them, and the first `quit` warns of them."""
        status, out, said = self.shell('changed\nset #1 pages 3\nchanged\nquit\nsaveall\nchanged\nquit\nnew Book\n', 'models')
        self.assertEqual((status, out), (0, 'r0 models/town.json\nok\nmodels/town.json\nsaved models/town.json\n'))
        self.assertEqual(said, 'not saved: models/town.json; saveall writes them, and quit once more leaves them\n')
        self.assertIn('"pages":3', self.town.read_text())

    def test_not_saved(self):
        """A second `quit`, and the end of the input, leave the files as they are, and name those that were not saved."""
        text = self.town.read_text()
        self.assertEqual(self.shell('set #1 pages 3\nquit\nquit\nnew Book\n', 'models')[1], 'r0 models/town.json\nok\n')
        self.assertEqual(self.shell('set #1 pages 3\n', 'models')[2], 'not saved: models/town.json\n')
        self.assertEqual(self.town.read_text(), text)

    def test_quit_after_a_warning(self):
        """Only a second `quit` right after the first ends the shell: after any other line `quit` warns again."""
        status, out, said = self.shell('set #1 pages 3\nquit\nsaveall\nset #1 pages 4\nquit\nget #1 pages\nquit\nexit\nnew Book\n', 'models')
        self.assertEqual((status, out), (0, 'r0 models/town.json\nok\nsaved models/town.json\nok\n4\n'))
        self.assertEqual(said, 'not saved: models/town.json; saveall writes them, and quit once more leaves them\n' * 3)
        self.assertIn('"pages":3', self.town.read_text())

    def test_changed_by_others(self):
        """A file that others have changed is overwritten only by `saveall force`."""
        with subprocess.Popen(self.command('models'), cwd=self.room.name, env=self.environment, stdin=subprocess.PIPE,
                              stdout=subprocess.PIPE, stderr=subprocess.PIPE) as run:
            run.stdin.write(b'set #1 pages 3\n')
            run.stdin.flush()
            self.assertEqual(run.stdout.readline(), b'r0 models/town.json\n')
            self.town.write_text(TOWN + ' ')
            out, said = run.communicate(b'saveall\nsaveall force\n')
        self.assertEqual(out.decode().splitlines()[-1], 'saved models/town.json')
        self.assertIn('town.json: it was changed by others', said.decode())

    def test_findings(self):
        """The findings of the folder are printed at the start."""
        (self.top / 'bad.json').write_text('x')
        self.assertEqual(self.shell('', 'models')[2], 'bad.json: from byte 1 on the document is no JSON: "x"\n')

    def test_wrong_use(self):
        """Wrong arguments give status 2 and a line."""
        for words, meta in ((['none'], LIBRARY), (['models', '--base', 'x'], LIBRARY), (['--script', 'none'], LIBRARY), ([], 'none')):
            status, out, said = self.shell('', *words, meta=meta)
            self.assertEqual((status, out, said[:7]), (2, '', 'error: '))

    def test_program_ends(self):
        """If the program ends, the status is 3."""
        self.environment['MMREPO'] = str(self.fake('for line in lines():\n    if "Book" in line: sys.exit(3)\n    say("\\n")'))
        status, _, said = self.shell('new Book\n')
        self.assertEqual((status, said[:30]), (3, 'error: the program ended, at t'))


class Terminal(ShellTest):
    """A prompt on a terminal."""

    def setUp(self):
        super().setUp()
        self.ours, theirs = pty.openpty()
        self.running = subprocess.Popen(
            self.command('models'), cwd=self.room.name, env=self.environment, stdin=theirs, stdout=theirs, stderr=theirs, start_new_session=True
        )
        os.close(theirs)
        self.addCleanup(os.close, self.ours)
        self.addCleanup(self.running.wait)
        self.addCleanup(self.running.kill)
        self.shown = ''
        self.until('> ')

    def until(self, text, seconds=60):
        """Reads from the terminal up to a text, and returns what was read; fails after some seconds."""
        end = time.monotonic() + seconds
        while text not in self.shown:
            self.assertTrue(select.select([self.ours], [], [], max(0, end - time.monotonic()))[0], self.shown)
            self.shown += os.read(self.ours, 4096).decode()
        before, _, self.shown = self.shown.partition(text)
        return before + text

    def type(self, text):
        """Types a text."""
        os.write(self.ours, text.encode())

    def interrupt(self):
        """Presses Ctrl-C, and waits for the next prompt. Python misses a signal that comes just before it waits for a key, so it is sent
        again."""
        for _ in range(12):
            os.killpg(self.running.pid, signal.SIGINT)
            if select.select([self.ours], [], [], 5)[0]:
                break
        self.until('> ')

    def test_completion_and_history(self):
        """The tab key completes words, and the lines are kept in the history."""
        self.type('new Bo\t\n')
        self.assertIn('new Book', self.until('#8 Book'))
        self.until('> ')
        self.type('set #8 pag\t5\n')
        self.assertIn('set #8 pages 5', self.until('ok'))
        self.until('> ')
        self.type('set #8 genre :PO\t\n')
        self.until('ok')
        self.until('> ')
        self.type('get #8 genre\n')
        self.until(':POEM')
        self.until('> ')
        self.type('quit\nquit\n')
        self.assertEqual(self.running.wait(30), 0)
        self.assertEqual([it for it in self.history.read_text().splitlines() if it != '_HiStOrY_V2_'][:1], ['new Book '])

    def test_ctrl_c_and_d(self):
        """Ctrl-C drops the line, and Ctrl-D ends the shell."""
        self.type('new Bo')
        self.until('new Bo')
        self.interrupt()
        self.type('get #1 pages\n')
        self.until('100')
        self.until('> ')
        self.type('\x04')
        self.assertEqual(self.running.wait(30), 0)


class Completing(LibraryTest):
    """The candidates for a word."""

    def candidates(self, line):
        """The candidates for the last word of a line."""
        *before, begun = line.split(' ')
        return self.completion.candidates(before, begun)

    def setUp(self):
        super().setUp()
        self.drawing = Drawing(self.repo._session, self.repo.metamodel)
        self.completion = Completion(self.repo.metamodel, self.drawing.class_of, ['tree', 'quit'])
        self.made('Book', 'Library')

    def test_words(self):
        """The candidates follow from the verb, the class of the object and the type of the feature."""
        cases = [
            ('res', ['resolve', 'resolveall', 'resource']), ('q', ['quit']), ('new ', ['Book', 'Folder', 'Library', 'Person']), ('new L', ['Library']),
            ('new Book ', []), ('get #0 n', ['name', 'next', 'note']), ('get #1 b', ['books']), ('add r0 ', ['contents']), ('get #7 ', []),
            ('set #0 genre :P', [':PLAY', ':POEM']), ('set #0 next ', ['null']), ('set #0 pages ', []), ('set #0 name n', ['null']),
            ('add #1 books ', []), ('set #0 nothing ', []), ('attach A1 #0 ', ['deep', 'flat']), ('save r', []), ('x ', []),
        ]
        for line, wanted in cases:
            with self.subTest(line):
                self.assertEqual(self.candidates(line), wanted)

    def test_verbs(self):
        """The verbs, and those that take a feature after a node, are those of docs/SCRIPT.md."""
        rows = re.findall(r'^\| (`[a-z]+[^|]*`) \|', (TOP / 'docs/SCRIPT.md').read_text().partition('## Commands')[2].partition('## Refusals')[0], re.M)
        forms = [form.split() for row in rows for form in re.findall(r'`([^`]+)`', row)]
        self.assertEqual(sorted({form[0] for form in forms}), sorted(VERBS))
        self.assertEqual(sorted({form[0] for form in forms if form[2:3] == ['NAME']}), sorted(WITH_FEATURE))

    def test_many_objects(self):
        """At most 20 objects of an answer are described, and answers without objects are not."""
        library, = self.made('Library')
        library.books.extend(self.made(*['Book'] * 30))
        lines = self.drawing.answered(self.repo._session.raw(f'get {library._word} books')[0])
        self.assertEqual((len(lines), lines[-1]), (21, '  .. and 10 more'))
        for answer in ('ok', 'true', '["#1"]', '', 'proxy "x"', '[]', 'r0', '#1 #2'):
            self.assertEqual(self.drawing.answered(answer), [])
