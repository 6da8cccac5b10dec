"""`--load` and `--save`: resources that are loaded from files before a script, and saved to files after it."""

import json
import os
import stat
import subprocess
import tempfile
import unittest
from pathlib import Path

from shop import METAMODEL, PROGRAM, SECONDS

# Without this capability the permissions of files apply to a superuser too.
AS_USER = ('setpriv', '--bounding-set=-dac_override') if os.geteuid() == 0 else ()
URI = 'http://m.example/shop'
SHOP = '{"format":2,"roots":[{"class":"Shop","features":{"customers":[{"class":"Customer","features":{"name":"Ann"}}],"name":"Corner"}}]}'


class Files(unittest.TestCase):
    """Runs in a folder of their own."""

    def setUp(self):
        room = tempfile.TemporaryDirectory()
        self.addCleanup(room.cleanup)
        self.folder = Path(room.name)
        (self.folder / 'meta.json').write_text(METAMODEL)
        (self.folder / 'shop.json').write_text(SHOP)

    def run_program(self, lines, *options):
        """Runs the program; returns both outputs and the status."""
        done = subprocess.run(
            [*AS_USER, PROGRAM, '--meta', 'meta.json', *options],
            cwd=self.folder,
            input='\n'.join(lines).encode(),
            stdout=subprocess.PIPE,
            stderr=subprocess.PIPE,
            timeout=SECONDS,
        )
        return done.stdout.decode(), done.stderr.decode(), done.returncode

    def names(self):
        """The names of the files in the folder."""
        return sorted(file.name for file in self.folder.iterdir())

    def test_a_file_is_loaded_as_two_lines_load_it(self):
        """`--load` prints and makes the same as the lines `resource` and `load`."""
        lines = ['get #0 name', 'contents #0', 'new Order', 'add #0 orders #2', 'resource "http://m.example/b"', 'save r0']
        two = [f'resource "{URI}"', f'load r0 {SHOP}']
        loaded = self.run_program(lines, '--load', f'{URI}=shop.json')
        printed, _, _ = self.run_program(two + lines)
        self.assertEqual(loaded, (printed.removeprefix('r0\nloaded 2\n'), '', 0))

    def test_a_document_has_many_lines(self):
        """A document in a file may have several lines, unlike one in a script."""
        (self.folder / 'shop.json').write_text(json.dumps(json.loads(SHOP), indent=2))
        self.assertEqual(self.run_program(['get #0 name'], '--load', f'{URI}=shop.json'), ('"Corner"\n', '', 0))

    def test_several_files(self):
        """Files are loaded in the order of the arguments; a reference between them is a proxy until it is resolved."""
        order = '{"format":2,"roots":[{"class":"Order","features":{"customer":"shop#//@customers.0"}}]}'
        (self.folder / 'order.json').write_text(order)
        loads = ('--load', 'http://m.example/order=order.json', '--load', f'{URI}=shop.json')
        printed, said, status = self.run_program(['get #0 customer', 'resolveall', 'get #0 customer'], *loads)
        self.assertEqual((printed, said, status), (f'proxy "{URI}#//@customers.0"\nresolved 1 left 0\n#2\n', '', 0))

    def test_a_live_run_over_a_file(self):
        """`--load` and `--save` can be used with `--live`."""
        printed, said, status = self.run_program(
            ['get #0 name', 'set #0 name "Mall"'], '--live', '--load', f'{URI}=shop.json', '--save', f'{URI}=out.json'
        )
        self.assertEqual((printed, said, status), ('"Corner"\n\nok\n\n', '', 0))
        self.assertEqual((self.folder / 'out.json').read_text(), SHOP.replace('Corner', 'Mall') + '\n')

    def test_a_refusal_stops_before_the_script(self):
        """A refused file is printed with its name; neither the script nor a later file is read."""
        shop = f'{URI}=shop.json'
        wrong = [
            (('file:/a=shop.json',), 'shop.json: refused 15 BAD_URI', 'shop.json: the scheme of "file:/a" is "file", and has to be http or https'),
            ((shop, shop), 'shop.json: refused 16 RESOURCE_EXISTS', f'shop.json: r0 has the URI "{URI}" already'),
            ((f'{URI}=meta.json', shop), 'meta.json: refused 18 DOCUMENT 2 LAYOUT', 'meta.json: the key "format" is absent'),
            ((f'{URI}=bytes',), 'bytes: refused 18 DOCUMENT 1 SYNTAX', 'bytes: from byte 4 on the document is not UTF-8'),
            ((f'{URI}=mark',), 'mark: refused 18 DOCUMENT 1 SYNTAX', 'mark: the document begins with a byte order mark; take it out'),
            ((f'{URI}=comma',), 'comma: refused 18 DOCUMENT 1 SYNTAX', 'comma: from byte 28 on the document is no JSON: "]}"'),
            ((f'{URI}=lost',), 'lost: refused 18 DOCUMENT 7 REFERENCE', 'lost: roots[0].features.customer: "/7" leads to no object of the document'),
        ]
        (self.folder / 'bytes').write_bytes(b'{"a\xff":1}')
        (self.folder / 'mark').write_text('\ufeff' + SHOP)
        (self.folder / 'comma').write_text('{"format":2,\n "roots": [{},]}')
        (self.folder / 'lost').write_text('{"format":2,"roots":[{"class":"Order","features":{"customer":"/7"}}]}')
        for loads, refusal, explained in wrong:
            options = [word for load in loads for word in ('--load', load)]
            with self.subTest(refusal):
                self.assertEqual(self.run_program(['new Shop'], *options), ('', refusal + '\n', 5))
                printed, said, status = self.run_program(['new Shop'], '--explain', *options)
                self.assertEqual((printed, said.splitlines()[:2], status), ('', [refusal, explained], 5))

    def test_a_file_that_is_not_there(self):
        """A file that can't be read stops the run, as a missing script does."""
        self.assertEqual(self.run_program(['new Shop'], '--load', f'{URI}=none.json'), ('', 'run stopped: READ\n', 3))
        said = 'run stopped: READ\nnone.json: No such file or directory (os error 2)\n'
        self.assertEqual(self.run_program(['new Shop'], '--load', f'{URI}=none.json', '--explain'), ('', said, 3))
        self.assertEqual(self.run_program(['new Shop'], '--load', f'{URI}=.')[1:], ('run stopped: READ\n', 3))

    def test_the_last_equals_sign_ends_the_uri(self):
        """A URI may have a query: the last equals sign ends it."""
        printed, said, status = self.run_program(['at "http://m.example/a?b=c#/"'], '--load', 'http://m.example/a?b=c=shop.json')
        self.assertEqual((printed, said, status), ('#0\n', '', 0))

    def test_what_is_saved_is_the_answer_of_save(self):
        """The file has the document and a newline."""
        lines = ['resource "http://m.example/a"', 'new Shop', 'add r0 contents #0', 'set #0 name "A"', 'save r0']
        printed, said, status = self.run_program(lines, '--save', 'HTTP://m.example/a=out.json')
        self.assertEqual((said, status), ('', 0))
        self.assertEqual((self.folder / 'out.json').read_text(), printed.splitlines()[-1] + '\n')
        self.assertEqual(self.names(), ['meta.json', 'out.json', 'shop.json'])

    def test_a_file_is_replaced(self):
        """A resource is loaded, changed and saved to the same file; an empty resource is saved too."""
        both = ('--load', f'{URI}=shop.json', '--save', f'{URI}=shop.json', '--save', 'http://m.example/b=b.json')
        self.assertEqual(self.run_program(['set #0 name "B"', 'resource "http://m.example/b"'], *both)[1:], ('', 0))
        self.assertEqual((self.folder / 'shop.json').read_text(), SHOP.replace('Corner', 'B') + '\n')
        self.assertEqual((self.folder / 'b.json').read_text(), '{"format":2,"roots":[]}\n')

    def test_nothing_is_saved_if_one_is_refused(self):
        """A refusal is printed after the answers, and all files stay as they are."""
        lines = ['resource "http://m.example/a"', 'resource "http://m.example/b"', 'new Order', 'new Customer', 'add r1 contents #0', 'set #0 customer #1']
        saves = ('--save', 'http://m.example/a=a.json', '--save', 'http://m.example/b=b.json')
        printed = 'r0\nr1\n#0\n#1\ntrue\nok\n'
        self.assertEqual(self.run_program(lines, *saves), (printed, 'b.json: refused 19 DANGLING\n', 5))
        said = 'b.json: customer of #0 (Order) refers to #1 (Customer), which is in no resource; put it, or what contains it, into the contents of one\n'
        self.assertEqual(self.run_program(lines, '--explain', *saves), (printed, 'b.json: refused 19 DANGLING\n' + said, 5))
        self.assertEqual(self.names(), ['meta.json', 'shop.json'])

    def test_a_resource_that_is_not_there(self):
        """A URI that no resource has is refused."""
        self.assertEqual(self.run_program([], '--save', f'{URI}=a.json'), ('', 'a.json: refused 2 NO_RESOURCE\n', 5))
        said = f'a.json: refused 2 NO_RESOURCE\na.json: no resource has the URI "{URI}"\n'
        self.assertEqual(self.run_program([], '--explain', '--save', f'{URI}=a.json'), ('', said, 5))
        self.assertEqual(self.run_program([], '--save', 'shop=a.json'), ('', 'a.json: refused 15 BAD_URI\n', 5))

    def test_a_run_that_stops_saves_nothing(self):
        """A run that stops by itself or by `--stop` saves nothing."""
        both = ('--load', f'{URI}=shop.json', '--save', f'{URI}=out.json')
        self.assertEqual(self.run_program(['frob', 'new Shop'], '--stop', *both), ('bad line\n', '', 0))
        self.assertEqual(self.run_program([], '--script', 'none', *both), ('', 'run stopped: READ\n', 3))
        self.assertEqual(self.names(), ['meta.json', 'shop.json'])

    def test_a_fault_of_a_line_is_no_reason_not_to_save(self):
        """A run that reaches its end saves, even if lines were refused."""
        both = ('--load', f'{URI}=shop.json', '--save', f'{URI}=out.json')
        self.assertEqual(self.run_program(['frob'], '--strict', *both), ('bad line\n', '', 4))
        self.assertEqual((self.folder / 'out.json').read_text(), SHOP + '\n')

    def test_a_folder_that_takes_no_file(self):
        """A file that can't be written stops the run, and the old file stays."""
        self.folder.chmod(stat.S_IRUSR | stat.S_IXUSR)
        self.addCleanup(self.folder.chmod, stat.S_IRWXU)
        both = ('--load', f'{URI}=shop.json', '--save', f'{URI}=shop.json')
        self.assertEqual(self.run_program(['set #0 name "B"'], *both), ('ok\n', 'run stopped: WRITE\n', 3))
        self.assertEqual((self.folder / 'shop.json').read_text(), SHOP)

    def test_a_folder_that_is_not_there(self):
        """With `--explain` the file and the system's reason are printed."""
        both = ('--load', f'{URI}=shop.json', '--save', f'{URI}=none/a.json')
        self.assertEqual(self.run_program([], *both), ('', 'run stopped: WRITE\n', 3))
        said = 'run stopped: WRITE\nnone/a.json: No such file or directory (os error 2)\n'
        self.assertEqual(self.run_program([], '--explain', *both), ('', said, 3))

    def test_a_file_that_takes_no_more(self):
        """If a write fails, the old file stays, and no other file is left."""
        if not Path('/dev/full').exists():
            self.skipTest('there is no /dev/full')
        (self.folder / 'out.json').mkdir()
        both = ('--load', f'{URI}=shop.json', '--save', f'{URI}=out.json')
        self.assertEqual(self.run_program([], *both), ('', 'run stopped: WRITE\n', 3))
        self.assertEqual(self.names(), ['meta.json', 'out.json', 'shop.json'])

    def test_options_that_are_wrong(self):
        """A value without a file, and `--load` with a journal, are errors with the usage."""
        usage = "\nUsage: mmrepo [OPTIONS] --meta <FILE>\n\nFor more information, try '--help'.\n"
        for options, error in (
            (('--load', 'shop.json'), 'error: --load takes URI=FILE\n'),
            (('--save', f'{URI}='), 'error: --save takes URI=FILE\n'),
            (('--live', '--journal', 'j', '--load', f'{URI}=shop.json'), "error: --load can't be used with --journal\n"),
        ):
            with self.subTest(error):
                self.assertEqual(self.run_program([], *options), ('', error + usage, 2))

    def test_a_journal_is_saved_as_documents(self):
        """`--save` can be used with `--journal`: it saves the resources that the journal's lines made, even if the input is empty."""
        journal = ('--live', '--journal', 'kept')
        lines = ['resource "http://m.example/a"', 'new Shop', 'add r0 contents #0', 'set #0 name "A"']
        self.assertEqual(self.run_program(lines, *journal)[1:], ('', 0))
        self.assertEqual(self.run_program([], *journal, '--save', 'http://m.example/a=a.json'), ('', '', 0))
        self.assertEqual((self.folder / 'a.json').read_text(), '{"format":2,"roots":[{"class":"Shop","features":{"name":"A"}}]}\n')


if __name__ == '__main__':
    unittest.main()
