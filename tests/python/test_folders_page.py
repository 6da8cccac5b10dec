"""The examples of docs/FOLDERS.md print what the page shows."""

import argparse
import os
import re
import subprocess
import sys

from support import CLIENT, LIBRARY, PROGRAM, TOP, ClientTest

from mmrepo import check, shell

PAGE = (TOP / 'docs/FOLDERS.md').read_text()


def blocks(language):
    """The code blocks of a language on the page, in order."""
    return re.findall(rf'^```{language}\n(.*?)^```$', PAGE, re.M | re.S)


class Opening(ClientTest):
    """The examples on one folder."""

    def setUp(self):
        super().setUp()
        self.file('library.json', LIBRARY.read_bytes())
        models = self.file('models', '')
        models.unlink()
        (models / 'sub').mkdir(parents=True)
        (models / 'town.json').write_text(blocks('json')[0])
        (models / 'sub/persons.json').write_text(blocks('json')[1])

    def test_example(self):
        """The Python program of the page."""
        self.assertEqual(self.run_code(blocks('python')[0], self.room.name), blocks('text')[0])

    def test_check(self):
        """The `check` command of the page."""
        command, printed = re.search(r'^```\npython3 (-m mmrepo check.*)\n```\n\nprints\n\n```\n(.*?)^```$', PAGE, re.M | re.S).groups()
        environment = {**os.environ, 'PYTHONPATH': str(CLIENT), 'MMREPO': str(PROGRAM), 'PYTHONDONTWRITEBYTECODE': '1'}
        done = subprocess.run([sys.executable, *command.split()], cwd=self.room.name, env=environment, stdout=subprocess.PIPE)
        self.assertEqual((done.returncode, done.stdout.decode()), (1, printed))

    def test_shell(self):
        """The lines for the shell get the answers of the page, and change no file."""
        typed, answered = re.search(r'^```\n(tree\n.*?)^```$\n\nare answered by\n\n```\n(.*?)^```$', PAGE, re.M | re.S).groups()
        environment = {**os.environ, 'PYTHONPATH': str(CLIENT), 'MMREPO': str(PROGRAM), 'PYTHONDONTWRITEBYTECODE': '1'}
        done = subprocess.run(
            [sys.executable, '-m', 'mmrepo', 'shell', 'library.json', 'models'], cwd=self.room.name, env=environment, input=typed.encode(),
            stdout=subprocess.PIPE, stderr=subprocess.PIPE,
        )
        self.assertEqual((done.returncode, done.stdout.decode()), (0, answered))

    def test_options(self):
        """The page names each option of the commands, and each kind of finding of the package."""
        parser = argparse.ArgumentParser(conflict_handler='resolve')
        check.add_arguments(parser)
        shell.add_arguments(parser)
        for option in set(parser._option_string_actions) - {'-h', '--help'}:
            self.assertIn(f'`{option}', PAGE)
        for file in (CLIENT / 'mmrepo').glob('*.py'):
            for kind in re.findall(r"(?:Finding\(\w+(?:\.\w+)*, |_InTheWay\()'([A-Z_]+)'", file.read_text()):
                self.assertIn(f'`{kind}`', PAGE)
