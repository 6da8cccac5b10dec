"""The example of docs/SHARDS.md prints what the page shows."""

import os
import re
import subprocess
import sys

from support import CLIENT, LIBRARY, PROGRAM, TOP, ClientTest

PAGE = (TOP / 'docs/SHARDS.md').read_text()


def block(language):
    """The one code block of a language on the page."""
    found, = re.findall(rf'^```{language}\n(.*?)^```$', PAGE, re.M | re.S)
    return found


class Example(ClientTest):
    """Three files, each of which refers to another one in a circle."""

    def test_prints(self):
        """The program of the page prints the text of the page."""
        self.file('library.json', LIBRARY.read_bytes())
        models = self.file('models', '')
        models.unlink()
        models.mkdir()
        for number in (1, 2, 3):
            (models / f'{number}.json').write_text(block('json').replace('2.json', f'{number % 3 + 1}.json'))
        script = self.file('count.py', block('python'))
        environment = {**os.environ, 'PYTHONPATH': str(CLIENT), 'MMREPO': str(PROGRAM), 'PYTHONDONTWRITEBYTECODE': '1'}
        done = subprocess.run([sys.executable, script], cwd=self.room.name, env=environment, stdout=subprocess.PIPE, stderr=subprocess.PIPE)
        self.assertEqual((done.stdout.decode(), done.stderr.decode()), (block('text'), ''))
