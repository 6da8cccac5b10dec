"""Shared by the tests of the editor: servers of the editor, and a browser that the tests drive."""

import atexit
import json
import os
import shutil
import signal
import socket
import subprocess
import sys
import tempfile
import threading
import time
import unittest
import urllib.error
import urllib.request
import zipfile
from contextlib import suppress
from functools import lru_cache
from pathlib import Path

from support import CLIENT, LIBRARY, PROGRAM, TOP, ClientTest

DRIVER = Path(__file__).parent / 'browser_driver.py'
PYTHONS = [sys.executable, '/usr/bin/python3']
SECONDS = 60  # that the driver may take for a command
ECORE_JAR = Path('/usr/share/java/eclipse-emf-ecore.jar')
MODEL_JAR, WORKBENCH_JAR = [Path(f'/usr/share/java/eclipse-{name}.jar') for name in ('e4-ui-model-workbench', 'ui-workbench')]


@lru_cache()
def python_of_selenium():
    """A Python interpreter that has selenium, or None."""
    for python in PYTHONS:
        if shutil.which(python) and subprocess.run([python, '-c', 'import selenium'], stderr=subprocess.DEVNULL).returncode == 0:
            return python
    return None


def lacks_browser():
    """What a test in a browser needs and this machine lacks; empty if nothing is missing."""
    absent = [name for name in ('chromium', 'chromedriver') if not shutil.which(name)]
    return ', '.join(absent + ([] if python_of_selenium() else ['python3-selenium']))


with_browser = unittest.skipIf(lacks_browser(), f'not installed: {lacks_browser()}')


class Browser:
    """Headless Chromium in a process of its own. Its methods are the commands of `browser_driver.Commands`: `click`, `type`, `run`, .."""

    def __init__(self):
        self.room = tempfile.mkdtemp()
        command = [python_of_selenium(), str(DRIVER), shutil.which('chromium'), shutil.which('chromedriver'), self.room]
        environment = {**os.environ, 'HOME': self.room, 'PYTHONDONTWRITEBYTECODE': '1'}
        self._process = subprocess.Popen(
            command, stdin=subprocess.PIPE, stdout=subprocess.PIPE, stderr=subprocess.PIPE, env=environment, start_new_session=True
        )
        if self._process.stdout.readline() != b'[]\n':
            raise RuntimeError(f'the browser was not started: {self._process.stderr.read().decode()}')

    def __getattr__(self, name):
        def do(*words):
            self._process.stdin.write(json.dumps([name, *words]).encode() + b'\n')
            self._process.stdin.flush()
            line = self._process.stdout.readline()
            answer = json.loads(line) if line else [None, f'the driver ended: {self._process.stderr.read().decode()}']
            if len(answer) > 1:
                raise AssertionError(answer[1])
            return answer[0]
        return do

    def end(self):
        """Ends the browser with all its processes, which form a process group of their own."""
        self._process.stdin.close()
        with suppress(subprocess.TimeoutExpired):
            self._process.wait(20)
        with suppress(ProcessLookupError):
            os.killpg(self._process.pid, signal.SIGKILL)
        self._process.wait()
        self._process.stdout.close()
        self._process.stderr.close()
        shutil.rmtree(self.room, ignore_errors=True)


class EditorTest(ClientTest):
    """A test with a server of the editor."""

    def start(self, *words, meta=LIBRARY):
        """Starts the editor over a metamodel, in the folder of the test; returns its address."""
        environment = {**os.environ, 'PYTHONPATH': str(CLIENT), 'MMREPO': str(PROGRAM), 'PYTHONDONTWRITEBYTECODE': '1'}
        command = [sys.executable, '-W', 'error', '-m', 'mmrepo', 'edit', str(meta), *map(str, words), '--no-browser']
        self.server = subprocess.Popen(
            command, cwd=self.room.name, env=environment, stdout=subprocess.PIPE, stderr=subprocess.PIPE, start_new_session=True
        )
        self.addCleanup(self.stop)
        self.address = self.server.stdout.readline().decode().strip()
        if not self.address.startswith('http://127.0.0.1:'):
            self.fail(self.server.stderr.read().decode())
        return self.address

    def stop(self):
        """Ends the server by Ctrl-C; returns what it wrote to standard error."""
        if self.server.poll() is None:
            self.server.send_signal(signal.SIGINT)
        if self.server.stdout.closed:
            return ''
        said = self.server.communicate(timeout=60)[1].decode()
        self.assertEqual(self.server.returncode, 0, said)
        return said

    def call(self, do, **words):
        """Makes a call as a window does, and returns its result. A refusal is returned as a text, for instance `BOUND: at most 2 staff`."""
        words = {key.rstrip('_'): value for key, value in words.items()}
        body = json.dumps({'do': do, **words}).encode()
        request = urllib.request.Request(f'{self.address}call', body, {'Content-Type': 'application/json'})
        try:
            with urllib.request.urlopen(request) as answer:
                return json.load(answer)
        except urllib.error.HTTPError as refused:
            with refused:
                return json.load(refused)['text']

    def write(self, name, document):
        """Writes a file below the folder `models`, and returns the path of that folder."""
        path = Path(self.room.name, 'models', name)
        path.parent.mkdir(parents=True, exist_ok=True)
        path.write_text(document if isinstance(document, str) else json.dumps(document), encoding='utf-8')
        return Path(self.room.name, 'models')

    def taken(self, jar, suffix, folder):
        """Extracts the files of a jar that have a suffix into a folder, and returns their paths."""
        Path(folder).mkdir(parents=True, exist_ok=True)
        with zipfile.ZipFile(jar) as read:
            names = [name for name in read.namelist() if name.endswith(suffix)]
            for name in names:
                Path(folder, Path(name).name).write_bytes(read.read(name))
        return sorted(Path(folder, Path(name).name) for name in names)

    def meta(self, ecore):
        """The metamodel document that `tools/ecore2mm` makes of Ecore files."""
        path = Path(self.room.name, 'meta.json')
        command = [sys.executable, str(TOP / 'tools/ecore2mm'), *map(str, ecore), '-o', str(path)]
        subprocess.run(command, check=True, stderr=subprocess.PIPE)
        return path


class Way:
    """A TCP proxy between the browser and a server, by which a test breaks their connections."""

    def __init__(self, address):
        self._server = address.split('/')[2].encode()
        self._listening = socket.create_server(('127.0.0.1', 0))
        self._here = f'127.0.0.1:{self._listening.getsockname()[1]}'.encode()
        self.address = address.replace(self._server.decode(), self._here.decode())
        self._open = []
        self._is_cut = False
        threading.Thread(target=self._accept, daemon=True).start()

    def _accept(self):
        """Accepts connections until the proxy ends."""
        with suppress(OSError):
            while True:
                near = self._listening.accept()[0]
                if self._is_cut:
                    near.close()
                    continue
                host, port = self._server.split(b':')
                far = socket.create_connection((host.decode(), int(port)))
                self._open += [near, far]
                threading.Thread(target=self._pump, args=(near, far), daemon=True).start()
                threading.Thread(target=self._pump, args=(far, near), daemon=True).start()

    def _pump(self, one, other):
        """Copies the bytes of one connection to the other. The server accepts its own address alone as Host and Origin, so the address of
        the proxy is replaced by it."""
        with one, suppress(OSError):
            while True:
                data = one.recv(65536)
                if not data:
                    break
                other.sendall(data.replace(self._here, self._server))
        with suppress(OSError):
            other.shutdown(socket.SHUT_RDWR)

    def cut(self, is_cut):
        """Breaks all connections and accepts no new ones; with False it accepts connections again."""
        self._is_cut = is_cut
        while is_cut and self._open:
            with suppress(OSError):
                self._open.pop().shutdown(socket.SHUT_RDWR)

    def end(self):
        """Stops accepting connections."""
        self.cut(True)
        self._listening.close()


@lru_cache()
def the_browser():
    """The one browser that all tests share. It ends with the test process."""
    browser = Browser()
    atexit.register(browser.end)
    return browser


class BrowserTest(EditorTest):
    """A test in the browser."""

    def setUp(self):
        super().setUp()
        self.browser = the_browser()
        self.browser.begin()
        self.addCleanup(self.browser.begin)

    def open(self, *words, **options):
        """Starts an editor, and opens its page in the window."""
        self.browser.go(self.start(*words, **options))
        self.addCleanup(self.check_console)
        self.settle()

    def check_console(self):
        """Checks that no script of the page has failed. The console also reports refused calls and lost connections, which the check leaves
        out."""
        self.assertEqual([it for it in self.browser.log() if 'Failed to load resource' not in it], [])

    def js(self, code, *words):
        """The result of JavaScript code that runs in the page."""
        return self.browser.run(code, *words)

    def settle(self):
        """Waits until the page has no open request and has drawn all that it knows."""
        self.js('''
            const wait = (time) => new Promise((done) => setTimeout(done, time));
            for (let tries = 0; tries < 1000 && !(window.mmrepo && document.querySelector('.row')); tries += 1) await wait(10);
            for (let still = 0; still < 3; still = mmrepo.model.pending === 0 && mmrepo.model.wanted.size === 0 ? still + 1 : 0) {
                await new Promise((done) => requestAnimationFrame(() => done()));
                await wait(5);
            }
        ''')

    def until(self, code, *words, seconds=10):
        """Waits until a JavaScript expression is true and the next frame is drawn, and returns its value. Fails after some seconds."""
        drawn = 'await new Promise((done) => requestAnimationFrame(() => done()))'
        end = time.monotonic() + seconds
        while True:
            found = self.js(f'const found = {code}; if (found) {{ {drawn}; }} return found;', *words)
            if found:
                return found
            if time.monotonic() > end:
                self.fail(f'it does not come to be: {code} {words}; the console says {self.browser.log()}')
            time.sleep(0.02)

    def texts(self, selector):
        """The texts of all elements that match a selector."""
        return self.js('return [...document.querySelectorAll(words[0])].map((it) => it.textContent);', selector)

    def rows(self):
        """The labels of the rows of the tree, each indented by two spaces for each level."""
        self.settle()
        return self.js('''return mmrepo.tree.rows.map((row) => '  '.repeat(row.level - 1) + mmrepo.model.label(row.id));''')

    def select(self, number):
        """Selects an object by its number, and opens the nodes that contain it."""
        self.js('const [found] = await mmrepo.call("hits", {nodes: [words[0]]}); await mmrepo.tree.reveal(found.path);', number)
        self.settle()
