"""The server of the editor: its calls and events, and hostile requests."""

import json
import os
import re
import signal
import socket
import time
import urllib.request
from pathlib import Path
from random import Random

from editor_support import EditorTest
from support import CLIENT

PAGE = CLIENT / 'mmrepo/editor/page'
TOWN = {'format': 2, 'roots': [{'class': 'Library', 'features': {'name': 'Town', 'books': [{'class': 'Book', 'features': {'name': 'Emma'}}]}}]}
PARTS = [('Book', 0, 'books'), ('Person', 0, 'members'), ('Folder', 'r0', 'contents')]  # that can be made


class ServerTest(EditorTest):
    """A test that sends bytes to the server and reads its answers."""

    def setUp(self):
        super().setUp()
        self.start(self.write('town.json', TOWN))
        self.port = int(self.address.split(':')[2].split('/')[0])
        self.token = self.address.split('/')[3]

    def connected(self):
        """A new connection to the server."""
        made = socket.create_connection(('127.0.0.1', self.port), 30)
        self.addCleanup(made.close)
        return made

    def sent(self, data):
        """Sends bytes on a new connection; returns the status and the body of the answer."""
        made = self.connected()
        made.sendall(data)
        answer = b''
        while True:
            part = made.recv(65536)
            if not part:
                break
            answer += part
            head, _, body = answer.partition(b'\r\n\r\n')
            length = re.search(rb'Content-Length: (\d+)', head)
            if length and len(body) >= int(length[1]):
                break
        head, _, body = answer.partition(b'\r\n\r\n')
        made.close()
        return int(head.split(b' ')[1]), body.decode()

    def request(self, line, body=b'', **headers):
        """The bytes of a request. Headers can be replaced, or left out by None."""
        given = {'Host': f'127.0.0.1:{self.port}', 'Content-Type': 'application/json', 'Content-Length': len(body)}
        given.update({name.replace('_', '-'): value for name, value in headers.items()})
        lines = ''.join(f'{name}: {value}\r\n' for name, value in given.items() if value is not None)
        return f'{line} HTTP/1.1\r\n{lines}\r\n'.encode() + body

    def post(self, body, **headers):
        """Sends a call with a body; returns the status and the text of the answer."""
        status, answer = self.sent(self.request(f'POST /{self.token}/call', body, **headers))
        return status, json.loads(answer).get('text')

    def assert_well(self):
        """Checks that the server still answers."""
        self.assertEqual(self.call('nodes', nodes=[1])['nodes']['1']['values']['name'], 'Emma')


class Hostile(ServerTest):
    """Requests that a window of the editor never makes."""

    def test_token_and_host(self):
        """A request needs the token, and its Host and Origin must be the server's own."""
        get = f'GET /{self.token}/'
        wrong = 'the token is wrong: open the address that the editor printed'
        cases = [
            (self.request(get), 200, None), (self.request(get, Host=f'localhost:{self.port}'), 200, None),
            (self.request(get, Origin=f'http://127.0.0.1:{self.port}'), 200, None),
            (self.request('GET /'), 403, wrong), (self.request(f'GET /{self.token[:-1]}/'), 403, wrong),
            (self.request(f'GET /{self.token}x/'), 403, wrong), (self.request('GET /x/call'), 403, wrong), (self.request('GET /é/'), 403, wrong),
            (self.request(get, Host='evil.example'), 421, 'this is not the Host of the editor'),
            (self.request(get, Host=f'evil.example:{self.port}'), 421, 'this is not the Host of the editor'),
            (self.request(get, Host=None), 421, 'this is not the Host of the editor'),
            (self.request(get, Origin='http://evil.example'), 403, 'a page of a different origin may not ask the editor'),
            (self.request(get, Origin='null'), 403, 'a page of a different origin may not ask the editor'),
            (self.request(get, Sec_Fetch_Site='cross-site'), 403, 'a page of a different site may not ask the editor'),
        ]
        for data, status, text in cases:
            with self.subTest(data=data):
                found, body = self.sent(data)
                self.assertEqual((found, json.loads(body)['text'] if text else None), (status, text))
        for body in (b'{"do":"start"}', b'{"do":"delete","object":1}'):
            self.assertEqual(self.post(body, Origin='http://evil.example')[0], 403)
            self.assertEqual(self.sent(self.request('POST /x/call', body))[0], 403)
        self.assert_well()

    def test_paths(self):
        """The server serves only the files of the page, and makes no file outside of the folder."""
        Path(self.room.name, 'secret.json').write_text('{}')
        for path in ('../secret.json', '..%2fsecret.json', '%2e%2e/secret.json', '../../../../etc/passwd', '/etc/passwd', 'town.json', '.',
                     'page/../main.mjs', 'main.mjs%00', 'events/..', '\\..\\secret.json', 'call/x', 'editor/model.py', '__init__.py', 'main.mjs/'):
            with self.subTest(path=path):
                self.assertEqual(self.sent(self.request(f'GET /{self.token}/{path}'))[0], 404)
        before = sorted(Path(self.room.name).rglob('*'))
        for name in ('../x.json', '/tmp/x.json', 'a/../../x.json', '', '.', '..', 'a//b.json', 'x\0.json', 'x.txt', './x.json', '..\\x.txt'):
            with self.subTest(name=name):
                self.assertRegex(self.call('new file', folder=0, name=name), '^FILE: ')
                self.assertRegex(str(self.call('import', folder=0, name=name + '.json', data='e30=')), '^(DOCUMENT|FILE): ')
        self.assertRegex(self.call('new file', folder=1, name='x.json'), '^no folder is open: ')
        Path(self.room.name, 'models/link.json').symlink_to('/etc/passwd')
        self.assertEqual(self.call('new file', folder=0, name='link.json'), 'FILE: there is a file link.json already')
        self.assertEqual(self.call('save', force=True), {'saved': []})
        Path(self.room.name, 'models/link.json').unlink()
        self.assertEqual(sorted(Path(self.room.name).rglob('*')), before)

    def test_a_file_that_was_not_loaded(self):
        """No new file gets the name of a file that could not be loaded, even if that file is gone."""
        self.stop()
        folder = self.write('bad.json', 'no JSON')
        self.start(folder)
        self.assertEqual(self.call('new file', folder=0, name='bad.json'), 'FILE: there is a file bad.json already')
        Path(folder, 'bad.json').unlink()
        self.assertRegex(self.call('new file', folder=0, name='bad.json'), '^FILE: bad.json is not loaded: 1 finding\nbad.json: from byte 1 on ')

    def test_methods_and_heads(self):
        """Unknown methods, long request lines and bad headers each get the status that HTTP has for them, and a text."""
        get, big = f'GET /{self.token}/', 'x' * 70_000
        cases = [
            (b'nonsense\r\n\r\n', 400), (self.request(f'PUT /{self.token}/call'), 501), (self.request(f'DELETE /{self.token}/'), 501),
            (self.request(f'OPTIONS /{self.token}/call'), 501), (self.request('CONNECT evil.example:443'), 403),
            (self.request(f'GET /{self.token}/{big}'), 414),
            (self.request(get, X=big), 431), (self.request(get, **{f'X{it}': 'y' for it in range(200)}), 431),
            (f'GET /{self.token}/ HTTP/9.9\r\n\r\n'.encode(), 505),
            (self.request(f'GET http://evil.example/{self.token}/', Host='evil.example'), 421),
        ]
        for data, status in cases:
            with self.subTest(data=data[:60]):
                found, body = self.sent(data)
                self.assertEqual(found, status)
                self.assertIn('text', json.loads(body))
        self.assert_well()

    def test_bodies(self):
        """Bodies that are no JSON, arguments of wrong kinds, and bad lengths are refused with a status and a text."""
        deep = b'[' * 100_000 + b']' * 100_000
        for body in (b'', b'{', b'nul', b'\xff\xfe', b'{"do":"start"', deep, b'1e999999', b'9' * 10_000):
            with self.subTest(body=body[:40]):
                self.assertEqual(self.post(body)[0], 400)
        cases = [
            (b'[]', 'a call is a JSON object'), (b'"start"', 'a call is a JSON object'), (b'{}', "there is no call 'None'"),
            (b'{"do":7}', "there is no call '7'"),
            (b'{"do":["start"]}', "there is no call \"['start']\""), (b'{"do":"evil"}', "there is no call 'evil'"),
            (b'{"do":"start","more":1}', "start has no argument 'more'"),
        ]
        wrong = [
            {'do': 'set', 'object': -1, 'feature': 'name', 'value': 'x'}, {'do': 'set', 'object': 1.5, 'feature': 'name', 'value': 'x'},
            {'do': 'set', 'object': True, 'feature': 'name', 'value': 'x'}, {'do': 'set', 'object': '1', 'feature': 'name', 'value': 'x'},
            {'do': 'set', 'object': 1, 'feature': ['name'], 'value': 'x'}, {'do': 'set', 'object': 1, 'feature': 'name', 'value': {}},
            {'do': 'set', 'object': 1, 'feature': 'name', 'value': 1.5}, {'do': 'nodes', 'nodes': ['r0 ']}, {'do': 'nodes', 'nodes': ['../x']},
            {'do': 'nodes', 'nodes': [0] * 5001}, {'do': 'nodes'}, {'do': 'move', 'node': 'r0', 'feature': 'contents', 'to': 10**20, 'at': 0},
        ]
        cases += [(json.dumps(it).encode(), f'{it["do"]}: the argument') for it in wrong]
        for body, text in cases:
            with self.subTest(body=body[:80]):
                status, said = self.post(body)
                self.assertEqual(status, 400)
                self.assertTrue(said.startswith(text), said)
        self.assertEqual(self.post(b'{"do":"start"}', Content_Type='text/plain')[0], 415)
        for length in ('-1', 'x', '1e3', '٣', None):
            self.assertEqual(self.post(b'{"do":"start"}', Content_Length=length)[0], 411)
        self.assertEqual(self.post(b'{"do":"start"}', Transfer_Encoding='chunked')[0], 411)
        self.assertEqual(self.post(b'', Content_Length='9' * 40)[0], 413)
        self.assert_well()

    def test_lines_in_texts(self):
        """No text of a window can become a line of the program: it is stored as a value, or refused."""
        for text in ('a\nset #0 name "evil"', 'a\r\n', '"', '\\', '\0', '\u2028', '#0', ':NOVEL', 'null', '\ud800'):
            with self.subTest(text=text):
                said = self.call('set', object=1, feature='name', value=text)
                if text == '\ud800':
                    self.assertEqual(said, 'TYPE: the text has half of a surrogate pair')
                else:
                    self.assertEqual(self.call('asked', nodes=[1])['nodes']['1']['values']['name'], text)
                self.call('set', object=1, feature='name', value='Emma')
        for name in ('name "x"\nnew Book', 'name x', '', 'Name', '__class__', '_word'):
            self.assertRegex(self.call('set', object=1, feature=name, value='x'), '^NO_FEATURE: ')
            self.assertRegex(self.call('new', class_=name, node=0, feature='books'), '^(NO_CLASS|TYPE): ')
        self.assertRegex(self.call('set', object=1, feature='name', value='x' * 65_536), '^TEXT_LENGTH: ')
        self.assert_well()

    def test_long_body(self):
        """A body of 100 MB is refused before it is read, and takes no memory."""
        made = self.connected()
        made.sendall(self.request(f'POST /{self.token}/call', Content_Length=100_000_000))
        block = b'x' * 1_000_000
        for _ in range(100):
            made.sendall(block)
        answer = made.recv(65536)
        self.assertEqual(answer.split(b' ')[1], b'413')
        self.assertIn(b'a body has at most 24000000 bytes', answer)
        size = int(re.search(r'VmHWM:\s+(\d+)', Path(f'/proc/{self.server.pid}/status').read_text())[1])
        self.assertLess(size, 120_000)
        waits = self.request(f'POST /{self.token}/call', Content_Length=100_000_000, Expect='100-continue')
        self.assertEqual(self.sent(waits)[0], 413)
        self.assert_well()

    def test_connections_that_hang(self):
        """Fifty connections that send nothing and fifty that send half a request don't block the server; it ends them with status 408."""
        hanging = [self.connected() for _ in range(100)]
        for made in hanging[:50]:
            made.sendall(f'GET /{self.token}/ HTTP/1.1\r\nHost: '.encode())
        began = time.monotonic()
        for _ in range(20):
            self.assert_well()
        self.assertLess(time.monotonic() - began, 5)
        for made in hanging:
            answer = made.recv(65536)
            self.assertEqual(answer.split(b' ')[1], b'408', answer)
            self.assertIn(b'the request did not come in within 10 seconds', answer)
        self.assertLess(time.monotonic() - began, 25)
        self.assert_well()

    def test_too_many(self):
        """Connections and windows beyond their limits get status 503 with a text."""
        hanging = [self.connected() for _ in range(200)]
        time.sleep(0.3)
        self.assertEqual(self.sent(self.request(f'GET /{self.token}/'))[0], 503)
        for made in hanging:
            made.close()
        time.sleep(0.3)
        self.assert_well()
        streams = [self.connected() for _ in range(5)]
        for made in streams:
            made.sendall(self.request(f'GET /{self.token}/events?after=0'))
            self.assertEqual(made.recv(65536).split(b' ')[1], b'200')
        status, body = self.sent(self.request(f'GET /{self.token}/events?after=0'))
        self.assertEqual((status, json.loads(body)['text']), (503, 'too many windows are open: close one, and load this one again'))
        for after in ('', 'x', '-1', '9' * 30):
            self.assertEqual(self.sent(self.request(f'GET /{self.token}/events?after={after}'))[0], 400)

    def test_headers(self):
        """The headers forbid the page to load anything from elsewhere, and no file of the page does."""
        with urllib.request.urlopen(self.address) as answer:
            self.assertIn("default-src 'none'; script-src 'self'", answer.headers['Content-Security-Policy'])
            names = ('X-Content-Type-Options', 'Referrer-Policy', 'Cache-Control')
            self.assertEqual([answer.headers[it] for it in names], ['nosniff', 'no-referrer', 'no-store'])
        for file in PAGE.iterdir():
            text = file.read_text().replace('http://www.w3.org/2000/svg', '')
            self.assertNotRegex(text, 'https?:|innerHTML|outerHTML|insertAdjacentHTML|document.write|eval\\(|new Function', file.name)

    def test_only_loopback(self):
        """The server listens at 127.0.0.1 alone."""
        listening = [line.split() for line in Path('/proc/net/tcp').read_text().splitlines()[1:]]
        here = [it[1] for it in listening if it[3] == '0A' and int(it[1].split(':')[1], 16) == self.port]
        self.assertEqual([it.split(':')[0] for it in here], ['0100007F'])
        six = Path('/proc/net/tcp6')
        ports = [int(line.split()[1].split(':')[1], 16) for line in six.read_text().splitlines()[1:]] if six.exists() else []
        self.assertNotIn(self.port, ports)


class Streams(ServerTest):
    """The stream of events that a window reads."""

    def events(self, after, count):
        """The first events after the event of a number."""
        found = []
        with urllib.request.urlopen(f'{self.address}events?after={after}') as stream:
            while len(found) < count:
                line = stream.readline().decode()
                if line.startswith('data: '):
                    found.append(json.loads(line[6:]))
        return found

    def test_events(self):
        """Each edit makes one event with its notifications, its deleted objects and the new problems; a stream can begin after any event.
        """
        self.call('set', object=1, feature='pages', value='7')
        self.call('new', class_='Person', node=0, feature='members')
        self.call('delete', object=1)
        found = self.events(0, 3)
        self.assertEqual([it['notices'] for it in found], [
            [['SET', 1, 'pages', 100, 7, -1, 'Book']], [['ADD', 0, 'members', None, 2, 0, 'Library']],
            [['REMOVE', 0, 'books', 1, None, 0, 'Library']],
        ])
        self.assertEqual([it['gone'] for it in found], [[], [], [1]])
        self.assertEqual(found[1]['problems'], {'objects': {'2': {'short': ['favourite'], 'proxies': []}}, 'count': 1, 'short': 1, 'proxies': 0})
        self.assertEqual([it['number'] for it in self.events(1, 2)], [2, 3])

    def test_missed(self):
        """A window that asks for events that are not there begins again."""
        with urllib.request.urlopen(f'{self.address}events?after=7') as stream:
            self.assertIn(b'event: lost', stream.read())

    def test_refused_edits(self):
        """A refused edit changes nothing, and makes no event."""
        self.assertEqual(self.call('new', class_='Person', node=0, feature='books'), 'TYPE: books takes objects of class Book')
        self.assertEqual(self.call('new', class_='Named', node=0, feature='books'), 'ABSTRACT: the class is abstract')
        self.assertRegex(self.call('set', object=1, feature='library', value=None), '^HELD: library is changed in the tree, so that no object is lost')
        self.assertRegex(self.call('unset', object=0, feature='books'), '^HELD: ')
        self.assertRegex(self.call('remove', object=0, feature='books', at=0), '^HELD: ')
        self.assertRegex(self.call('place', object=1, node=0, feature='name'), '^TYPE: name contains nothing')
        self.assertRegex(self.call('set', object=9, feature='name', value='x'), '^NO_OBJECT: object 9 is deleted')
        self.assertRegex(self.call('delete', object=9), '^NO_OBJECT: ')
        self.assertRegex(self.call('move', node='r9', feature='contents', to=0, at=0), '^NO_RESOURCE: ')
        self.assertRegex(self.call('move', node=0, feature='books', to=5, at=0), '^INDEX: ')
        self.assertRegex(self.call('resolve', object=1, feature='next', at=0), '^INDEX: ')
        self.assertRegex(self.call('resolve', object=1, feature='library', at=0), '^NOT_PROXY: ')
        self.assertRegex(self.call('set', object=1, feature='genre', value='PROSE'), '^TYPE: genre takes one of NOVEL, POEM, PLAY')
        self.assertRegex(self.call('set', object=1, feature='tags', value='x'), '^TYPE|^NOT_SINGLE')
        self.assertRegex(self.call('add', object=1, feature='pages', value='1'), '^NOT_MANY: pages is no list')
        self.assertRegex(self.call('export', node='r0', xmi=True), '^the model is not one of Ecore files: ')
        self.assertRegex(self.call('search', text='', class_='Evil'), '^NO_CLASS: ')
        self.assertEqual(self.call('start')['number'], 0)
        self.assertEqual(self.call('compared'), {'objects': 2, 'differences': []})

    def test_faster(self):
        """An edit of a position that another window has changed in the meantime is refused."""
        for text in ('a', 'b', 'c'):
            self.call('add', object=1, feature='tags', value=text)
        self.call('add', object=1, feature='tags', value='first', at=0)
        said = 'CHANGED: tags was changed in the meantime; nothing was done'
        self.assertEqual(self.call('remove', object=1, feature='tags', at=0, was='a'), said)
        self.assertEqual(self.call('move', node=1, feature='tags', to=2, at=1, was='b'), said)
        self.assertEqual(self.call('remove', object=1, feature='tags', at=9, was='c'), said)
        self.call('remove', object=1, feature='tags', at=1, was='a')
        self.assertEqual(self.call('nodes', nodes=[1])['nodes']['1']['values']['tags'], ['first', 'b', 'c'])

    def test_program_that_ends(self):
        """If the program ends, each call is refused with a text, and the server goes on."""
        children = Path(f'/proc/{self.server.pid}/task/{self.server.pid}/children').read_text().split()
        os.kill(int(children[0]), signal.SIGKILL)
        for _ in range(2):
            self.assertRegex(self.call('set', object=1, feature='name', value='x'), '^the model is closed: ')
        self.assertEqual(self.sent(self.request(f'GET /{self.token}/'))[0], 200)


class RandomCalls(EditorTest):
    """Random calls: what the server keeps by notifications must equal what the program has."""

    def calls(self, random, numbers):
        """A random call with its arguments. Most calls are refused for some reason."""
        number, node = random.choice(numbers), random.choice(['r0', *numbers])
        feature = random.choice('name books members staff pages tags note next prev job likes favourite subs contents'.split())
        at, to = random.randrange(3), random.randrange(3)
        value = random.choice([number, random.choice(numbers), 'a', '7', None, True])
        kind = random.choice(['Library', 'Book', 'Person', 'Folder'])
        return random.choice([
            ('set', {'object': number, 'feature': feature, 'value': value}), ('unset', {'object': number, 'feature': feature}),
            ('add', {'object': number, 'feature': feature, 'value': value, 'at': random.choice([None, at])}),
            ('remove', {'object': number, 'feature': feature, 'at': at}), ('move', {'node': node, 'feature': feature, 'to': to, 'at': at}),
            ('new', {'class': kind, 'node': node, 'feature': feature, 'at': random.choice([None, at])}),
            ('new', dict(zip(('class', 'node', 'feature'), random.choice(PARTS)))),
            ('place', {'object': number, 'node': node, 'feature': feature, 'at': random.choice([None, at])}),
            ('delete', {'object': number}) if number and random.random() < 0.1 else ('resolve all', {}),
        ])

    def test_random(self):
        """Each value, each container and each problem is right after many calls."""
        self.start(self.write('town.json', TOWN))
        random = Random(1)
        numbers = [0, 1]
        for _ in range(1500):
            name, words = self.calls(random, numbers)
            found = self.call(name, **words)
            if name == 'new' and not isinstance(found, str):
                numbers.append(found['done'])
            elif name == 'delete':
                left = self.call('nodes', nodes=numbers)['nodes']
                numbers = [it for it in numbers if left[str(it)]]
        nodes = ['r0', *numbers]
        known, asked = self.call('nodes', nodes=nodes), self.call('asked', nodes=nodes)
        there = {key: state for key, state in known['nodes'].items() if state}
        self.assertGreater(len(there), 20)
        for state in (*there.values(), *asked['nodes'].values()):
            state['in'] = state['in'] and state['in'][0]
        self.assertEqual(there, asked['nodes'])
        self.assertEqual(self.call('compared')['differences'], [])
        short = {it['object'] for it in self.call('problems')['found'] if it['short']}
        self.assertEqual(short, {int(key) for key, state in there.items() if state['class'] == 'Person' and 'favourite' not in state['values']})
