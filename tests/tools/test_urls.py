"""The tools join URIs as the program does: the program is asked for each URI."""

import json
import sys

from support import TOP, ToolTest, run_program

sys.path.insert(0, str(TOP / 'tools'))

from mmtools.uris import joined  # noqa: E402

BASE = 'http://m.example/d/e'
URIS = [
    'ü.xmi', '%C3%BC.xmi', 'a b.xmi', 'a\\b.xmi', '../x', '../../../x', './x', '.', '..', '%2e%2E/x', 'a/../b', '/x', '//h/x', '\\\\h\\x',
    '?q=a b\'', 'a//b', 'http:x', 'http:/x', 'https:x', 'HTTP://m.example/A', 'http://M.Example:80/x', 'https://m.example:443/x', 'http://h:0080/',
    'http://h:8080', 'http://h:99999/', 'http://h:/x', 'http://u:p@h/', 'http://u@h:1/', 'http://@h/', 'http://:p@h/', 'http://a@b@c/',
    'ftp://x/', 'mailto:a', 'a:b', 'http://h/a^b|{c}`d"<>', 'http://h/a%zz', 'http://h/é?é', 'http://H/\t\na', ' http://h/ ', 'http://',
    'http://ex ample/', 'http://a%41.example/', 'http:///x', '///x', 'http://h/a/..', 'http://h/a/.', 'http://h/..', 'http://h/a\\..\\b',
    'http://1.2.3.4/', 'http://0x7f.1/', 'http://256.1/', 'http://1.2.3/', 'http://1.2.3.4.5/', 'http://09.1/', 'http://0/', 'http://a.1/',
    'http://[::1]/', 'http://[1:0:0:0:0:0:0:1]/', 'http://[::ffff:1.2.3.4]/', 'http://[2001:db8::1:0:0:1]/', 'http://[::1', 'http://[::1]x/',
    'http://bücher.example/', 'http://faß.example/', 'http://日本語.jp/', 'http://xn--bcher-kva.example/', 'http://Ｅxample/', 'http://a。b/',
    'http://שלום.example/', 'http://١.com/', 'http://ΒΌΛΟΣ.com/', 'http://½/', 'http://a\u00adb/', 'http://A\u0308/', 'http://☃.net/', 'a😀',
]


class Urls(ToolTest):
    """The URIs of URIS."""

    def test_as_the_program_joins_them(self):
        """Each URI, joined with that of a resource."""
        lines = []
        for place, uri in enumerate(URIS):
            root = {'class': 'Person', 'features': {'likes': [f'{uri}#/']}}
            document = json.dumps({'format': 2, 'roots': [root]}, ensure_ascii=False)
            lines += [f'resource "{BASE}?{place}"', f'load r{place} {document}', f'save r{place}']
        printed = run_program((TOP / 'examples/library.json').read_text(), '\n'.join(lines) + '\n').split('\n')
        for place, uri in enumerate(URIS):
            answer, saved = printed[3 * place + 1:3 * place + 3]
            with self.subTest(uri=uri):
                found = None
                if answer.startswith('loaded'):
                    found = json.loads(saved)['roots'][0]['features']['likes'][0][:-2]
                self.assertEqual(joined(f'{BASE}?{place}', uri), found, answer)

    def test_relative_ones_without_a_base(self):
        """Without a base a relative URI stays relative, and its path is normalised."""
        rows = {'ü.xmi': '%C3%BC.xmi', './a': 'a', 'a/../b': 'b', '../b': '../b', '../../b/c?d': '../../b/c?d', '/x': '/x', '//h/x': '//h/x',
                'a\\b c': 'a/b%20c', '?q': '?q', 'http://M.example:80': 'http://m.example/', 'x:y': None}
        self.assertEqual({uri: joined(None, uri) for uri in rows}, rows)

    def test_two_spellings_of_one_file(self):
        """Two spellings of a URI are one URI."""
        file = self.file('a.xmi', '<l:Person xmlns:l="http://m.example/library"><likes href="ü.xmi#/"/><likes href="%C3%BC.xmi#/"/></l:Person>')
        for words, text in (([], '%C3%BC.xmi#/'), (['--uri', BASE], 'http://m.example/d/%C3%BC.xmi#/')):
            self.assertIn(f'"likes":["{text}"]', self.tool('xmi2doc', '--ecore', 'ecore/library.ecore', *words, file))
