"""The editor in headless Chromium: several windows on one model, hostile texts, files, and layouts."""

import json
import time
from pathlib import Path

from editor_support import BrowserTest, Way, with_browser
from editor_town import DORA, EMMA, TOWN_LIBRARY, TownTest

# The colours of texts and of their backgrounds.
PAIRS = [
    'text on panel', 'text on page', 'text on selected', 'soft on panel', 'soft on page', 'faint on panel', 'faint on page', 'faint on selected',
    'wrong on panel', 'wrong on wrong-back', 'warning on panel', 'accent-text on accent', 'good on panel',
]


@with_browser
class Views(TownTest):
    """Several windows on one model."""

    def test_two_windows(self):
        """An edit in one window appears in the other by its event, and the other makes no call for it."""
        first = self.browser.name()
        second = self.browser.window(self.address)
        self.settle()
        self.select(EMMA)
        asked = self.js('return [...mmrepo.model.asked];')
        self.browser.switch(first)
        self.select(EMMA)
        self.js("document.querySelector('#f-name').value = '';")
        self.browser.type('#f-name', '<b>Emma</b> & "co"', 'Keys.ENTER')
        self.browser.switch(second)
        self.until("document.querySelector('#f-name').value === '<b>Emma</b> & \"co\"'")
        self.assertEqual(self.js(f"return document.querySelector('#row-{EMMA} .label').textContent;"), '<b>Emma</b> & "co"')
        self.assertEqual(self.texts('#properties h2 b'), [])
        self.assertEqual(self.js('return [...mmrepo.model.asked];'), asked)
        self.assertEqual({count for _, count in asked}, {1})

    def test_verify(self):
        """Verify reports that the window equals the model; after a lost notification it reports the difference."""
        self.select(EMMA)
        self.browser.click('#verify')
        self.assertEqual(self.until("document.querySelector('dialog h2')?.textContent"), 'Equal')
        self.browser.click('dialog .primary')
        self.js('''const hear = mmrepo.model.hear;
            mmrepo.model.hear = (event) => { mmrepo.model.hear = hear; hear.call(mmrepo.model, {number: event.number}); };''')
        self.call('set', object=EMMA, feature='pages', value=474)
        self.until('mmrepo.model.number === 1')
        self.call('set', object=EMMA, feature='name', value='Heard')
        self.until('mmrepo.model.nodes.get(2).values.name === "Heard"')
        self.browser.click('#verify')
        self.assertEqual(self.until("document.querySelector('dialog h2')?.textContent"), 'Not equal')
        self.assertEqual(self.texts('dialog .lines li'), ['Heard (2).pages: here the default, there 474'])

    def test_away(self):
        """A window without a connection says so, and refuses edits. Connected again, it gets the events that it has missed, and asks for
        nothing else."""
        way = Way(self.address)
        self.addCleanup(way.end)
        self.browser.go(way.address)
        self.settle()
        self.select(EMMA)
        asked = self.js('return [...mmrepo.model.asked];')
        self.js('mmrepo.marked = true;')
        way.cut(True)
        self.until("document.querySelector('#connection').className === 'waiting'", seconds=30)
        for number in range(20):
            self.call('set', object=EMMA, feature='name', value=f'Missed {number}')
        self.call('add', object=EMMA, feature='tags', value='missed', at=0)
        self.assertEqual(self.js('return mmrepo.model.number;'), 0)
        self.browser.type('#f-pages', '0', 'Keys.ENTER')
        self.assertEqual(self.refusal('pages'), 'the editor does not answer: it was ended, or this window is offline')
        way.cut(False)
        self.until("document.querySelector('#f-name').value === 'Missed 19'", seconds=30)
        found = self.js('return [mmrepo.marked, mmrepo.model.nodes.get(2).values.tags, [...mmrepo.model.asked]];')
        self.assertEqual(found, [True, ['missed', 'love', 'england'], asked])
        self.until("document.querySelector('#connection').className === 'open'")

    def test_server_that_ends(self):
        """If the server ends, the window shows that the connection is lost."""
        self.stop()
        self.until("['waiting', 'ended'].includes(document.querySelector('#connection').className)")


@with_browser
class Hostile(BrowserTest):
    """A model whose texts could be read as HTML, script or CSS."""

    def test_texts_are_texts(self):
        """The page shows each text as it is, and runs none of it."""
        evil = [
            '<script>window.evil = 1</script>', '"&<img src=x onerror="window.evil = 1">', "'); window.evil = 1; ('", '\u202e\u0000 \u2028</title>',
            '__proto__',
        ]
        books = [{'class': 'Book', 'features': {'name': it, 'note': it, 'tags': [it]}} for it in evil]
        self.open(self.write('<script>.json', {'format': 2, 'roots': [{'class': 'Library', 'features': {'name': evil[0], 'books': books}}]}))
        self.js('mmrepo.tree.open.add(0); mmrepo.tree.change();')
        self.assertEqual(self.rows(), ['<script>.json', f'  {evil[0]}', *(f'    {it}' for it in evil)])
        for number in range(6):
            self.select(number)
        self.assertEqual(self.texts('[data-feature="tags"] .text'), [evil[-1]])
        self.browser.type('#search-text', '<')
        self.until("document.querySelector('#hits .count')")
        self.js("document.querySelector('#search-text').value = '';")
        self.js('await mmrepo.pictures.open(); const what = document.querySelector("dialog select"); what.value = "selected"; what.onchange; '
                'what.dispatchEvent(new Event("change"));')
        self.until("document.querySelectorAll('.picture .box').length === 1")
        self.assertIn('__proto__', self.texts('.picture')[0])
        self.assertEqual(self.js('return window.evil ?? null;'), None)
        self.assertEqual(self.texts('main script, main img, main b'), [])


@with_browser
class Files(TownTest):
    """Saving, new files, import and export."""

    def test_save(self):
        """A changed file is marked, and Ctrl+S saves it. A file that was changed on the disk is overwritten only by force."""
        town = self.models / 'town.json'
        self.select(EMMA)
        self.browser.type('#f-name', '!', 'Keys.ENTER')
        self.until("document.querySelector('#saved').textContent === '1 file edited'")
        self.assertEqual(self.texts('#row-r1 .changed'), ['●'])
        self.browser.keys('Ctrl+s')
        self.until("document.querySelector('.message span')?.textContent.startsWith('Saved ')")
        self.assertEqual(json.loads(town.read_text())['roots'][0]['features']['books'][0]['features']['name'], 'Emma!')
        self.until("document.querySelector('#saved').textContent === ''")
        self.assertEqual(self.texts('.row .changed'), [])
        town.write_text(town.read_text() + ' ')
        self.call('set', object=EMMA, feature='name', value='Mine')
        self.browser.click('#save')
        self.until("document.querySelector('dialog')")
        self.assertIn('town.json: it was changed by others', self.texts('dialog .body')[0])
        self.browser.click('dialog .primary')
        self.until("document.querySelector('#saved').textContent === ''")
        self.assertEqual(json.loads(town.read_text())['roots'][0]['features']['books'][0]['features']['name'], 'Mine')

    def test_new_file(self):
        """A new file is made, filled and saved."""
        self.browser.click('#new-file')
        self.until("document.querySelector('#file-name')")
        self.browser.keys('Ctrl+a', 'more/village.json', 'Keys.ENTER')
        self.until("mmrepo.tree.selected === 'r2'")
        self.js("document.querySelector('#tree').focus();")
        self.browser.keys('Keys.INSERT', 'lib', 'Keys.ENTER')
        self.until('mmrepo.tree.selected === 7')
        self.browser.keys('Ctrl+s')
        self.until("document.querySelector('#saved').textContent === ''")
        self.assertEqual(json.loads((self.models / 'more/village.json').read_text()), {'format': 2, 'roots': [{'class': 'Library', 'features': {}}]})

    def test_import_and_export(self):
        """A document is imported, and a document is exported."""
        late = self.file('late.json', json.dumps({'format': 2, 'roots': [{'class': 'Book', 'features': {'name': 'Late'}}]}))
        self.browser.click('#import')
        self.until("document.querySelector('#file-in')")
        self.browser.file('#file-in', str(late))
        self.browser.click('dialog .primary')
        self.until("mmrepo.tree.selected === 'r2'")
        self.select(DORA)
        self.until("document.querySelector('[data-feature=\"favourite\"] .label')?.textContent === 'Late'")
        self.browser.click('#export')
        self.until("document.querySelector('#which')")
        self.browser.click('dialog .primary')
        found = Path(self.browser.room, 'downloads', 'persons.json')
        end = time.monotonic() + 10
        while not found.exists() and time.monotonic() < end:
            time.sleep(0.05)
        self.assertEqual(json.loads(found.read_text())['roots'][0]['features']['favourite'], 'http://models.example/late.json#/')
        bad = self.file('bad.json', '{"format":2,"roots":[{"class":"Boook","features":{}}]}')
        self.browser.click('#import')
        self.until("document.querySelector('#file-in')")
        self.browser.file('#file-in', str(bad))
        self.browser.click('dialog .primary')
        refusal = self.until("document.querySelector('dialog .refusal').textContent")
        self.assertEqual(refusal, 'DOCUMENT: bad.json is refused\nroots[0]: "Boook" is no class; is "Book" meant?')
        self.assertEqual(self.js('return mmrepo.model.files.length;'), 3)

    def test_pictures(self):
        """Diagrams show the metamodel, the neighbours of a class, and the selection."""
        self.select(TOWN_LIBRARY)
        self.browser.click('#picture')
        self.until("document.querySelectorAll('.picture .box').length === 6")
        self.assertEqual(sorted(self.texts('.picture .title')), sorted(['Genre', 'Named', 'Library', 'Book', 'Person', 'Folder']))
        self.assertEqual(self.js("return document.querySelectorAll('.picture .edge.inherits').length;"), 3)
        self.browser.choose('dialog select:nth-of-type(2)', 'around Folder')
        self.until("document.querySelectorAll('.picture .box').length === 1")
        self.browser.choose('dialog select:nth-of-type(1)', 'the selection: Town library')
        self.until("document.querySelectorAll('.picture .box').length === 6")
        self.assertIn('//@books.0 : Book', self.texts('.picture .title'))
        self.browser.click('.picture .box.go .title')
        self.until("!document.querySelector('dialog')")


@with_browser
class Layouts(TownTest):
    """Dark and light schemes, and a narrow screen."""

    def test_narrow(self):
        """On a screen of 360 pixels nothing is wider than the page, and the tree is still visible."""
        self.browser.size(360, 640)
        self.select(EMMA)
        self.assertEqual(self.js('return [document.documentElement.scrollWidth, document.querySelector("#tree").clientHeight > 100];'), [360, True])
        self.assertEqual(self.js('''return [...document.querySelectorAll('.feature input, .feature textarea, .feature select')]
            .filter((it) => it.getBoundingClientRect().right > innerWidth).map((it) => it.id);'''), [])

    def test_contrast(self):
        """Each text has a contrast of at least 4.5 to 1 with its background in both schemes, as WCAG level AA requires."""
        self.select(EMMA)
        for scheme in ('light', 'dark'):
            self.browser.scheme(scheme)
            self.assertEqual(self.js('''
                const style = getComputedStyle(document.documentElement);
                const colour = (name) => style.getPropertyValue(name).trim().match(/[0-9a-f]{2}/gi).map((it) => parseInt(it, 16) / 255);
                const linear = (it) => it <= 0.03928 ? it / 12.92 : ((it + 0.055) / 1.055) ** 2.4;
                const light = (name) => colour(name).map(linear).reduce((sum, it, at) => sum + it * [0.2126, 0.7152, 0.0722][at], 0);
                const ratio = (one, other) => { const [a, b] = [light(one), light(other)].sort((x, y) => y - x); return (a + 0.05) / (b + 0.05); };
                const pairs = words[0].map((it) => it.split(' on ').map((name) => `--${name}`));
                return words[0].filter((_, at) => ratio(...pairs[at]) < 4.5);
            ''', PAIRS), [], scheme)
