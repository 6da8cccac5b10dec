"""The properties in the editor: a field for each type of feature, and the problems of objects."""

import json

from editor_support import with_browser
from editor_town import ANN, BOB, CID, DORA, EMMA, TOWN_LIBRARY, TownTest
from support import KINDS


@with_browser
class Properties(TownTest):
    """The properties of an object."""

    def test_text_and_number(self):
        """A number is edited, refused beyond its range, restored by Escape, and set back to its default."""
        self.select(EMMA)
        self.assertEqual(self.texts('.feature label'), ['name', 'pages', 'genre', 'tags', 'scores', 'note', 'library', 'next', 'prev'])
        default = "[...document.querySelectorAll('.feature.default')].map((it) => it.dataset.feature)"
        self.assertEqual(self.js(f'return {default};'), ['pages', 'genre', 'scores', 'note', 'next', 'prev'])
        self.assertEqual(self.texts('.range'), ['-2147483648 … 2147483647'])
        self.browser.type('#f-pages', 'Keys.BACKSPACE', 'Keys.BACKSPACE', 'Keys.BACKSPACE', '474', 'Keys.ENTER')
        self.until("mmrepo.model.nodes.get(2).values.pages === 474")
        self.until("!document.querySelector('[data-feature=\"pages\"]').classList.contains('default')")
        self.browser.type('#f-pages', '9999999999', 'Keys.ENTER')
        self.assertEqual(self.refusal('pages'), 'TYPE: pages takes a whole number from -2147483648 to 2147483647')
        self.assertEqual(self.js("return document.querySelector('#f-pages').value;"), '4749999999999')
        self.browser.type('#f-pages', 'Keys.ESCAPE')
        self.assertEqual(self.js("return document.querySelector('#f-pages').value;"), '474')
        self.browser.click('[data-feature="pages"] .actions button')
        self.until('mmrepo.model.nodes.get(2).values.pages === undefined')
        self.until("document.querySelector('#f-pages').value === '100'")

    def test_null_and_unset(self):
        """The field of an unsettable text tells apart unset, null and the empty text, and takes a text of two lines."""
        self.select(EMMA)
        note = "document.querySelector('#f-note')"
        self.assertEqual(self.js(f'return {note}.placeholder;'), 'null')
        self.browser.type('#f-note', 'a', 'Keys.ENTER')
        self.until('mmrepo.model.nodes.get(2).values.note === "a"')
        self.browser.type('#f-note', 'Keys.BACKSPACE', 'Keys.ENTER')
        self.until('mmrepo.model.nodes.get(2).values.note === ""')
        self.assertEqual(self.until(f'{note}.placeholder'), 'empty text')
        self.browser.click('[data-feature="note"] [aria-label="Set note to null"]')
        self.until('!("note" in mmrepo.model.nodes.get(2).values)')
        self.assertEqual(self.js('return [...mmrepo.model.nodes.get(2).flags];'), ['note'])
        self.browser.click('[data-feature="note"] [aria-label="Take note back to its default"]')
        self.until('mmrepo.model.nodes.get(2).flags.size === 0')
        self.js('document.querySelector("#f-note").focus();')
        self.browser.keys('x', 'Shift+Keys.ENTER', 'y', 'Keys.TAB')
        self.until('mmrepo.model.nodes.get(2).values.note === "x\\ny"')

    def test_enumeration_and_lists(self):
        """A literal is chosen; values of lists are added, moved, dragged and removed; a repeated value, which Escape clears, and one past the
        upper bound are refused."""
        self.select(EMMA)
        self.browser.choose('#f-genre', 'POEM')
        self.until('mmrepo.model.nodes.get(2).values.genre === "POEM"')
        self.browser.type('#f-tags', 'new', 'Keys.ENTER')
        self.until('mmrepo.model.nodes.get(2).values.tags.length === 3')
        self.browser.type('#f-tags', 'love', 'Keys.ENTER')
        self.assertEqual(self.refusal('tags'), 'DUPLICATE: tags has love already')
        self.assertEqual(self.js("return document.querySelector('#f-tags').value;"), 'love')
        self.browser.type('#f-tags', 'Keys.ESCAPE')
        self.assertEqual(self.js("return document.querySelector('#f-tags').value;"), '')
        self.assertEqual(self.texts('[data-feature="tags"] .refusal'), [''])
        self.browser.click('[data-feature="tags"] li:nth-child(3) [aria-label="Move up tags 2"]')
        self.until('mmrepo.model.nodes.get(2).values.tags[1] === "new"')
        self.browser.click('[data-feature="tags"] li:nth-child(1) [aria-label="Move down tags 0"]')
        self.until('mmrepo.model.nodes.get(2).values.tags[0] === "new"')
        self.browser.drag('[data-feature="tags"] li:nth-child(3) .grip', '[data-feature="tags"] li:nth-child(1) .text', 0.1)
        self.until('mmrepo.model.nodes.get(2).values.tags[0] === "england"')
        self.browser.click('[data-feature="tags"] li:nth-child(2) [aria-label="Remove tags 1"]')
        self.until('mmrepo.model.nodes.get(2).values.tags.length === 2')
        self.assertEqual(self.value(EMMA, 'tags'), ['england', 'love'])
        for text in ('7', '7', '-3', '1'):
            self.browser.type('#f-scores', text, 'Keys.ENTER')
        self.assertEqual(self.refusal('scores'), 'BOUND: at most 3 scores')
        self.assertEqual(self.value(EMMA, 'scores'), [7, 7, -3])

    def test_references(self):
        """The picker offers the objects that conform to the type, and filters them while the user types; the opposite end changes too."""
        self.select(EMMA)
        self.browser.click('[data-feature="next"] [aria-label="Choose next"]')
        self.until("document.querySelectorAll('#choices li').length === 2")
        self.assertEqual(self.texts('#choices li .label'), ['Emma', 'Persuasion'])
        self.browser.keys('ua')
        self.until("document.querySelectorAll('#choices li').length === 1")
        self.browser.keys('Keys.ENTER')
        self.until('mmrepo.model.nodes.get(2).values.next === 3')
        self.until('mmrepo.model.nodes.get(3).values.prev === 2')
        self.assertEqual(self.texts('[data-feature="next"] .object .label'), ['Persuasion'])
        self.browser.click('[data-feature="next"] .object')
        self.until('mmrepo.tree.selected === 3')
        self.settle()
        self.assertEqual(self.texts('[data-feature="prev"] .object .label'), ['Emma'])
        self.browser.click('[data-feature="prev"] .actions button')
        self.until('!("next" in mmrepo.model.nodes.get(2).values)')

    def test_full(self):
        """A value past the upper bound of a list is refused, at the end of the list and at the opposite end."""
        self.select(TOWN_LIBRARY)
        for count in (1, 2):
            self.browser.click('[data-feature="staff"] [aria-label="Add to staff"]')
            self.until("document.querySelectorAll('#choices li').length > 0")
            self.browser.keys('Keys.ENTER')
            self.until('mmrepo.model.nodes.get(1).values.staff?.length === words[0]', count)
        self.browser.click('[data-feature="staff"] [aria-label="Add to staff"]')
        self.until("document.querySelectorAll('#choices li').length > 0")
        self.browser.keys('Keys.ENTER')
        self.assertEqual(self.refusal('staff'), 'BOUND: at most 2 staff')
        free = next(it for it in (DORA, ANN, BOB, CID) if it not in self.value(TOWN_LIBRARY, 'staff'))
        self.select(free)
        self.browser.click('[data-feature="job"] [aria-label="Choose job"]')
        self.until("document.querySelectorAll('#choices li').length > 0")
        self.browser.keys('Keys.ENTER')
        self.assertEqual(self.refusal('job'), 'BOUND: at most 2 staff')

    def test_proxies_and_problems(self):
        """A proxy is refused until its file is there, and then resolved; the counts of problems follow each edit."""
        count = "document.querySelector('#problem-count').textContent"
        self.assertEqual(self.js(f'return {count};'), '4 objects with problems: 3 too short, 2 proxies left')
        self.browser.click('#problems')
        self.until("document.querySelectorAll('#problem-list .hit').length === 4")
        self.assertEqual(self.texts('#problem-list .where'), ['likes: a proxy is left; favourite: a proxy is left', *['favourite: too short'] * 3])
        self.browser.click('#problem-list li:nth-child(1) .hit')
        self.until('mmrepo.tree.selected === 0')
        self.settle()
        self.assertEqual(self.texts('.proxy .address'), ['http://models.example/nowhere.json#/', 'http://models.example/late.json#/'])
        self.browser.click('[data-feature="likes"] .proxy button')
        self.assertEqual(self.refusal('likes'), 'UNLOADED: no resource is open that http://models.example/nowhere.json#/ leads to')
        self.browser.click('#new-file')
        self.until("document.querySelector('#file-name')")
        self.js("document.querySelector('#file-name').value = '../late.json';")
        self.browser.click('dialog .primary')
        self.assertIn('does not name a file below the folder', self.until("document.querySelector('dialog .refusal').textContent"))
        self.js("document.querySelector('#file-name').value = 'late.json';")
        self.browser.click('dialog .primary')
        self.until("!document.querySelector('dialog') && mmrepo.tree.selected === 'r2'")
        self.call('new', class_='Book', node='r2', feature='contents')
        self.select(DORA)
        self.browser.click('[data-feature="favourite"] .proxy button')
        self.until('mmrepo.model.nodes.get(0).values.favourite === 7')
        self.until(f"{count} === '4 objects with problems: 3 too short, 1 proxy left'")
        self.browser.click('[data-feature="likes"] li:nth-child(2) [aria-label="Remove likes 1"]')
        self.until(f"{count}.startsWith('3 objects')")
        self.assertEqual(self.call('problems')['found'], [{'object': it, 'short': ['favourite'], 'proxies': []} for it in (ANN, BOB, CID)])

    def test_each_type(self):
        """A feature of each type can be edited, and so can features whose names mean something in Python or JavaScript."""
        self.stop()
        self.open(meta=self.file('kinds.json', KINDS))
        kind = self.call('new', class_='Kind', node='r0', feature='contents')['done']
        self.select(kind)
        self.browser.click('#f-truth')
        self.until('mmrepo.model.nodes.get(0).values.truth === true')
        self.browser.type('#f-long', 'Keys.BACKSPACE', '9223372036854775807', 'Keys.ENTER')
        self.until('mmrepo.model.nodes.get(0).values.long === "9223372036854775807"')
        self.browser.type('#f-long', '0', 'Keys.ENTER')
        self.assertEqual(self.refusal('long'), 'TYPE: long takes a whole number from -9223372036854775808 to 9223372036854775807')
        self.browser.type('#f-longs', '-9223372036854775808', 'Keys.ENTER')
        self.browser.click('[data-feature="truths"] .adding button')
        self.browser.click('[data-feature="colours"] .adding button')
        self.browser.type('#f-__x__', 'Keys.BACKSPACE', '7', 'Keys.ENTER')
        self.browser.type('#f-delete', '!', 'Keys.ENTER')
        self.until('mmrepo.model.nodes.get(0).values.delete === "a default!"')
        self.browser.click('[data-feature="delete"] [aria-label="Set delete to null"]')
        self.until('mmrepo.model.nodes.get(0).values.delete === null')
        self.assertEqual(self.js('return [mmrepo.model.nodes.get(0).values, (await mmrepo.verify()).differences];'), [{
            'truth': True, 'long': '9223372036854775807', 'longs': ['-9223372036854775808'], 'truths': [False], 'colours': ['RED'], '__x__': 7,
            'delete': None,
        }, []])
        text = json.loads(self.call('export', node='r0', xmi=False)['text'])
        self.assertEqual(text['roots'][0]['features']['long'], 9223372036854775807)
