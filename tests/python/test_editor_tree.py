"""The tree of the editor, by pointer and by keyboard, and the edits that it makes."""

from editor_support import with_browser
from editor_town import ANN, BOB, CID, DORA, EMMA, PERSUASION, TOWN_LIBRARY, TREE, TownTest


@with_browser
class Tree(TownTest):
    """The tree of a town."""

    def test_rows(self):
        """Rows are closed and opened by their arrow and by a double click."""
        self.assertEqual(self.rows(), TREE)
        self.browser.click(f'#row-{TOWN_LIBRARY} .twist')
        self.assertEqual(self.rows(), TREE[:4])
        self.browser.double(f'#row-{TOWN_LIBRARY} .label')
        self.assertEqual(self.rows(), TREE)
        self.assertEqual(self.texts('.row .kind')[:2], ['', 'Person'])

    def test_keys(self):
        """The keys move as ARIA's tree pattern requires, and each row has its level, position and label for a screen reader."""
        self.browser.click(f'#row-{EMMA}')
        visited = []
        keys = 'ARROW_DOWN ARROW_UP END HOME ARROW_DOWN ARROW_DOWN ARROW_DOWN ARROW_LEFT ARROW_LEFT ARROW_RIGHT ARROW_RIGHT ARROW_RIGHT'
        for key in keys.split():
            self.browser.keys(f'Keys.{key}')
            self.settle()  # a row that is opened may have to be read first
            visited.append(self.js('return mmrepo.tree.selected;'))
        self.assertEqual(visited, [PERSUASION, EMMA, CID, 'r0', DORA, 'r1', TOWN_LIBRARY, TOWN_LIBRARY, 'r1', TOWN_LIBRARY, TOWN_LIBRARY, EMMA])
        self.browser.keys('b')
        self.assertEqual(self.js('return mmrepo.tree.selected;'), BOB)
        self.settle()
        row = '''const row = document.getElementById(document.getElementById('tree').getAttribute('aria-activedescendant'));
            const names = ['role', 'aria-level', 'aria-posinset', 'aria-setsize', 'aria-selected', 'aria-expanded', 'aria-label'];
            return names.map((it) => row.getAttribute(it));'''
        self.assertEqual(self.js(row), ['treeitem', '3', '4', '5', 'true', None, 'Bob, Person, has problems'])
        self.browser.keys('Keys.ARROW_LEFT')
        self.settle()
        self.assertEqual(self.js(row), ['treeitem', '2', '1', '1', 'true', 'true', 'Town library, Library'])

    def test_labels_of_fields(self):
        """Each field and each button has a name for a screen reader."""
        for number in (TOWN_LIBRARY, EMMA, DORA):
            self.select(number)
            self.assertEqual(self.js('''
                const has = (it, name) => it.getAttribute(name);
                const named = (it) => has(it, 'aria-label') || has(it, 'aria-labelledby') || it.labels?.length || it.textContent.trim();
                const all = [...document.querySelectorAll('input, select, textarea, button:not([aria-hidden])')];
                return all.filter((it) => !named(it)).map((it) => it.outerHTML);
            '''), [])

    def test_search(self):
        """Objects are found by a text and by a class, and a hit is selected in the tree."""
        self.browser.type('#search-text', 'LOVE')
        self.until("document.querySelector('#hits .count')?.textContent === '1 found'")
        self.assertEqual(self.texts('.hit .label'), ['Emma'])
        self.js("document.querySelector('#search-text').value = '';")
        self.browser.choose('#search-class', 'Person')
        self.until("document.querySelector('#hits .count')?.textContent === '4 found'")
        self.assertEqual(self.texts('.hit .label'), ['Dora', 'Ann', 'Bob', 'Cid'])
        self.browser.click('#hits li:nth-child(3) .hit')
        self.until('mmrepo.tree.selected === words[0]', BOB)
        self.assertEqual(self.texts('#properties h2 span:last-child'), ['Bob'])

    def test_new(self):
        """A new child is made by feature and class, and a new root by class."""
        self.browser.click(f'#row-{TOWN_LIBRARY} .label')
        self.browser.click('#new-child')
        self.until("document.querySelectorAll('#choices li').length === 2")
        self.assertEqual(self.texts('#choices li .label'), ['Book', 'Person'])
        self.assertEqual(self.texts('#choices li .where'), ['books', 'members'])
        self.browser.keys('Keys.ENTER')
        self.until('mmrepo.tree.selected === 7')
        self.assertEqual(self.rows(), [*TREE[:6], '    Book 7', *TREE[6:]])
        self.browser.click('#row-r0 .label')
        self.browser.keys('Keys.INSERT')
        self.browser.keys('fol')
        self.until("document.querySelectorAll('#choices li').length === 1")
        self.browser.keys('Keys.ENTER')
        self.until('mmrepo.tree.selected === 8')
        self.assertEqual(self.rows()[:3], ['sub/persons.json', '  Dora', '  Folder 8'])

    def test_delete(self):
        """A delete says how many objects it destroys, and does nothing if it is cancelled."""
        self.browser.click(f'#row-{TOWN_LIBRARY} .label')
        self.browser.keys('Keys.DELETE')
        self.until("document.querySelector('dialog')")
        self.assertIn('6 objects go', self.texts('dialog .body')[0])
        self.browser.keys('Keys.ESCAPE')
        self.until("!document.querySelector('dialog')")
        self.assertEqual(self.rows(), TREE)
        self.browser.click('#delete')
        self.until("document.querySelector('dialog')")
        self.browser.click('dialog .primary')
        self.until('mmrepo.tree.rows.length === 3')
        self.assertEqual(self.rows(), TREE[:3])

    def test_drag(self):
        """An object is dragged to an index of its list and into a different container; a container without a feature for it refuses it."""
        self.browser.drag(f'#row-{EMMA} .label', f'#row-{PERSUASION} .label', 0.95)
        self.until('mmrepo.model.nodes.get(1).values.books[1] === 2')
        self.assertEqual(self.value(TOWN_LIBRARY, 'books'), [PERSUASION, EMMA])
        self.browser.drag(f'#row-{BOB} .label', f'#row-{ANN} .label', 0.05)
        self.until('mmrepo.model.nodes.get(1).values.members[0] === 5')
        self.browser.drag(f'#row-{CID} .label', '#row-r0 .label')
        self.until("mmrepo.model.nodes.get('r0').values.contents.length === 2")
        self.assertEqual(self.rows(), [TREE[0], TREE[1], '  Cid', *TREE[2:4], '    Persuasion', '    Emma', '    Bob', '    Ann'])
        self.browser.drag(f'#row-{EMMA} .label', f'#row-{ANN} .label')
        self.assertEqual(self.until("document.querySelector('.message.wrong span')?.textContent"), 'TYPE: Person has no feature that contains a Book')
        self.browser.drag(f'#row-{EMMA} .label', '#row-r0 .label', 0.5, False)
        self.assertEqual(self.value('r0', 'contents'), [DORA, CID])

    def test_cycle(self):
        """An object can't be dragged into itself. Cut and paste move an object as dragging does."""
        top = self.call('new', class_='Folder', node='r0', feature='contents')['done']
        below = self.call('new', class_='Folder', node=top, feature='subs')['done']
        self.select(below)
        self.browser.drag(f'#row-{top} .label', f'#row-{below} .label')
        self.assertEqual(self.until("document.querySelector('.message.wrong span')?.textContent"), 'RECURSIVE: an object can\'t be inside itself')
        self.browser.click(f'#row-{below} .label')
        self.browser.keys('Ctrl+x')
        self.browser.click('#row-r1 .label')
        self.browser.keys('Ctrl+v')
        self.until("mmrepo.model.nodes.get('r1').values.contents.length === 2")
        self.browser.keys('Alt+Keys.ARROW_UP')
        self.until("mmrepo.model.nodes.get('r1').values.contents[0] === words[0]", below)
