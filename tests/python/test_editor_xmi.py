"""XMI in the editor: the application model of Eclipse is opened, edited, saved, exported and imported by the tools."""

import base64
import unittest
from pathlib import Path

from editor_support import ECORE_JAR, MODEL_JAR, WORKBENCH_JAR, BrowserTest, with_browser

NO_MODELS = 'the packages libeclipse-e4-ui-model-workbench-java and libeclipse-ui-workbench-java are not installed'
NO_ECORE = 'the package libeclipse-emf-ecore-java is not installed'


@with_browser
@unittest.skipUnless(MODEL_JAR.exists() and WORKBENCH_JAR.exists(), NO_MODELS)
class Application(BrowserTest):
    """The application model of Eclipse as an XMI file."""

    def setUp(self):
        super().setUp()
        room = Path(self.room.name, 'ecore')
        ecore = [self.taken(MODEL_JAR, name, room)[0] for name in ('UIElements.ecore', 'ModelFragment.ecore')]
        self.models = Path(self.room.name, 'models')
        self.file, = self.taken(WORKBENCH_JAR, '.e4xmi', self.models)
        self.text = self.file.read_bytes()
        words = [word for it in ecore for word in ('--ecore', it)]
        self.open(self.models, *words, '--suffix', '.e4xmi', meta=self.meta(ecore))

    def test_save(self):
        """What the tool left out when it read the file is a finding, and the file is overwritten only by force."""
        self.assertEqual(self.texts('#findings button'), ['1 finding'])
        self.browser.click('#findings button')
        self.assertIn('24 ids left out', self.until("document.querySelector('dialog .lines')?.textContent"))
        self.browser.click('dialog .primary')
        self.select(0)
        self.browser.type('#f-elementId', '.edited', 'Keys.ENTER')
        self.until("document.querySelector('#saved').textContent === '1 file edited'")
        self.browser.keys('Ctrl+s')
        self.until("document.querySelector('dialog h2')?.textContent === 'Nothing was saved'")
        self.assertEqual(self.file.read_bytes(), self.text)
        self.browser.click('dialog .primary')
        self.until("document.querySelector('#saved').textContent === ''")
        self.assertIn(b'.edited"', self.file.read_bytes())

    def test_import_and_export(self):
        """A model that is exported as XMI is imported as a document of the same objects."""
        made = self.call('export', node='r0', xmi=True)
        self.assertEqual(made['name'], 'LegacyIDE.e4xmi')
        before = self.call('export', node='r0', xmi=False)['text']
        copy = self.file.with_name('copy.e4xmi')
        copy.write_text(made['text'])
        self.browser.click('#import')
        self.until("document.querySelector('#file-in')")
        self.browser.file('#file-in', str(copy))
        self.browser.click('dialog .primary')
        self.until("mmrepo.tree.selected === 'r1'")
        self.assertEqual(self.call('export', node='r1', xmi=False)['text'], before)
        self.assertRegex(self.call('import', folder=0, name='bad.e4xmi', data=base64.b64encode(b'<x').decode()), '^TOOL: xmi2doc: bad.e4xmi:1: not XML')
        self.assertEqual(sorted(it.name for it in self.models.iterdir()), ['LegacyIDE.e4xmi', 'copy.e4xmi'])

    def test_large_metamodel(self):
        """A diagram of many classes shows those around the selection, and the list of new children can be filtered."""
        self.select(0)
        self.browser.click('#picture')
        self.until("document.querySelector('.picture .box')")
        self.assertEqual(self.js("return document.querySelector('dialog select:nth-of-type(2)').value;"), self.js('return mmrepo.model.nodes.get(0).class;'))
        self.browser.keys('Keys.ESCAPE')
        self.until("!document.querySelector('dialog')")
        self.browser.click('#new-child')
        self.until("document.querySelectorAll('#choices li').length > 10")
        self.browser.keys('addon')
        self.until("document.querySelectorAll('#choices li').length === 1")
        self.assertEqual(self.texts('#choices li .where'), ['addons'])


@with_browser
@unittest.skipUnless(ECORE_JAR.exists(), NO_ECORE)
class Ecore(BrowserTest):
    """Ecore files, opened as models of Ecore."""

    def test_ecore_files(self):
        """EMF's own files are opened in place; a class of one is renamed, and the other files stay as they were."""
        models = Path(self.room.name, 'models')
        files = self.taken(ECORE_JAR, '.ecore', models)
        ecore = [it for it in self.taken(ECORE_JAR, '.ecore', Path(self.room.name, 'ecore')) if it.name == 'Ecore.ecore']
        texts = {it: it.read_bytes() for it in files}
        self.open(models, '--ecore', ecore[0], '--suffix', '.ecore', meta=self.meta(ecore))
        self.assertEqual([it for it in self.rows() if not it.startswith(' ')], [it.name for it in files])
        self.browser.choose('#search-class', 'EClass')
        self.browser.type('#search-text', 'EModelElement', 'Keys.ENTER')
        self.until("document.querySelector('#hits .count')?.textContent === '1 found'")
        self.browser.click('.hit')
        self.until("document.querySelector('#f-name')?.value === 'EModelElement'")
        self.browser.type('#f-name', 'Renamed', 'Keys.ENTER')
        self.until("document.querySelector('#saved').textContent === '1 file edited'")
        self.browser.keys('Ctrl+s')
        self.until("document.querySelector('#saved').textContent === ''")
        changed = [it.name for it in files if it.read_bytes() != texts[it]]
        self.assertEqual(changed, ['Ecore.ecore'])
        self.assertIn(b'name="EModelElementRenamed"', (models / 'Ecore.ecore').read_bytes())
