"""Random edits in two windows on models of Eclipse. Afterwards both windows, a fresh window and the saved documents must agree."""

import json
import os
import subprocess
import sys
import unittest
from pathlib import Path

from editor_support import ECORE_JAR, MODEL_JAR, WORKBENCH_JAR, BrowserTest, with_browser
from support import TOP

EDITS = int(os.environ.get('EDITOR_EDITS', 150))  # on each of the two models
TOGETHER = 5  # edits in one window, before the other window goes on
SEED = int(os.environ.get('EDITOR_SEED', 1))
NO_MODELS = 'the packages libeclipse-e4-ui-model-workbench-java and libeclipse-ui-workbench-java are not installed'
SMALL = (640, 420)  # size of the page in pixels: painting takes most of the time
CODE = (Path(__file__).parent / 'random_edits.mjs').read_text()

# Opens all nodes, and waits until they are known.
OPEN_ALL = '''
    const {model, tree} = mmrepo;
    const wait = () => new Promise((done) => setTimeout(done, 5));
    for (let tries = 0; tries < 1000 && model.number < words[0]; tries += 1) await wait();
    const seen = new Set();
    const waiting = model.files.map((it) => it.resource);
    while (waiting.length > 0) {
        const id = waiting.pop();
        seen.add(id);
        tree.open.add(id);
        for (let tries = 0; tries < 1000 && !model.need(id); tries += 1) await wait();
        const {class: kind, values} = model.nodes.get(id);
        waiting.push(...model.metamodel.partsOf(kind).flatMap((it) => values[it.name] ?? []));
    }
    tree.change();
    return [...seen].map((id) => {
        const {class: kind, values, flags, in: holder} = model.nodes.get(id);
        return [id, {class: kind, values, flags: [...flags].sort(), in: holder}];
    });
'''


class Window:
    """What a window knows of the model, written as the documents of its resources."""

    def __init__(self, nodes, start):
        self.nodes = dict((json.dumps(id), state) for id, state in nodes)
        self.classes = start['metamodel']['classes']
        self.uris = {it['resource']: it['uri'] for it in start['resources']}
        self.features = {None: {}, **{name: self._features(name) for name in self.classes}}
        self.places = {}
        for word in self.uris:
            roots = self.state(word)['values'].get('contents', [])
            for index, root in enumerate(roots):
                self._place(root, word, '/' if len(roots) == 1 else f'/{index}')

    def _features(self, name):
        """All features of a class by name, inherited ones included."""
        found = {}
        for above in self.classes[name]['supers']:
            for key, feature in self._features(above).items():
                found.setdefault(key, feature)
        return {**found, **{it['name']: it for it in self.classes[name]['features']}}

    def state(self, id):
        """The state that the window has of a node."""
        return self.nodes[json.dumps(id)]

    def _place(self, id, word, fragment):
        """Writes down the resource and the fragment of an object and of each object below it."""
        self.places[id] = (word, fragment)
        state = self.state(id)
        for name, feature in self.features[state['class']].items():
            value = state['values'].get(name)
            if feature['contains'] and value is not None:
                for index, part in enumerate(value if feature['many'] else [value]):
                    self._place(part, word, f'{fragment}/@{name}' + (f'.{index}' if feature['many'] else ''))

    def document(self, word):
        """The document of a resource, by the rules of docs/DOCUMENTS.md."""
        return {'format': 2, 'roots': [self._written(it, word) for it in self.state(word)['values'].get('contents', [])]}

    def _written(self, id, word):
        """An object as its document has it."""
        state = self.state(id)
        features = {}
        for name, feature in self.features[state['class']].items():
            value = state['values'].get(name, feature.get('default'))
            if feature.get('holds') or not (name in state['values'] or name in state['flags']):
                continue
            values = [self._value(feature, it, word) for it in (value if feature['many'] else [value])]
            features[name] = values if feature['many'] else values[0]
        return {'class': state['class'], 'features': features}

    def _value(self, feature, value, word):
        """A value of a feature as the document has it: an object, a fragment, an address or a plain value."""
        if feature['contains']:
            return self._written(value, word)
        if not feature['refers']:
            return int(value) if feature['type'] == 'ELong' and value is not None else value
        if isinstance(value, str):
            return value
        there, fragment = self.places[value]
        return fragment if there == word else f'{self.uris[there]}#{fragment}'


class RandomTest(BrowserTest):
    """A test of random edits on a folder of documents."""

    def converted(self, ecore, file, name):
        """Converts an XMI file to a document; returns the folder of the document, and the metamodel."""
        meta = self.meta(ecore)
        models = self.write(name, '')
        words = [word for it in ecore for word in ('--ecore', str(it))]
        command = [sys.executable, str(TOP / 'tools/xmi2doc'), *words, '-o', str(models / name), str(file)]
        subprocess.run(command, check=True, stderr=subprocess.PIPE)
        return models, meta

    def edit(self, models, meta):
        """Makes random edits in two windows by turns, and then compares the windows."""
        self.browser.size(*SMALL)
        self.open(models, meta=meta)
        first = self.browser.name()
        second = self.browser.window(self.address)
        self.browser.size(*SMALL)
        self.settle()
        for name in (first, second):
            self.browser.switch(name)
            self.js(OPEN_ALL, 0)
        for number in range(0, EDITS, TOGETHER):
            self.browser.switch(second if number // TOGETHER % 2 else first)
            self.js(CODE, [SEED * 1_000_003 + it for it in range(number, min(number + TOGETHER, EDITS))])
        number = self.call('start')['number']
        self.assertGreater(number, EDITS // 3)
        self.compare(models, number, [first, second])

    def compare(self, models, number, names):
        """Compares what the windows know with a fresh window and with the saved documents."""
        known = []
        for name in names:
            self.browser.switch(name)
            known.append(self.js(OPEN_ALL, number))
            self.assertEqual(self.js('return (await mmrepo.verify()).differences;'), [])
        self.browser.close()
        fresh = self.browser.window(self.address)
        self.settle()
        known.append(self.js(OPEN_ALL, number))
        self.assertEqual(self.js('return (await mmrepo.verify()).differences;'), [])
        self.browser.switch(fresh)
        self.browser.close()
        windows = [sorted(it, key=lambda pair: json.dumps(pair[0])) for it in known]
        self.assertEqual(windows[0], windows[2])
        self.assertEqual(windows[1], windows[2])
        start = self.call('start')
        self.assertIn('saved', self.call('save', force=False))
        window = Window(windows[2], start)
        for it in start['resources']:
            saved = json.loads((models / it['name']).read_text(encoding='utf-8'))
            written = json.loads(json.dumps(window.document(it['resource'])))
            self.assertEqual(written, saved)


@with_browser
class Random(RandomTest):
    """Random edits of two models of Eclipse."""

    @unittest.skipUnless(ECORE_JAR.exists(), 'the package libeclipse-emf-ecore-java is not installed')
    def test_ecore(self):
        """The model is Ecore's own metamodel."""
        ecore = [it for it in self.taken(ECORE_JAR, '.ecore', Path(self.room.name, 'ecore')) if it.name == 'Ecore.ecore']
        self.edit(*self.converted(ecore, ecore[0], 'Ecore.json'))

    @unittest.skipUnless(MODEL_JAR.exists() and WORKBENCH_JAR.exists(), NO_MODELS)
    def test_application(self):
        """The model is the application model of Eclipse."""
        room = Path(self.room.name, 'ecore')
        ecore = [self.taken(MODEL_JAR, name, room)[0] for name in ('UIElements.ecore', 'ModelFragment.ecore')]
        file, = self.taken(WORKBENCH_JAR, '.e4xmi', room)
        self.edit(*self.converted(ecore, file, 'LegacyIDE.json'))
