"""Shared by the tests of the editor in a browser: a folder with the model of a town, opened in a window."""

from editor_support import BrowserTest

TOWN = {'format': 2, 'roots': [{'class': 'Library', 'features': {
    'name': 'Town library',
    'books': [{'class': 'Book', 'features': {'name': 'Emma', 'tags': ['love', 'england']}}, {'class': 'Book', 'features': {'name': 'Persuasion'}}],
    'members': [{'class': 'Person', 'features': {'name': 'Ann'}}, {'class': 'Person', 'features': {'name': 'Bob'}},
                {'class': 'Person', 'features': {'name': 'Cid'}}],
}}]}
PERSONS = {'format': 2, 'roots': [
    {'class': 'Person', 'features': {'name': 'Dora', 'likes': ['../town.json#//@books.0', '../nowhere.json#/'], 'favourite': '../late.json#/'}}
]}
TREE = ['sub/persons.json', '  Dora', 'town.json', '  Town library', '    Emma', '    Persuasion', '    Ann', '    Bob', '    Cid']
DORA, TOWN_LIBRARY, EMMA, PERSUASION, ANN, BOB, CID = range(7)


class TownTest(BrowserTest):
    """A test whose window shows the folder of a town."""

    def setUp(self):
        super().setUp()
        self.models = self.write('town.json', TOWN)
        self.write('sub/persons.json', PERSONS)
        self.open(self.models)
        self.js('mmrepo.tree.open.add(words[0]); mmrepo.tree.change();', TOWN_LIBRARY)
        self.settle()

    def value(self, number, feature):
        """The value of a feature of an object, as the program returns it."""
        return self.call('asked', nodes=[number])['nodes'][str(number)]['values'].get(feature)

    def refusal(self, feature):
        """The text of the refusal that the page shows at a field."""
        return self.until('document.querySelector(`[data-feature="${words[0]}"] .refusal`).textContent', feature)
