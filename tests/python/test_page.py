"""The examples of docs/PYTHON.md and of the README print what the pages show, and docs/PYTHON.md names what the package offers."""

import re
import textwrap

from support import TOP, ClientTest

import mmrepo

PAGE = (TOP / 'docs/PYTHON.md').read_text()


def block(language):
    """The first code block of a language on the page."""
    return re.search(rf'^```{language}\n(.*?)^```$', PAGE, re.M | re.S)[1]


class Page(ClientTest):
    """The page on the client."""

    def test_example(self):
        """The example of the page prints what follows it."""
        self.file('library.json', block('json'))
        self.assertEqual(self.run_code(block('python'), self.room.name), block('text'))

    def test_readme(self):
        """The Python lines of the README print what the comment of the last line shows."""
        lines = re.search(r'^    with mmrepo\..*\n(?:     .*\n)+', (TOP / 'README.md').read_text(), re.M).group()
        done = self.run_code('import mmrepo\n' + textwrap.dedent(lines), TOP)
        self.assertEqual(done, lines.rpartition('# ')[2])

    def test_errors(self):
        """The page names each error of the package."""
        things = {name: getattr(mmrepo, name) for name in mmrepo.__all__}
        errors = {name for name, it in things.items() if isinstance(it, type) and issubclass(it, Exception)}
        named = set(re.findall(r'`([A-Z]\w+)`', PAGE))
        self.assertEqual(errors - {'ProgramError'} - named, set())

    def test_names(self):
        """The page names each public method and property of an object, a list, a resource, a view and a repository."""
        hidden = {'is_of', 'hearer', 'is_attached', 'close', 'uri', 'metamodel'}
        for kind in (mmrepo.EObject, mmrepo.FeatureList, mmrepo.Resource, mmrepo.View, mmrepo.Repository):
            for name in vars(kind):
                if not name.startswith('_') and name not in hidden:
                    self.assertRegex(PAGE, rf'\b{name}\b', f'{kind.__name__}.{name}')

    def test_exported(self):
        """Each name that the package exports has a docstring."""
        for name in set(mmrepo.__all__) - {'Value'}:
            self.assertTrue(getattr(mmrepo, name).__doc__, name)
