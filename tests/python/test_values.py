"""Values that are sent to the program come back as they were, or are refused."""

from support import ClientTest, LibraryTest

from mmrepo import Literal, Proxy

TEXTS = [
    '',
    ' ',
    '  two  ',
    'a"b',
    'a\\b',
    '\\',
    '"',
    '\\n',
    '\n',
    'a\r\nb\tc\bd\fe',
    ''.join(map(chr, range(32))),
    '\x7f\x80\x9f',
    'é ü ß',
    '\u00a0\u2028\u2029\ufeff',
    '\U0001f600 \U0010ffff',
    '#0',
    ':NOVEL',
    'null',
    'proxy "http://m.example/a#/"',
    'refused 8 TYPE',
    'bad line',
    'told A9 SET #0.name null null -1',
    '] [a] ["b"]',
    '\u0000',
]


class Texts(ClientTest):
    """Each text of TEXTS, among them texts that look like other words of a script."""

    def test_single(self):
        """As the value of a feature."""
        kind = self.kinds().create('Kind')
        for text in TEXTS:
            with self.subTest(text):
                kind.text = text
                self.assertEqual(kind.text, text)

    def test_list(self):
        """As values of a list."""
        kind = self.kinds().create('Kind')
        kind.texts.extend(TEXTS)
        self.assertEqual(kind.texts, TEXTS)

    def test_in_notices(self):
        """As the old and the new value of a notification."""
        repo = self.kinds()
        kind, heard = repo.create('Kind'), []
        repo.attach(heard.append, kind)
        before = None
        for text in TEXTS:
            kind.text = text
            self.assertEqual((heard[-1].old, heard[-1].new), (before, text))
            before = text

    def test_half_of_a_pair(self):
        """Half of a surrogate pair is no text."""
        kind = self.kinds().create('Kind')
        with self.assertRaises(UnicodeEncodeError):
            kind.text = 'a\ud800'
        self.assertIsNone(kind.text)

    def test_longest(self):
        """A text has at most 65,535 bytes of UTF-8."""
        kind = self.kinds().create('Kind')
        kind.text = 'a' * 65_535
        self.assertEqual(len(kind.text), 65_535)
        with self.refused(9, 'TEXT_LENGTH'):
            kind.text = 'a' * 65_536
        with self.refused(9, 'TEXT_LENGTH'):
            kind.text = 'é' * 32_768
        self.assertEqual(len(kind.text), 65_535)

    def test_longer_than_a_line(self):
        """A text that does not fit in a line is not sent."""
        kind = self.kinds().create('Kind')
        with self.assertRaises(ValueError):
            kind.text = 'a' * 16_777_216
        self.assertIsNone(kind.text)


class Others(ClientTest):
    """Numbers, truth values, literals and null."""

    def setUp(self):
        super().setUp()
        self.kind = self.kinds().create('Kind')

    def test_defaults(self):
        """The default value of each type."""
        kind = self.kind
        self.assertIsNone(kind.text)
        self.assertEqual((kind.int, kind.long), (0, 0))
        self.assertIs(kind.truth, False)
        self.assertEqual(kind.colour, Literal('RED'))
        self.assertEqual(kind.texts, [])

    def test_integers(self):
        """An EInt has 32 bits."""
        for number in (0, 1, -1, 2**31 - 1, -(2**31)):
            self.kind.int = number
            self.assertEqual(self.kind.int, number)
            self.kind.ints.append(number)
        self.assertEqual(self.kind.ints, [0, 1, -1, 2**31 - 1, -(2**31)])
        for number in (2**31, -(2**31) - 1):
            with self.refused(8, 'TYPE'):
                self.kind.int = number
        self.assertEqual(self.kind.int, -(2**31))

    def test_longs(self):
        """An ELong has 64 bits; a larger number is not sent."""
        for number in (2**31, 2**63 - 1, -(2**63)):
            self.kind.long = number
            self.assertEqual(self.kind.long, number)
            self.kind.longs.append(number)
        self.assertEqual(self.kind.longs, [2**31, 2**63 - 1, -(2**63)])
        for number in (2**63, -(2**63) - 1, 10**5000):
            with self.assertRaises(ValueError):
                self.kind.long = number
        self.assertEqual(self.kind.long, -(2**63))

    def test_truth(self):
        """A truth value is no number, and a number is no truth value."""
        self.kind.truth = True
        self.assertIs(self.kind.truth, True)
        self.kind.truths.extend([True, False, True])
        self.assertEqual(self.kind.truths, [True, False, True])
        for feature, value in (('truth', 1), ('int', True)):
            with self.refused(8, 'TYPE'):
                self.kind[feature] = value

    def test_literals(self):
        """A literal is set by its name, and read as a Literal that equals its name."""
        kind = self.kind
        kind.colour = 'BLUE'
        self.assertEqual(kind.colour, 'BLUE')
        self.assertIsInstance(kind.colour, Literal)
        kind.colour = Literal('RED')
        self.assertEqual(kind.colour, 'RED')
        kind.colours.extend(['BLUE', Literal('BLUE'), 'RED'])
        self.assertEqual(kind.colours, ['BLUE', 'BLUE', 'RED'])
        kind.colours.remove('BLUE')
        self.assertEqual(kind.colours.index('RED'), 1)
        for wrong in ('GREEN', 'red', 'no name', '', 'RED\nnew Kind', None, 0):
            with self.subTest(wrong), self.refused(8, 'TYPE'):
                kind.colour = wrong

    def test_a_literal_is_no_text(self):
        """A Literal is refused by a feature of type EString."""
        with self.refused(8, 'TYPE'):
            self.kind.text = Literal('RED')

    def test_null(self):
        """Only texts and references can be null."""
        self.kind.text = 'a'
        self.kind.text = None
        self.assertIsNone(self.kind.text)
        for feature in ('int', 'long', 'truth', 'colour'):
            with self.subTest(feature), self.refused(8, 'TYPE'):
                self.kind[feature] = None

    def test_no_values(self):
        """Any other Python object is a TypeError, and is not sent."""
        for wrong in (1.5, b'a', [1], {}, object(), Proxy('http://m.example/a#/'), self.kind.texts):
            with self.assertRaises(TypeError):
                self.kind.text = wrong
        self.assertIsNone(self.kind.text)


class Objects(LibraryTest):
    """Objects as values."""

    def test_of_another_class(self):
        """An object whose class does not conform is refused."""
        library, person = self.made('Library', 'Person')
        with self.refused(8, 'TYPE'):
            person.favourite = library

    def test_of_another_repository(self):
        """An object of another repository is a ValueError."""
        book = self.opened().create('Book')
        person = self.repo.create('Person')
        with self.assertRaises(ValueError):
            person.favourite = book
        with self.assertRaises(ValueError):
            person.likes.append(book)
        self.assertIsNone(person.favourite)

    def test_a_resource_is_no_value(self):
        """A resource is a TypeError."""
        person = self.repo.create('Person')
        with self.assertRaises(TypeError):
            person.favourite = self.repo.resource('http://m.example/a')


class Proxies(ClientTest):
    """The class Proxy."""

    def test_parts(self):
        """A proxy is split into URI and fragment at its first `#`, and equals a proxy of the same address."""
        proxy = Proxy('http://m.example/b#//@books.7#8')
        self.assertEqual((proxy.uri, proxy.fragment), ('http://m.example/b', '//@books.7#8'))
        self.assertEqual(proxy, Proxy('http://m.example/b#//@books.7#8'))
        self.assertEqual(len({proxy, Proxy(proxy.address)}), 1)
