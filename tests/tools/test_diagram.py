"""`tools/diagram`: what it draws of metamodels and of documents."""

import json
import re

from support import TOP, ToolTest

LIBRARY = TOP / 'examples/library.json'
CLASSES = """classDiagram
  class Genre {
    <<enumeration>>
    NOVEL
    POEM
    PLAY
  }
  class Named {
    <<abstract>>
    name : EString
  }
  class Library
  class Book {
    pages : EInt = 100
    genre : Genre
    tags : EString [0..*]
    scores : EInt [0..3]
    note : EString
  }
  class Person
  class Folder
  Named <|-- Library
  Named <|-- Book
  Named <|-- Person
  Library "0..1" *-- "0..*" Book : books / library
  Library *-- "0..*" Person : members
  Library "0..1" -- "0..2" Person : staff / job
  Book "0..1" -- "0..1" Book : next / prev
  Person --> "0..*" Book : likes
  Person --> "1..1" Book : favourite
  Folder "0..1" *-- "0..*" Folder : subs / parent
"""
DOCUMENT = {'format': 1, 'roots': [{'class': 'Library', 'features': {
    'name': 'T"}{',
    'books': [{'class': 'Book', 'features': {'tags': ['a', 'b'], 'genre': 'POEM', 'next': '//@books.1'}},
              {'class': 'Book', 'features': {'note': None, 'prev': '//@books.0'}}],
    'members': [{'class': 'Person', 'features': {'job': '/', 'likes': ['//@books.1', 'b#/']}}],
    'staff': ['//@members.0'],
}}]}
OBJECTS = """classDiagram
  class box_0["/ : Library"] {
    name = #34;T#92;#34;#125;#123;#34;
  }
  class box_1["//#64;books.0 : Book"] {
    genre = POEM
    tags = [#34;a#34;, #34;b#34;]
  }
  class box_2["//#64;books.1 : Book"] {
    note = null
  }
  class box_3["//#64;members.0 : Person"]
  class box_4["b#35;/"] {
    <<proxy>>
  }
  box_0 *-- box_1 : books
  box_0 *-- box_2 : books
  box_0 *-- box_3 : members
  box_0 -- box_3 : staff / job
  box_1 -- box_2 : next / prev
  box_3 --> box_2 : likes
  box_3 --> box_4 : likes
"""
GRAPH = """digraph model {
  rankdir=BT;
  node [shape=record];
  n0 [label="{«enumeration»\\nE|A\\l}"];
  n1 [label="{«abstract»\\nA|x\\ :\\ E\\ [1..1]\\l}"];
  n2 [label="{B}"];
  n2 -> n1 [arrowhead=empty];
  n2 -> n1 [dir=both, arrowtail=diamond, arrowhead=none, label="parts [0..*]"];
}
"""
SMALL = {'enums': [{'name': 'E', 'literals': ['A']}], 'classes': [
    {'name': 'A', 'abstract': True, 'features': [{'name': 'x', 'kind': 'attribute', 'type': 'E', 'lower': 1}]},
    {'name': 'B', 'supers': ['A'], 'features': [{'name': 'parts', 'kind': 'reference', 'type': 'A', 'upper': -1, 'containment': True}]},
]}

# Metamodel documents, each with the line that the tool prints for it.
FAULTS = [
    ('[]', 'ROOM/m.json: the document is no object'),
    ('{}', 'ROOM/m.json: the document: classes is absent or of another kind'),
    ('{"classes":[1]}', 'ROOM/m.json: class 0 is no object'),
    ('{"classes":[{"name":1}]}', 'ROOM/m.json: class 0: name is absent or of another kind'),
    ('{"classes":[{"name":"A","supers":["B"]}]}', 'ROOM/m.json: class 0: no class B'),
    ('{"classes":[{"name":"A","features":[{"name":"x","kind":"attribute","type":"A"}]}]}',
     'ROOM/m.json: class 0 feature 0: no attribute has the type A'),
    ('{"classes":[{"name":"A","features":[{"name":"x","kind":"reference","type":"A","opposite":"y"}]}]}',
     'ROOM/m.json: A.x: no opposite y'),
]


class Diagrams(ToolTest):
    """The text of each diagram, letter by letter."""

    def draw(self, meta, *words):
        """The diagram of a metamodel."""
        return self.tool('diagram', self.file('m.json', json.dumps(meta)), *words)

    def test_classes(self):
        """A class diagram has classes, enumerations, features, supertypes and references with their bounds."""
        self.assertEqual(self.tool('diagram', LIBRARY), CLASSES)

    def test_page(self):
        """The diagram in docs/ECORE.md is the one that the tool draws."""
        blocks = re.findall(r'```mermaid\n(.*?)```', (TOP / 'docs/ECORE.md').read_text(), re.S)
        self.assertEqual(blocks, [CLASSES])

    def test_objects(self):
        """An object diagram has objects with their values, links and proxies."""
        self.assertEqual(self.tool('diagram', LIBRARY, self.file('d.json', json.dumps(DOCUMENT))), OBJECTS)

    def test_graphviz(self):
        """`--dot` draws for Graphviz."""
        self.assertEqual(self.draw(SMALL, '--dot'), GRAPH)

    def test_names_that_say_something(self):
        """Titles that mean something to Mermaid get a numbered identifier."""
        names = ['class', 'End', 'A"]\n}', 'box_0', 'box_0']
        made = self.draw({'classes': [{'name': name} for name in names]})
        self.assertEqual(
            made.splitlines()[1:],
            [
                '  class box_0_2["class"]', '  class box_1["End"]', '  class box_2["A#34;] #125;"]', '  class box_0',
                '  class box_4["box_0"]',
            ],
        )

    def test_texts_in_graphviz(self):
        """Characters that mean something to Graphviz are escaped."""
        document = {'format': 1, 'roots': [{'class': 'Book', 'features': {'name': 'a"\\{|<&lt;\n'}}]}
        made = self.tool('diagram', '--dot', LIBRARY, self.file('d.json', json.dumps(document)))
        self.assertIn(r'name\ =\ \"a\\\"\\\\\{\|\<&amp;lt;\\n\"\l', made)

    def test_long_texts(self):
        """A long text is cut."""
        document = {'format': 1, 'roots': [{'class': 'Book', 'features': {'name': 'x' * 50}}]}
        made = self.tool('diagram', LIBRARY, self.file('d.json', json.dumps(document)))
        self.assertIn('    name = #34;' + 'x' * 38 + '…\n', made)

    def test_bounds_of_one_line_are_at_its_ends(self):
        """The bounds of the only line between two boxes are at its ends."""
        classes = [{'name': 'A'}, {'name': 'B', 'features': [{'name': 'parts', 'kind': 'reference', 'type': 'A', 'upper': -1}]}]
        self.assertIn('  n1 -> n0 [label="parts", headlabel="0..*"];', self.draw({'classes': classes}, '--dot'))

    def test_class_that_all_have(self):
        """EObject is left out if it is a supertype of every class."""
        classes = [{'name': 'EObject', 'abstract': True}, {'name': 'A', 'supers': ['EObject']}, {'name': 'B', 'supers': ['A']}]
        self.assertEqual(self.draw({'classes': classes}).splitlines()[-1], '  A <|-- B')
        classes.append({'name': 'C'})
        self.assertIn('  EObject <|-- A', self.draw({'classes': classes}))

    def test_around(self):
        """`--around` and `--steps` draw the neighbours of a class."""
        classes = [{'name': f'C{number}', 'supers': [f'C{number - 1}'] if number else []} for number in range(50)]
        boxes = [line for line in self.draw({'classes': classes}, '--around', 'C7', '--steps', '2').splitlines() if ' class ' in line]
        self.assertEqual(boxes, [f'  class C{number}' for number in range(5, 10)])
        self.assertEqual(self.draw({'classes': classes}, '--around', 'C0'), 'classDiagram\n  class C0\n  class C1\n  C0 <|-- C1\n')
        self.assert_fault('ROOM/m.json: no class Z', 'diagram', self.file('m.json', json.dumps({'classes': classes})), '--around', 'Z')

    def test_faults(self):
        """A faulty metamodel document ends the tool with its line."""
        for text, line in FAULTS:
            with self.subTest(text=text):
                self.assert_fault(line, 'diagram', self.file('m.json', text))
