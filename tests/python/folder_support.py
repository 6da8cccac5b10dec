"""Shared by the tests of folders: a folder of three files."""

from pathlib import Path

from support import LibraryTest

BASE = 'http://models.example/'

# The files and the references between them are written by hand, by the rules of docs/DOCUMENTS.md.
TOWN = """{
  "format": 2,
  "roots": [
    {"class": "Library", "features": {"name": "Town library", "books": [
      {"class": "Book", "features": {"name": "Emma", "next": "sub/b.json#/1"}},
      {"class": "Book", "features": {"name": "Persuasion"}}
    ]}}
  ]
}
"""
SUB = """{"format": 2, "roots": [
  {"class": "Person", "features": {"name": "Ann", "likes": ["../town.json#//@books.1"], "favourite": "../town.json#//@books.0"}},
  {"class": "Book", "features": {"prev": "../town.json#//@books.0"}}
]}
"""


class FolderTest(LibraryTest):
    """A test with a folder of three files; two of them refer to each other."""

    def setUp(self):
        super().setUp()
        self.top = Path(self.room.name, 'models')
        (self.top / 'sub').mkdir(parents=True)
        self.write('town.json', TOWN)
        self.write('sub/b.json', SUB)
        self.write('alone.json', '{"format":2,"roots":[{"class":"Folder","features":{}}]}')

    def write(self, name, content):
        """Writes a file of the folder."""
        path = self.top / name
        path.write_bytes(content if isinstance(content, bytes) else content.encode())
        return path

    def contents(self):
        """The bytes of each file of the folder."""
        return {str(it.relative_to(self.top)): it.read_bytes() for it in self.top.rglob('*') if it.is_file()}

    def lines(self, folder):
        """The lines of the findings of a folder."""
        return [it.line for it in folder.findings]
