"""Faults planted in a metamodel, each fixed by the line that the program prints for it and by nothing else."""

import json
import re
import unittest

from shop import METAMODEL, run


def replaced(text, old, new):
    """A text with one part replaced; the part must be in it exactly once."""
    if text.count(old) != 1:
        raise ValueError(f'{old!r} is there {text.count(old)} times')
    return text.replace(old, new)


def feature_of(document, class_name, name):
    """The features of a class, and the last one of a name."""
    features = next(it for it in document['classes'] if it['name'] == class_name)['features']
    return features, next(it for it in reversed(features) if it['name'] == name)


def edited(change):
    """A fix that changes the metamodel as JSON."""

    def mend(text, match):
        document = json.loads(text)
        change(document, match)
        return json.dumps(document)

    return mend


def quoted(old, new):
    """A fix that replaces one part of the text; the groups of the printed line give the old and the new part."""

    def mend(text, match):
        return replaced(text, match.expand(old), match.expand(new))

    return mend


def without_key(document, match):
    """Removes a key from a feature."""
    del feature_of(document, match[1], match[2])[1][match[3]]


def without_feature(document, match):
    """Removes the last feature of a name."""
    features, found = feature_of(document, match[1], match[2])
    features.remove(found)


def moved_down(document, match):
    """Moves a feature from one class to another."""
    features, found = feature_of(document, match[3], match[1])
    features.remove(found)
    next(it for it in document['classes'] if it['name'] == match[2])['features'].append(found)


def set_key(key, group, cast=str):
    """A change that sets a key of a feature to the value in a group of the printed line."""

    def change(document, match):
        feature_of(document, match[1], match[2])[1][key] = cast(match[group])

    return change


PLACE = r'(?:classes\[\d+\]\.features\[\d+\] \()?class (\w+), feature (\w+)\)?: '
MEANT = '"(.+)" is no .*; is "(.+)" meant\\?'
# For each fault: the edit of the text that plants it, a pattern for the line that the program must print, and the fix.
FAULTS = {
    'byte_order_mark': (('{"enums"', '\ufeff{"enums"'), 'line 1, column 1: the bytes begin with a byte order mark; take it out', lambda text, match: text[1:]),
    'comma': (
        ('"SENT"]}', '"SENT"],}'),
        r'line 2, column 58: from here on the bytes are no JSON: "(.*?)\\n.*"',
        lambda text, match: replaced(text, f',{match[1]}\n', f'{match[1]}\n'),
    ),
    'comment': (
        ('],\n"classes"', '],\n// all of them\n"classes"'),
        r'line 4, column 1: from here on the bytes are no JSON: "(.*?)\\n.*"',
        lambda text, match: replaced(text, f'{match[1]}\n', ''),
    ),
    'last_bracket': (
        (']}\n]}\n', ']}\n]]\n'),
        r'line \d+, column 0: just before this place the bytes are no JSON',
        lambda text, match: replaced(text, ']]\n', ']}\n'),
    ),
    'key': (('"Customer", "supers"', '"Customer", "super"'), r'classes\[4\] \(class Customer\): unknown key "(.+)"; is "(.+)" meant\?', quoted(r'"\1"', r'"\2"')),
    'ecore_key': (
        ('"Order", "upper": -1', '"Order", "upperBound": -1'), PLACE + 'unknown key "(.+)"; a feature has "(.+)"', quoted(r'"\3"', r'"\4"')),
    'number_as_default': (
        ('"EInt", "default": "1"', '"EInt", "default": 1'), PLACE + r'"default" is (\d+), and has to be a text .*; a default is a text .*', edited(set_key('default', 3))),
    'text_as_flag': (
        ('"Person", "abstract": true', '"Person", "abstract": "true"'), r'classes\[3\] \(class Person\): "abstract" is ("true"), and has to be (true) or false', quoted(r'\1', r'\2')),
    'capital': (
        ('"name": "name", "kind": "attribute"', '"name": "name", "kind": "Attribute"'),
        PLACE + '"kind" is "(.+)", and has to be "(.+)" or ".+"',
        quoted(r'"\3"', r'"\4"'),
    ),
    'star': (
        ('"Customer", "upper": -1', '"Customer", "upper": "*"'), PLACE + r'"upper" is ("\*"), and .*; (-1) stands for any number', quoted(r'\3', r'\4')),
    'transient': (
        ('"EString", "upper": -1', '"EString", "transient": true, "upper": -1'), PLACE + 'unknown key "(.+)"; no feature is .*; leave it out', edited(without_key)),
    'contained_attribute': (
        ('"type": "State"', '"containment": false, "type": "State"'), PLACE + 'unknown key "(.+)"; only a reference has it', edited(without_key)),
    'unsettable_list': (
        ('"EString", "upper": -1', '"EString", "unsettable": true, "upper": -1'), PLACE + '"(unsettable)" is true, and goes with "upper" 1 alone', edited(without_key)),
    'space_in_a_name': (
        ('"name": "Box"', '"name": "B ox"'),
        'class B ox: "(.+)" is no name; a name is a letter or _, and then letters, digits and _',
        lambda text, match: replaced(text, f'"{match[1]}"', '"' + re.sub(r'\W', '', match[1]) + '"'),
    ),
    'name_again': (
        ('"lower": 1}\n', '"lower": 1},\n    {"name": "number", "kind": "attribute", "type": "EInt"}\n'),
        r'class \w+: it has two features of one name: class (\w+), feature (\w+), at features\[0\] and features\[6\]',
        edited(without_feature),
    ),
    'inherited_name': (
        ('"opposite": "clerks"}\n', '"opposite": "clerks"},\n    {"name": "age", "kind": "attribute", "type": "EInt"}\n'),
        r'class (?P<of>\w+): it has two features of one name: class (\w+), feature (\w+), and class .*',
        lambda text, match: edited(without_feature)(text, re.match(r'class (\w+).*feature (\w+), and', match[0])),
    ),
    'supertype_twice': (
        ('"Person", "abstract": true, "supers": ["Named"]', '"Person", "abstract": true, "supers": ["Named", "Named"]'),
        r'class (\w+): supers\[0\] and supers\[(\d)\] are the same name',
        edited(lambda document, match: next(it for it in document['classes'] if it['name'] == match[1])['supers'].pop(int(match[2]))),
    ),
    'type': (('"type": "Customer", "upper"', '"type": "Custmer", "upper"'), 'class Shop, feature customers: ' + MEANT, quoted(r'"\1"', r'"\2"')),
    'string': (('"name", "kind": "attribute", "type": "EString"', '"name", "kind": "attribute", "type": "String"'), 'class Named, feature name: ' + MEANT, quoted(r'"\1"', r'"\2"')),
    'enumeration': (('"type": "State"', '"type": "Sttae"'), 'class Order, feature state: ' + MEANT, quoted(r'"type": "\1"', r'"type": "\2"')),
    'supertype': (('"Shop", "supers": ["Named"]', '"Shop", "supers": ["Namd"]'), 'class Shop: ' + MEANT, quoted(r'"\1"', r'"\2"')),
    'kind': (
        ('"customer", "kind": "reference"', '"customer", "kind": "attribute"'), 'class (Order), feature (customer): its type "Customer" is a class; its "kind" may be meant to be "(.+)"', edited(set_key('kind', 3))),
    'cycle': (
        ('"Named", "abstract": true', '"Named", "supers": ["Customer"], "abstract": true'),
        r'class (\w+): its supertypes lead back to it: \w+, (\w+), Person, Named',
        quoted(r'"\1", "supers": ["\2"]', r'"\1"'),
    ),
    'bounds': (
        ('"Customer", "lower": 1', '"Customer", "lower": 2'), PLACE + 'its lower is 2 and its upper (1); a lower is not above the upper, .*', edited(set_key('lower', 3, int))),
    'opposite': (
        ('"opposite": "shop"', '"opposite": "shp"'),
        PLACE + 'its opposite "(.+)" is no feature that Order declares itself; is "(.+)" meant\\?',
        quoted(r'"opposite": "\3"', r'"opposite": "\4"'),
    ),
    'other_opposite': (
        ('"opposite": "orders"', '"opposite": "order"'),
        PLACE + 'its opposite "shop" of Order names "(.+)"',
        quoted(r'"opposite": "\3"', r'"opposite": "\2"'),
    ),
    'both_contain': (
        ('"upper": 1, "opposite": "orders"', '"upper": 1, "containment": true, "opposite": "orders"'),
        r'class Shop, feature orders: it and its opposite "(\w+)" of (\w+) are both containments; only the end of the holder may be one',
        edited(lambda document, match: feature_of(document, match[2], match[1])[1].pop('containment')),
    ),
    'container_bound': (
        ('"upper": 1, "opposite": "orders"', '"upper": -1, "opposite": "orders"'), PLACE + 'its upper is -1, and has to be (1), since .*', edited(set_key('upper', 3, int))),
    'literal': (
        ('"default": "OPEN"', '"default": "OPN"'), PLACE + 'its default "(.+)" is none of State; it has to be the name of a literal: "(.+?)", .*', quoted(r'"\3"', r'"\4"')),
    'truth': (
        ('"default": "false"', '"default": "False"'), PLACE + 'its default "(.+)" is none of EBoolean; it has to be true or (false)', quoted(r'"\3"', r'"\4"')),
    'zero': (
        ('"EInt", "default": "1"', '"EInt", "default": "01"'),
        PLACE + 'its default "0*(.+)" is none of EInt; it has to be a whole number .* without leading zeros',
        edited(set_key('default', 3)),
    ),
    'default_of_a_list': (
        ('"EString", "upper": -1', '"EString", "default": "", "upper": -1'), PLACE + 'it is many-valued, and begins empty; leave its (default) out', edited(without_key)),
}
# A planted fault: the reference was moved to a supertype.
LIFTED = (
    METAMODEL.replace('"features": [\n    {"name": "workplace", "kind": "reference", "type": "Shop", "opposite": "clerks"}\n  ]', '"features": []')
    .replace('"type": "EInt"}\n', '"type": "EInt"},\n    {"name": "workplace", "kind": "reference", "type": "Shop", "opposite": "clerks"}\n')
)


class Metamodels(unittest.TestCase):
    """Each fault is refused, explained and fixed."""

    def test_the_metamodel_has_no_fault(self):
        """The metamodel without a planted fault is accepted."""
        self.assertEqual(run(METAMODEL), ('', '', 0))

    def mended(self, text, pattern, mend):
        """A refused metamodel, fixed by its explanation."""
        _, said, status = run(text, (), '--explain')
        self.assertEqual(status, 1, said)
        fault, *lines = said.splitlines()
        self.assertTrue(fault.startswith('metamodel refused: '), said)
        matches = [match for match in (re.fullmatch(pattern, line) for line in lines) if match]
        self.assertEqual(len(matches), 1, f'{said}\nno line is {pattern}')
        return mend(text, matches[0])

    def test_each_fault_is_mended_by_its_line(self):
        """The fix gives the metamodel as it was before the fault."""
        for name, ((old, new), pattern, mend) in FAULTS.items():
            with self.subTest(name):
                text = self.mended(replaced(METAMODEL, old, new), pattern, mend)
                self.assertEqual(json.loads(text), json.loads(METAMODEL))

    def test_a_reference_of_a_supertype(self):
        """For an opposite that a supertype declares, the first fix that is offered gives the metamodel that was meant, and the second fix
        gives a metamodel that is accepted."""
        pattern = r'class Shop, feature clerks: its opposite "(\w+)" is no feature that (\w+) declares itself; declare it in \2 and not in (\w+), or give .*'
        text = self.mended(LIFTED, pattern, edited(moved_down))
        self.assertEqual(json.loads(text), json.loads(METAMODEL))
        pattern = r'.*, or give this reference the type "(\w+)"'
        text = self.mended(LIFTED, pattern, lambda text, match: replaced(text, '"type": "Clerk"', f'"type": "{match[1]}"'))
        self.assertEqual(run(text), ('', '', 0))

    def test_a_reference_of_a_supertype_that_comes_first(self):
        """The same, if the refused reference is the one of the supertype."""
        document = json.loads(LIFTED)
        document['classes'].insert(0, document['classes'].pop(3))
        pattern = (
            r'class (?P<owner>\w+), feature workplace: its opposite "clerks" of Shop has the type "Clerk", which inherits this reference; '
            r'declare "(\w+)" in (\w+) and not in (\w+), or give the opposite the type "(?P=owner)"'
        )

        def mend(text, match):
            return edited(moved_down)(text, re.search(r'declare "(\w+)" in (\w+) and not in (\w+)', match[0]))

        text = self.mended(json.dumps(document), pattern, mend)
        wanted = json.loads(METAMODEL)
        wanted['classes'].insert(0, wanted['classes'].pop(3))
        self.assertEqual(json.loads(text), wanted)


if __name__ == '__main__':
    unittest.main()
