"""Refused commands, each fixed by the line that the program prints for it and by nothing else."""

import re
import unittest
from dataclasses import dataclass
from typing import Tuple

from shop import BOB, METAMODEL, ORDER, SCRIPT, run


@dataclass(frozen=True)
class Planted:
    """A script with a refused line: the lines before it, the line, a pattern for what the program must print, the lines that replace it,
    and the lines after it.

    A replacement takes words from the printed line by the groups of the pattern, as `re.Match.expand` does.
    """

    before: Tuple[str, ...]
    line: str
    said: str
    mended: Tuple[str, ...]
    rest: Tuple[str, ...] = ()


def instead(old, line, said, *mended):
    """A refused line in place of a valid line of the script."""
    at = SCRIPT.index(old)
    return Planted(SCRIPT[:at], line, said, mended, SCRIPT[at + 1:])


def after(old, line, said, *mended):
    """A refused line after a valid line of the script. Without a replacement the refused line is left out."""
    at = SCRIPT.index(old) + 1
    return Planted(SCRIPT[:at], line, said, mended, SCRIPT[at:])


NEW = 'resource "http://m.example/new"'
COMMANDS = {
    'no_class': instead('new Shop', 'new Shp', '"Shp" is no class; is "(.+)" meant\\?', r'new \1'),
    'far_class': instead('new Shop', 'new Store', '"Store" is no class; the classes are "Named", "(Shop)", .*', r'new \1'),
    'abstract': instead(
        'new Customer', 'new Person', 'class Person is abstract; the concrete classes below it are "(.+)", "Clerk"', r'new \1'
    ),
    'no_feature': instead(
        SCRIPT[2], 'set #0 nmae "Corner"', '"nmae" is no feature of Shop; is "(.+)" meant\\?', r'set #0 \1 "Corner"'
    ),
    'far_feature': instead(
        SCRIPT[2], 'set #0 title "Corner"', '"title" is no feature of Shop; its features are "(name)", .*', r'set #0 \1 "Corner"'
    ),
    'no_feature_of_a_resource': instead(
        SCRIPT[3], 'add r0 roots #0', '"roots" is no feature of a resource, whose one feature is "(.+)"', r'add r0 \1 #0'
    ),
    'type': instead(
        SCRIPT[9], 'set #2 number "12"', 'number of Order takes a whole number of 32 bits, and "(.+)" came', r'set #2 number \1'
    ),
    'literal': instead(
        'set #2 state :PAID',
        'set #2 state :PAYD',
        'state of Order takes a literal of its enumeration, .*, and :PAYD came; is (:PAID) meant\\?',
        r'set #2 state \1',
    ),
    'text_as_literal': instead(
        'set #2 state :PAID',
        'set #2 state "PAID"',
        'state of Order takes a literal of its enumeration, .*, and "PAID" came; is (:PAID) meant\\?',
        r'set #2 state \1',
    ),
    'object_of_a_wrong_class': after(
        SCRIPT[-1],
        'set #2 customer #0',
        r'customer of Order takes an object of class (\w+), and #0 \(Shop "Corner"\) came',
        r'new \1',
        'set #2 customer #9',
    ),
    'not_single': instead(
        'add #2 notes "first"',
        'set #2 notes "first"',
        'notes of Order is a list, and set takes a feature of one value; use (add), remove, removevalue or move',
        r'\1 #2 notes "first"',
    ),
    'not_many': instead(
        SCRIPT[9], 'add #2 number 12', 'number of Order has one value, and add takes a list; use (set) or unset', r'\1 #2 number 12'
    ),
    'no_object': instead(
        SCRIPT[9], 'set #22 number 12', 'there is no object #22: the last that was made is (#2)', r'set \1 number 12'
    ),
    'no_object_as_value': instead(
        SCRIPT[8], 'add #0 orders #3', 'there is no object #3: the last that was made is (#2)', r'add #0 orders \1'
    ),
    'no_resource': instead(
        SCRIPT[3], 'add r1 contents #0', 'there is no resource r1: the last that was made is (r0)', r'add \1 contents #0'
    ),
    'index': instead(
        SCRIPT[12],
        'add #2 notes "second" 2',
        r'index 2 is too high: notes of #2 \(Order\) has 1 value, and the last index for add is (1)',
        r'add #2 notes "second" \1',
    ),
    'index_of_a_move': instead(
        'move #2 notes 0 1',
        'move #2 notes 0 2',
        r'index 2 is too high: notes of #2 \(Order\) has 2 values, and the last index for move is (1)',
        r'move #2 notes 0 \1',
    ),
    'index_of_a_remove': instead(
        'remove #2 notes 1',
        'remove #2 notes 2',
        r'index 2 is too high: notes of #2 \(Order\) has 2 values, and the last index for remove is (1)',
        r'remove #2 notes \1',
    ),
    'duplicate': after(SCRIPT[12], 'add #2 notes "first" 2', r'notes of #2 \(Order\) has "first" already, at index 0'),
    'bound': after(
        'add #0 clerks #4',
        'set #0 clerks #4',
        r'clerks of Shop is a list, and set takes a feature of one value; use add, (remove), removevalue or move',
        r'\1 #0 clerks 1',
        'add #0 clerks #4',
    ),
    'recursive': after('add #5 boxes #6', 'set #5 inside #6', r"#6 \(Box\) is below #5 \(Box\), which can't be put into it"),
    'itself': after('add #5 boxes #6', 'add #5 boxes #5', r"#5 \(Box\) can't be put into itself"),
    'dangling': Planted(
        tuple(line for line in SCRIPT[:25] if line != 'add #0 customers #1'),
        'save r0',
        r'customer of #2 \(Order\) refers to (#1) \(Customer "Ann"\), which is in no resource; put it, .*, into the (contents) of one',
        (r'add r0 \2 \1', 'save r0'),
        SCRIPT[26:],
    ),
    'no_fragment': after(
        'add #5 boxes #6',
        'fragment #6',
        r'#6 \(Box\) is in no resource; put it, or what contains it, into the (contents) of one',
        r'add r0 \1 #5',
        'fragment #6',
    ),
    'relative': instead(
        SCRIPT[0], 'resource "m.example/shop"', '"(.+)" is relative, and has to begin with (http://) or https://', r'resource "\2\1"'
    ),
    'scheme': instead(
        SCRIPT[0],
        'resource "htp://m.example/shop"',
        'the scheme of "htp(.+)" is "htp", and has to be (http) or https',
        r'resource "\2\1"',
    ),
    'fragment': instead(
        SCRIPT[0],
        'resource "http://m.example/shop#a"',
        '"(.+)#a" has a fragment; leave out the # and what follows it',
        r'resource "\1"',
    ),
    'exists': after('save r0', 'resource "HTTP://M.example/shop"', 'r0 has the URI "http://m.example/shop" already'),
    'not_empty': after(BOB, BOB, r'r1 has a root, #7 \(Customer "Bob"\), and load takes an empty resource'),
    'document': instead(
        BOB,
        BOB.replace('Customer', 'Custmer'),
        r'roots\[0\]: "Custmer" is no class; is "(.+)" meant\?',
        BOB.replace('Customer', r'\1'),
    ),
    'unloaded': Planted(
        SCRIPT[:26] + (NEW, ORDER.replace('r2', 'r1')),
        'resolve #7 customer 0',
        'no resource has the URI "(.+)"; make one by (resource), and load it',
        (r'\2 "\1"', BOB.replace('r1', 'r2'), 'resolve #7 customer 0'),
    ),
    'unresolved': Planted(
        SCRIPT[:30] + (ORDER.replace('#/', '#/1'),),
        'resolve #8 customer 0',
        'the proxy leads nowhere: the resource of "(.+)" has no root at 1',
        ('new Customer', 'add r1 contents #9', r'at "\1#/1"', 'resolve #8 customer 0'),
    ),
    'not_proxy': after(SCRIPT[-1], SCRIPT[-1], r'customer of #8 \(Order\) has #7 \(Customer "Bob"\) at index 0, and no proxy'),
    'no_adapter': instead(
        'attach A1 #0 deep', 'attach A9 #0 deep', 'there is no adapter A9: the adapters are (A1) to A8', r'attach \1 #0 deep'
    ),
    'not_attached': instead(
        'watch A1 #5 flat', 'watch A2 #5 flat', 'A2 is attached to no node; (attach) it first', r'\1 A2 #5 flat'
    ),
    'taken': instead(
        'watch A1 #5 flat',
        'attach A1 #5 flat',
        'A1 is attached already; (watch) gives it one target more, and detach takes all of them',
        r'\1 A1 #5 flat',
    ),
    'address': instead(
        'at "http://m.example/old#/"',
        'at "http://m.example/old"',
        '"(.+)" has no fragment; an address is a URI, # and a fragment, as "http://m.example/a(#/)"',
        r'at "\1\2"',
    ),
}


def faults(printed):
    """The answers of refused and of bad lines."""
    return [line for line in printed.splitlines() if line.startswith('refused ') or line == 'bad line']


class Commands(unittest.TestCase):
    """Each command is refused, explained and fixed."""

    def test_the_script_has_no_fault(self):
        """Every line of the script is done, and nothing is explained."""
        printed, said, status = run(METAMODEL, SCRIPT, '--explain')
        self.assertEqual((faults(printed), said, status), ([], '', 0))

    def mended(self, planted):
        """The lines that replace a refused line, made from its explanation."""
        printed, said, status = run(METAMODEL, [*planted.before, planted.line], '--explain')
        self.assertEqual((len(faults(printed)), status), (1, 0), printed)
        lines = said.splitlines()
        self.assertEqual(len(lines), 1, said)
        match = re.fullmatch(f'line {len(planted.before) + 1}: {planted.said}', lines[0])
        self.assertIsNotNone(match, f'{said}\nis not {planted.said}')
        return [match.expand(line) for line in planted.mended]

    def test_each_command_is_mended_by_its_line(self):
        """With the replacement every line of the script is done."""
        for name, planted in COMMANDS.items():
            with self.subTest(name):
                script = [*planted.before, *self.mended(planted), *planted.rest]
                printed, said, _ = run(METAMODEL, script, '--explain')
                self.assertEqual((faults(printed), said), ([], ''), script)

    def test_what_is_said_changes_no_answer(self):
        """Without --explain the answers are the same, and nothing is explained."""
        for name, planted in COMMANDS.items():
            with self.subTest(name):
                script = [*planted.before, planted.line, *planted.rest]
                told, plain = run(METAMODEL, script, '--explain'), run(METAMODEL, script)
                self.assertEqual((plain[0], plain[1], plain[2]), (told[0], '', told[2]))


if __name__ == '__main__':
    unittest.main()
