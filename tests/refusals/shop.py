"""A metamodel and a script without a fault, and runs of the program over them."""

import os
import subprocess
import tempfile
from pathlib import Path

TOP = Path(__file__).resolve().parent.parent.parent
PROGRAM = Path(os.environ.get('MMREPO', TOP / 'crates/mmrepo/out/mmrepo')).resolve()
SECONDS = 60  # the longest time of a run

METAMODEL = '''\
{"enums": [
  {"name": "State", "literals": ["OPEN", "PAID", "SENT"]}
],
"classes": [
  {"name": "Named", "abstract": true, "features": [
    {"name": "name", "kind": "attribute", "type": "EString"}
  ]},
  {"name": "Shop", "supers": ["Named"], "features": [
    {"name": "orders", "kind": "reference", "type": "Order", "upper": -1, "containment": true, "opposite": "shop"},
    {"name": "customers", "kind": "reference", "type": "Customer", "upper": -1, "containment": true},
    {"name": "clerks", "kind": "reference", "type": "Clerk", "upper": 2, "containment": true, "opposite": "workplace"}
  ]},
  {"name": "Order", "features": [
    {"name": "number", "kind": "attribute", "type": "EInt", "default": "1"},
    {"name": "state", "kind": "attribute", "type": "State", "default": "OPEN"},
    {"name": "urgent", "kind": "attribute", "type": "EBoolean", "default": "false"},
    {"name": "notes", "kind": "attribute", "type": "EString", "upper": -1},
    {"name": "shop", "kind": "reference", "type": "Shop", "upper": 1, "opposite": "orders"},
    {"name": "customer", "kind": "reference", "type": "Customer", "lower": 1}
  ]},
  {"name": "Person", "abstract": true, "supers": ["Named"], "features": [
    {"name": "age", "kind": "attribute", "type": "EInt"}
  ]},
  {"name": "Customer", "supers": ["Person"]},
  {"name": "Clerk", "supers": ["Person"], "features": [
    {"name": "workplace", "kind": "reference", "type": "Shop", "opposite": "clerks"}
  ]},
  {"name": "Box", "features": [
    {"name": "boxes", "kind": "reference", "type": "Box", "upper": -1, "containment": true, "opposite": "inside"},
    {"name": "inside", "kind": "reference", "type": "Box", "opposite": "boxes"}
  ]}
]}
'''

BOB = 'load r1 {"format":2,"roots":[{"class":"Customer","features":{"name":"Bob"}}]}'
ORDER = 'load r2 {"format":2,"roots":[{"class":"Order","features":{"customer":"http://m.example/old#/"}}]}'
SCRIPT = (
    'resource "http://m.example/shop"',
    'new Shop',
    'set #0 name "Corner"',
    'add r0 contents #0',
    'new Customer',
    'set #1 name "Ann"',
    'add #0 customers #1',
    'new Order',
    'add #0 orders #2',
    'set #2 number 12',
    'set #2 state :PAID',
    'add #2 notes "first"',
    'add #2 notes "second" 1',
    'set #2 customer #1',
    'new Clerk',
    'add #0 clerks #3',
    'new Clerk',
    'add #0 clerks #4',
    'move #2 notes 0 1',
    'remove #2 notes 1',
    'new Box',
    'new Box',
    'add #5 boxes #6',
    'attach A1 #0 deep',
    'watch A1 #5 flat',
    'save r0',
    'resource "http://m.example/old"',
    BOB,
    'at "http://m.example/old#/"',
    'resource "http://m.example/new"',
    ORDER,
    'resolve #8 customer 0',
)


def run(metamodel, lines=(), *options, stdin=None):
    """Runs the program over a metamodel and lines; returns both outputs and the status."""
    with tempfile.TemporaryDirectory() as room:
        file = Path(room, 'shop.json')
        file.write_bytes(metamodel if isinstance(metamodel, bytes) else metamodel.encode())
        command = [PROGRAM, '--meta', file, *options]
        given = '\n'.join(lines) if stdin is None else stdin
        done = subprocess.run(command, input=given.encode(), stdout=subprocess.PIPE, stderr=subprocess.PIPE, timeout=SECONDS)
    return done.stdout.decode(), done.stderr.decode(), done.returncode
