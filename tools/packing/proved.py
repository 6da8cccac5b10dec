"""What is proved: `./check` leaves a record of the sources that `rt ci` has proved, and of the program and the library built from them."""

from __future__ import annotations

import hashlib
import json
import subprocess
from pathlib import Path
from typing import Dict, NamedTuple, Optional

TOP = Path(__file__).resolve().parent.parent.parent
PROGRAM = TOP / 'crates/mmrepo/out/mmrepo'
STATIC = TOP / 'crates/mmrepo_c/out/libmmrepo_c.a'
SOURCES = ('src', 'specs', 'proofs', 'include')  # the folders of a crate that have its sources


class NotProved(Exception):
    """The files to be packed are not those that were proved. The text says why."""


class Proof(NamedTuple):
    """The kit with which sources were proved, and the commit that has them."""

    kit: str
    commit: str


def digest_of(file: Path) -> str:
    """A hash of the content of a file."""
    return hashlib.sha256(file.read_bytes()).hexdigest()


def sources() -> str:
    """A hash of the content of all crates."""
    found = [TOP / 'crates.txt', TOP / 'HANDLES']
    found += [it for crate in (TOP / 'crates').iterdir() for name in SOURCES for it in (crate / name).rglob('*') if it.is_file()]
    total = hashlib.sha256()
    for file in sorted(found):
        total.update(f'{file.relative_to(TOP)} {digest_of(file)}\n'.encode())
    return total.hexdigest()


def record_of(made: Path) -> Path:
    """The file that has the record of a built file."""
    return made.with_name(made.name + '.proved')


def record(made: Path) -> None:
    """Writes the record that a file was built from the sources as they are now, which are proved."""
    kit = subprocess.run(['rt', 'version'], stdout=subprocess.PIPE, check=True).stdout.decode().strip()
    record_of(made).write_text(json.dumps({'kit': kit, 'sources': sources(), 'made': digest_of(made)}) + '\n')


def recorded(made: Path) -> Optional[Dict[str, str]]:
    """The record of a built file, or None."""
    try:
        return json.loads(record_of(made).read_text())
    except (OSError, ValueError):
        return None


def check(made: Path) -> Proof:
    """The proof of a built file. Raises a NotProved if it was not built from the sources of this commit, or has changed since."""
    found = recorded(made)
    if found is None:
        raise NotProved(f'nothing says that {made} is proved: run ./check')
    if not made.is_file() or found['made'] != digest_of(made):
        raise NotProved(f'{made} is not the one that was proved: run ./check')
    if found['sources'] != sources():
        raise NotProved(f'the sources have changed since {made} was made: run ./check')
    return Proof(found['kit'], commit())


def commit() -> str:
    """The commit that has the crates as they are. Raises a NotProved if there is none."""
    words = ['git', '-C', str(TOP)]
    changed = subprocess.run([*words, 'status', '--porcelain', '--', 'crates', 'crates.txt', 'HANDLES', 'clients'], stdout=subprocess.PIPE)
    head = subprocess.run([*words, 'rev-parse', 'HEAD'], stdout=subprocess.PIPE)
    if changed.returncode or head.returncode:
        raise NotProved('this is no repository of git: nothing says which commit it is')
    if changed.stdout.strip():
        raise NotProved('some sources are not committed: commit them, or take them back')
    return head.stdout.decode().strip()
