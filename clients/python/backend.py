"""Builds the wheel of the package for pip, as pyproject.toml says. It needs no other package, and so no network."""

from __future__ import annotations

import base64
import hashlib
import os
import re
import zipfile
from pathlib import Path
from typing import Any, Dict, Mapping, NamedTuple, Optional

HERE = Path(__file__).resolve().parent
PURE = 'py3-none-any'
MOMENT = (2020, 1, 1, 0, 0, 0)  # of each file in a wheel, so that the same files make the same wheel


class Project(NamedTuple):
    """What pyproject.toml says of the package."""

    name: str
    version: str
    description: str
    python: str


def project() -> Project:
    """The fields of pyproject.toml."""
    text = (HERE / 'pyproject.toml').read_text()
    fields = dict(re.findall(r'^([a-z-]+) = "(.*)"$', text, re.M))
    return Project(fields['name'], fields['version'], fields['description'], fields['requires-python'])


def modules() -> Dict[str, bytes]:
    """The files of the package, by their names in a wheel. What is built of C, and a program, are not among them."""
    top = HERE / 'mmrepo'
    files = sorted(it for it in top.rglob('*') if it.is_file() and it.suffix not in ('.pyc', '.so') and it.parent != top / 'bin')
    return {it.relative_to(HERE).as_posix(): it.read_bytes() for it in files}


def metadata(notes: str = '') -> str:
    """The text of METADATA; `notes` are below the fields."""
    it = project()
    fields = ['Metadata-Version: 2.1', f'Name: {it.name}', f'Version: {it.version}', f'Summary: {it.description}', f'Requires-Python: {it.python}']
    return '\n'.join([*fields, '', notes or it.description, ''])


def write_wheel(folder: str, tag: str, files: Mapping[str, bytes], programs: Mapping[str, bytes] = {}, notes: str = '') -> str:
    """Writes a wheel of files, and of programs, which can be run, into a folder, and gives its name."""
    it = project()
    info = f'{it.name}-{it.version}.dist-info'
    kind = f'Wheel-Version: 1.0\nGenerator: mmrepo\nRoot-Is-Purelib: {str(tag == PURE).lower()}\nTag: {tag}\n'
    added = {f'{info}/METADATA': metadata(notes).encode(), f'{info}/WHEEL': kind.encode()}
    records = []
    name = f'{it.name}-{it.version}-{tag}.whl'
    with zipfile.ZipFile(os.path.join(folder, name), 'w', zipfile.ZIP_DEFLATED) as wheel:
        for path, content in [*files.items(), *programs.items(), *added.items()]:
            _write(wheel, path, content, 0o755 if path in programs else 0o644)
            digest = base64.urlsafe_b64encode(hashlib.sha256(content).digest()).rstrip(b'=').decode()
            records.append(f'{path},sha256={digest},{len(content)}\n')
        _write(wheel, f'{info}/RECORD', ''.join([*records, f'{info}/RECORD,,\n']).encode(), 0o644)
    return name


def _write(wheel: zipfile.ZipFile, path: str, content: bytes, mode: int) -> None:
    """Adds a file to a wheel."""
    entry = zipfile.ZipInfo(path, MOMENT)
    entry.external_attr = (0o100000 | mode) << 16
    entry.compress_type = zipfile.ZIP_DEFLATED
    wheel.writestr(entry, content)


def build_wheel(wheel_directory: str, config_settings: Any = None, metadata_directory: Optional[str] = None) -> str:
    """The wheel of the package alone, without a program and a library."""
    return write_wheel(wheel_directory, PURE, modules())


def build_editable(wheel_directory: str, config_settings: Any = None, metadata_directory: Optional[str] = None) -> str:
    """A wheel that leads to the package where it is."""
    return write_wheel(wheel_directory, PURE, {'mmrepo.pth': f'{HERE}\n'.encode()})
