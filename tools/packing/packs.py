"""Writes the wheel and the archive for C."""

from __future__ import annotations

import io
import subprocess
import sys
import tarfile
from pathlib import Path
from typing import Optional

from .building import EXTENSION, HEADER, SHARED, TOP, NotBuilt, kit
from .proved import Proof

sys.path.insert(0, str(TOP / 'clients/python'))

import backend  # noqa: E402

TAGS = {True: 'cp38-abi3-linux_x86_64', False: 'py3-none-linux_x86_64'}  # with the extension module, and without it
README = '''mmrepo {version}, a reflective model repository, for C on x86-64 Linux.

  include/mmrepo.h   declares the calls, and says what each returns
  lib/libmmrepo.so   the shared library: cc -Iinclude program.c -Llib -lmmrepo -Wl,-rpath,'$ORIGIN/lib'
  lib/libmmrepo.a    the static library: cc -Iinclude program.c lib/libmmrepo.a
  bin/mmrepo         the program: bin/mmrepo --help

{notes}
'''


def notes(proof: Proof) -> str:
    """What a package says of its proof."""
    return f'Proved with {proof.kit}, of the commit {proof.commit}.'


def wheel(folder: Path, proof: Proof, program: Path, shared: Path, module: Optional[Path]) -> Path:
    """The wheel for Python, in a folder."""
    files = {**backend.modules(), f'mmrepo/{SHARED}': shared.read_bytes()}
    if module is not None:
        files[f'mmrepo/{EXTENSION}'] = module.read_bytes()
    programs = {'mmrepo/bin/mmrepo': program.read_bytes()}
    return folder / backend.write_wheel(str(folder), TAGS[module is not None], files, programs, notes(proof))


def archive(folder: Path, proof: Proof, program: Path, shared: Path, static: Path) -> Path:
    """The archive for C, in a folder."""
    version = backend.project().version
    top = f'mmrepo-{version}-x86_64-linux'
    made = folder / f'{top}.tar.gz'
    whole = folder / 'libmmrepo.a'
    _merge(whole, [static, kit() / 'c/liblibc_c.a'])
    readme = README.format(version=version, notes=notes(proof)).encode()
    with tarfile.open(made, 'w:gz') as tar:
        _add(tar, f'{top}/README', readme, 0o644)
        _add(tar, f'{top}/include/mmrepo.h', HEADER.read_bytes(), 0o644)
        _add(tar, f'{top}/lib/{SHARED}', shared.read_bytes(), 0o755)
        _add(tar, f'{top}/lib/libmmrepo.a', whole.read_bytes(), 0o644)
        _add(tar, f'{top}/bin/mmrepo', program.read_bytes(), 0o755)
    whole.unlink()
    return made


def _add(tar: tarfile.TarFile, name: str, content: bytes, mode: int) -> None:
    """Adds a file to an archive."""
    entry = tarfile.TarInfo(name)
    entry.size, entry.mode = len(content), mode
    tar.addfile(entry, io.BytesIO(content))


def _merge(made: Path, libraries: list) -> None:
    """Writes a static library that has the members of several."""
    script = '\n'.join([f'CREATE {made}', *(f'ADDLIB {it}' for it in libraries), 'SAVE', 'END', ''])
    done = subprocess.run([str(kit() / 'toolchain/bin/llvm-ar'), '-M'], input=script.encode(), stdout=subprocess.PIPE, stderr=subprocess.STDOUT)
    if done.returncode:
        raise NotBuilt(done.stdout.decode('utf-8', 'replace'))
