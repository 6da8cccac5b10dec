"""Builds the shared library from the proved static library (docs/C.md), and the extension module for Python."""

from __future__ import annotations

import os
import shutil
import subprocess
import sysconfig
from pathlib import Path
from typing import Optional, Sequence

TOP = Path(__file__).resolve().parent.parent.parent
CRATE = TOP / 'crates/mmrepo_c'
HEADER = CRATE / 'include/mmrepo.h'
EXPORTS = CRATE / 'include/mmrepo.map'
NATIVE = TOP / 'clients/python/native/native.c'
SHARED, EXTENSION = 'libmmrepo.so', '_native.abi3.so'


class NotBuilt(Exception):
    """Something that is needed is not there. Its text says what."""


def kit() -> Path:
    """The folder of the kit. Raises a NotBuilt if there is none."""
    try:
        done = subprocess.run(['rt', 'doc'], stdout=subprocess.PIPE, check=True)
    except (OSError, subprocess.CalledProcessError):
        raise NotBuilt('there is no kit of Rattle: `rt doc` does not run') from None
    return Path(os.fsdecode(done.stdout.strip())).parent


def compiler() -> str:
    """The C compiler. Raises a NotBuilt if there is none."""
    found = shutil.which('cc') or shutil.which('gcc') or shutil.which('clang')
    if found is None:
        raise NotBuilt('there is no C compiler')
    return found


def headers() -> Path:
    """The folder of Python.h. Raises a NotBuilt if it is not installed."""
    folder = Path(sysconfig.get_path('include'))
    if not (folder / 'Python.h').is_file():
        raise NotBuilt('there is no Python.h: install the headers of Python (python3-dev)')
    return folder


def shared_library(static: Path, folder: Path) -> Path:
    """Links the shared library of a static one, in a folder, by the linker of the system. The library exports only mmrepo's own names."""
    made = folder / SHARED
    words = ['-shared', '-Wl,--whole-archive', static, '-Wl,--no-whole-archive', kit() / 'c/liblibc_c.a', '-Wl,-z,defs']
    _run([compiler(), *words, f'-Wl,--version-script={EXPORTS}', f'-Wl,-soname,{SHARED}', '-Wl,--gc-sections', '-o', made])
    return made


def extension(folder: Path) -> Path:
    """The extension module of Python, in a folder. It loads a shared library when it runs, and is linked with none."""
    made = folder / EXTENSION
    words = ['-shared', '-fPIC', '-O2', '-Wall', '-Wextra', '-Werror', f'-I{headers()}', f'-I{HEADER.parent}', NATIVE]
    _run([compiler(), *words, '-ldl', '-o', made])
    return made


def package(folder: Path, shared: Path, module: Optional[Path], program: Optional[Path]) -> Path:
    """A folder with the package as it is installed: its modules, and beside them the library, the extension module and the program."""
    made = folder / 'mmrepo'
    shutil.copytree(TOP / 'clients/python/mmrepo', made, ignore=shutil.ignore_patterns('__pycache__', '*.so', 'bin'))
    shutil.copy(shared, made / SHARED)
    if module is not None:
        shutil.copy(module, made / EXTENSION)
    if program is not None:
        (made / 'bin').mkdir()
        shutil.copy(program, made / 'bin/mmrepo')
        (made / 'bin/mmrepo').chmod(0o755)
    return made


def _run(words: Sequence[object]) -> None:
    """Runs a compiler. Raises a NotBuilt if it fails."""
    done = subprocess.run([os.fspath(str(word)) for word in words], stdout=subprocess.PIPE, stderr=subprocess.STDOUT)
    if done.returncode:
        raise NotBuilt(done.stdout.decode('utf-8', 'replace')[-2000:])
