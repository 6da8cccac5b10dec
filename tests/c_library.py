"""The static library for C, for the tests and for `tools/package`. It is built over the crates that `rt ci` has proved and left."""

import os
import subprocess
import sys
from pathlib import Path

TOP = Path(__file__).resolve().parent.parent
CRATE = TOP / 'crates/mmrepo_c'

sys.path.insert(0, str(TOP / 'tools'))

from packing import proved  # noqa: E402
from packing.building import NotBuilt, kit  # noqa: E402


def below(crates, name):
    """The crates of this repository on which a crate depends, directly or not."""
    found = [part for part in crates[name] if part in crates]
    return set(found).union(*(below(crates, part) for part in found))


def build_words(folder):
    """The command line that proves and builds the library over the crates that `rt ci` has proved and left."""
    lines = [line.split(':') for line in (TOP / 'crates.txt').read_text().splitlines() if ':' in line and not line.startswith('#')]
    crates = {name.split()[0]: parts.split() for name, parts in lines}
    rlibs = {part: TOP / f'crates/{part}/out/rlib/{part}.rlib' for part in below(crates, 'mmrepo_c')}
    own = {part: rlibs.get(part, folder / f'rlibs/{part}.rlib') for part in ['std', *crates['mmrepo_c']]}
    words = [folder / 'bin/rattle', 'build', '--crate-name', 'mmrepo_c', 'src/lib.rt', '--crate-type', 'staticlib']
    words += [f'--extern={name}={rlib}' for name, rlib in own.items()]
    words += [f'-Ldependency={place}' for place in [folder / 'rlibs', *(rlib.parent for rlib in rlibs.values())]]
    words += ['--antt-project', folder / 'rattle/logic/antt-project.json', '--logic-built', folder / 'logic_built']
    return [*words, '--links', 'mmrepo_c=', '--toolchain', folder / 'toolchain', '--backend', 'llvm', '-o', 'out/libmmrepo_c.a']


def is_built(made):
    """Whether the library is there and was built from the sources as they are now."""
    found = proved.recorded(made)
    return found is not None and made.exists() and found['sources'] == proved.sources() and found['made'] == proved.digest_of(made)


def library():
    """The path of the library: the one that MMREPO_C names, or the one that is built here. If a crate is not proved, says so and returns
    None."""
    if os.environ.get('MMREPO_C'):
        return Path(os.environ['MMREPO_C']).resolve()
    made = CRATE / 'out/libmmrepo_c.a'
    if is_built(made):
        return made
    made.parent.mkdir(exist_ok=True)
    try:
        words = build_words(kit())
    except NotBuilt as error:
        print(error)
        return None
    done = subprocess.run(words, cwd=CRATE, stdout=subprocess.PIPE, stderr=subprocess.STDOUT, text=True)
    if done.returncode:
        print(done.stdout[-2000:])
        return None
    proved.record(made)
    return made
