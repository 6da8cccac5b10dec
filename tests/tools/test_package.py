"""`tools/package`: what it packs can be installed and run on a machine that has nothing else, and it packs only what is proved."""

import os
import re
import shutil
import subprocess
import sys
import tarfile
import tempfile
import textwrap
import unittest
import zipfile
from pathlib import Path

from support import PROGRAM, TOP

sys.path[:0] = [str(TOP / 'tests'), str(TOP / 'tools')]

from c_library import library  # noqa: E402
from packing.building import NotBuilt, compiler, headers, kit  # noqa: E402

EXAMPLE = 'import mmrepo\n' + textwrap.dedent(re.search(r'^    with mmrepo\..*\n(?:     .*\n)+', (TOP / 'README.md').read_text(), re.M).group())
PRINTED = EXAMPLE.rpartition('# ')[2]
ENGINE = '\nwith mmrepo.Repository("examples/library.json") as repo: print(repo.engine)\n'
IDENTITY = ['-c', 'user.name=tests', '-c', 'user.email=tests@example.com']
RECORD = 'import sys; from pathlib import Path; from packing.proved import record; record(Path(sys.argv[1]))'


def run(*words, **options):
    """Runs a program; returns its status and all that it prints."""
    done = subprocess.run(list(map(str, words)), stdout=subprocess.PIPE, stderr=subprocess.STDOUT, stdin=subprocess.DEVNULL, **options)
    return done.returncode, done.stdout.decode('utf-8', 'replace')


class Tree:
    """A copy of this repository with one commit, and with the program and the library that `./check` leaves."""

    def __init__(self, room):
        self.top = Path(room, 'tree')
        files = run('git', '-C', TOP, 'ls-files', '-z', '-co', '--exclude-standard', 'crates', 'crates.txt', 'HANDLES', 'clients', 'tools', 'tests/c_library.py')
        for name in files[1].split('\0')[:-1]:
            if (TOP / name).exists():
                (self.top / name).parent.mkdir(parents=True, exist_ok=True)
                shutil.copy(TOP / name, self.top / name, follow_symlinks=False)
        (self.top / '.gitignore').write_text('out/\n__pycache__/\n')
        self.git('init', '-q')
        self.commit()
        self.program = self.put(PROGRAM, 'crates/mmrepo/out/mmrepo')
        self.static = self.put(library(), 'crates/mmrepo_c/out/libmmrepo_c.a')

    def git(self, *words):
        """Runs git; returns its status and its output."""
        return run('git', '-C', self.top, *IDENTITY, *words)

    def commit(self):
        """Commits all changes."""
        self.git('add', '-A')
        self.git('commit', '-qm', 'all')

    def put(self, file, name):
        """Copies a file into the tree, with the record that it is proved."""
        made = self.top / name
        made.parent.mkdir(parents=True, exist_ok=True)
        shutil.copy(file, made)
        self.record(made)
        return made

    def record(self, made):
        """Writes the record that a file is proved."""
        run(sys.executable, '-B', '-c', RECORD, made, env={**os.environ, 'PYTHONPATH': str(self.top / 'tools')})

    def package(self, *words):
        """Runs `tools/package`; returns its status and its output."""
        return run(sys.executable, '-B', self.top / 'tools/package', *words, cwd=self.top)


class PackageTest(unittest.TestCase):
    """A test with a tree of its own."""

    @classmethod
    def setUpClass(cls):
        cls.room = tempfile.TemporaryDirectory()
        cls.addClassCleanup(cls.room.cleanup)
        try:
            compiler(), headers(), kit()
        except NotBuilt as error:
            raise unittest.SkipTest(str(error)) from None
        if library() is None or not PROGRAM.is_file():
            raise unittest.SkipTest('there is no proved program, or no proved library')
        cls.tree = Tree(cls.room.name)


class Packed(PackageTest):
    """What is in the packages, and that they work."""

    @classmethod
    def setUpClass(cls):
        super().setUpClass()
        status, told = cls.tree.package(cls.room.name)
        assert status == 0, told
        cls.wheel, cls.archive = (Path(it) for it in told.splitlines())

    def folder(self):
        """An empty folder."""
        room = tempfile.TemporaryDirectory()
        self.addCleanup(room.cleanup)
        return Path(room.name)

    def environment(self):
        """An empty virtual environment, and the variables for its use; none of them names anything of mmrepo."""
        folder = self.folder()
        status, told = run(sys.executable, '-m', 'venv', folder)
        if status:
            self.skipTest(f'no virtual environment can be made: {told.splitlines()[-1:]}')
        return folder, {'PATH': '/usr/bin:/bin', 'PIP_NO_INDEX': '1', 'PIP_DISABLE_PIP_VERSION_CHECK': '1', 'HOME': str(folder)}

    def test_wheel_says_what_it_is(self):
        """The wheel names the kit of the proof and the commit of the sources."""
        with zipfile.ZipFile(self.wheel) as wheel:
            self.assertIsNone(wheel.testzip())
            text = wheel.read('mmrepo-1.0.dist-info/METADATA').decode()
        commit = self.tree.git('rev-parse', 'HEAD')[1].strip()
        version = run('rt', 'version')[1].strip()
        self.assertIn(f'\n\nProved with {version}, of the commit {commit}.\n', text)

    def test_the_same_wheel(self):
        """The wheel of the same sources has the same name."""
        self.tree.package(self.folder() / 'again')
        self.assertEqual(self.wheel.name, 'mmrepo-1.0-cp38-abi3-linux_x86_64.whl')

    def test_empty_environment(self):
        """The wheel is installed, and the example of the README runs without any variable."""
        folder, environment = self.environment()
        status, told = run(folder / 'bin/pip', 'install', self.wheel, env=environment, cwd=folder)
        self.assertEqual(status, 0, told)
        told = run(folder / 'bin/python', '-c', EXAMPLE + ENGINE, env=environment, cwd=TOP)
        self.assertEqual(told, (0, PRINTED + 'extension\n'))
        program = {**environment, 'MMREPO_LIBRARY': ''}
        self.assertEqual(run(folder / 'bin/python', '-c', EXAMPLE + ENGINE, env=program, cwd=TOP), (0, PRINTED + 'program\n'))

    def test_package_alone(self):
        """`pip install clients/python` needs no network."""
        folder, environment = self.environment()
        status, told = run(folder / 'bin/pip', 'install', TOP / 'clients/python', env=environment, cwd=folder)
        self.assertEqual(status, 0, told)
        environment['MMREPO'] = str(PROGRAM)
        self.assertEqual(run(folder / 'bin/python', '-c', EXAMPLE + ENGINE, env=environment, cwd=TOP), (0, PRINTED + 'program\n'))

    def test_without_the_extension(self):
        """A wheel without the extension module uses ctypes."""
        room = self.folder()
        status, told = self.tree.package(room, '--no-extension')
        self.assertEqual(status, 0, told)
        folder, environment = self.environment()
        run(folder / 'bin/pip', 'install', told.splitlines()[0], env=environment, cwd=folder)
        self.assertEqual(run(folder / 'bin/python', '-c', EXAMPLE + ENGINE, env=environment, cwd=TOP), (0, PRINTED + 'ctypes\n'))

    def test_archive(self):
        """A C program is built with the archive alone, over each library; the program of the archive runs."""
        room = self.folder()
        with tarfile.open(self.archive) as tar:
            tar.extractall(room)
        top, = room.iterdir()
        code = re.search(r'^```c\n(.*?)^```$.*?^```\n(.*?)^```$', (TOP / 'docs/C.md').read_text(), re.M | re.S)
        (top / 'example.c').write_text(code[1])
        for libraries in (['lib/libmmrepo.a'], ['-Llib', '-lmmrepo', '-Wl,-rpath,$ORIGIN/lib']):
            told = run(compiler(), '-Iinclude', 'example.c', *libraries, '-o', 'example', cwd=top)
            self.assertEqual(told, (0, ''))
            self.assertEqual(run(top / 'example'), (0, code[2]))
        self.assertEqual(run(top / 'bin/mmrepo', '--version')[0], 0)
        self.assertIn('Proved with', (top / 'README').read_text())

    def test_bare_root(self):
        """The wheel runs in a root that has only Python, made from the files of Debian's packages that are installed here."""
        if os.geteuid() != 0 or shutil.which('chroot') is None:
            self.skipTest('a root can be made by root alone')
        root = self.folder()
        if not bare_root(root):
            self.skipTest("Debian's packages python3 and python3-venv are not installed")
        (root / 'examples').mkdir()
        shutil.copy(TOP / 'examples/library.json', root / 'examples')
        shutil.copy(self.wheel, root)
        script = f'python3 -m venv /v && /v/bin/pip install --no-index /{self.wheel.name} && exec /v/bin/python -c "$0"'
        status, told = run(shutil.which('chroot'), root, '/bin/sh', '-c', script, EXAMPLE + ENGINE, env={'PATH': '/usr/bin:/bin', 'HOME': '/'})
        self.assertEqual(status, 0, told)
        self.assertTrue(told.endswith(PRINTED + 'extension\n'), told)


def bare_root(root):
    """Makes a root from the files of Python, of a shell, and of all packages that they need; False if Debian's packages are not installed.
    """
    waiting, packages = ['python3', 'python3-venv', 'dash', 'coreutils'], set()
    while waiting:
        name = waiting.pop()
        status, told = run('dpkg-query', '-W', '-f', '${Status}\t${Pre-Depends}, ${Depends}', name)
        if status or not told.startswith('install ok installed'):
            if name.startswith('python3') and name in ('python3', 'python3-venv'):
                return False
            continue
        packages.add(name)
        for needed in told.partition('\t')[2].split(','):
            first = re.split(r'[ (:|]', needed.strip())[0]
            if first and first not in packages:
                waiting.append(first)
    for link in ('bin', 'lib', 'lib64', 'sbin'):
        (root / 'usr' / link).mkdir(parents=True, exist_ok=True)
        (root / link).symlink_to(f'usr/{link}')
    (root / 'tmp').mkdir()
    for package in sorted(packages):
        for name in run('dpkg-query', '-L', package)[1].splitlines():
            copy_file(name, root)
    return (root / 'usr/bin/python3').exists()


def copy_file(name, root):
    """Copies a file or a link of a package to the same place in a root."""
    if '/share/doc' in name or '/share/man' in name or '/share/locale' in name or not os.path.lexists(name) or (os.path.isdir(name) and not os.path.islink(name)):
        return
    made = root / re.sub(r'^/(bin|lib|lib64|sbin)/', r'usr/\1/', name).lstrip('/')
    made.parent.mkdir(parents=True, exist_ok=True)
    if not os.path.lexists(made):
        shutil.copy(name, made, follow_symlinks=False)


class Refused(PackageTest):
    """What is not packed."""

    def refused(self, why):
        """Checks that nothing is packed, and that the reason is printed."""
        status, told = self.tree.package(Path(self.room.name, 'none'))
        self.assertEqual((status, why in told), (1, True), told)
        self.assertFalse(Path(self.room.name, 'none').exists())

    def test_another_program(self):
        """A program that is missing, or not the proved one."""
        before = self.tree.program.read_bytes()
        self.tree.program.write_bytes(before + b'x')
        self.refused('is not the one that was proved')
        self.tree.program.unlink()
        self.refused('is not the one that was proved')
        self.tree.program.write_bytes(before)

    def test_another_library(self):
        """A library that is not the proved one."""
        before = self.tree.static.read_bytes()
        self.tree.static.write_bytes(before + b'x')
        self.refused('is not the one that was proved')
        self.tree.static.write_bytes(before)

    def test_no_record(self):
        """A program without a valid record."""
        record = self.tree.program.with_name('mmrepo.proved')
        before = record.read_bytes()
        for content in (b'', b'{'):
            record.write_bytes(content)
            self.refused('nothing says that')
        record.unlink()
        self.refused('nothing says that')
        record.write_bytes(before)

    def test_other_sources(self):
        """Sources that have changed since the proof, and sources that are not committed."""
        source = self.tree.top / 'crates/mm_types/src/lib.rt'
        before = source.read_bytes()
        source.write_bytes(before + b'\n// more\n')
        self.refused('the sources have changed')
        self.tree.commit()
        self.refused('the sources have changed')
        source.write_bytes(before)
        self.refused('not committed')
        self.tree.commit()

    def test_another_package(self):
        """Python modules that are not committed."""
        module = self.tree.top / 'clients/python/mmrepo/objects.py'
        before = module.read_bytes()
        module.write_bytes(before + b'\n')
        self.refused('not committed')
        module.write_bytes(before)
