"""Debian's EMF: its jars, what of it or of a JDK is missing, and programs in Java that are compiled against it."""
import shutil
import subprocess
from pathlib import Path

JARS = [Path('/usr/share/java', f'eclipse-emf-{name}.jar') for name in ('common', 'ecore', 'ecore-xmi')]
MISSING = [str(it) for it in JARS if not it.exists()] + [name for name in ('javac', 'java') if shutil.which(name) is None]
WHY = f'no {" and no ".join(MISSING)}: a JDK and the package libeclipse-emf-ecore-xmi-java are needed'


def compiled(sources, folder):
    """Compiles Java files into a folder; returns the class path of the program."""
    jars = ':'.join(map(str, JARS))
    subprocess.run(['javac', '-cp', jars, '-d', folder, *map(str, sources)], check=True)
    return f'{jars}:{folder}'
