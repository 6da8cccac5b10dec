"""Writes the script of a workload and, if it has one of its own, the metamodel."""
from workloads import CLASSES, METAMODEL, METAMODELS, PROGRAMS, WORKLOADS


def write_script(workload, size, path):
    """Writes the script of a size; returns the number of its lines, and what they must print."""
    pairs = list(workload(size))
    path.write_text(''.join(f'{line}\n' for line, _ in pairs))
    return len(pairs), ''.join(f'{answer}\n' for _, answer in pairs if answer is not None).encode()


def metamodel(name, size, folder):
    """The file of the metamodel of a workload; it is written first if it is made for the workload."""
    if name not in CLASSES:
        return METAMODELS.get(name, METAMODEL)
    path = folder / 'metamodel.json'
    path.write_text(f'{{"classes":[{",".join(CLASSES[name](size))}]}}')
    return path


def prepare(program, name, size, folder, script):
    """Writes the script of a workload of a size; returns the number of its lines, what they must print, and the command that runs them."""
    if name in PROGRAMS:
        script.write_text('')
        return size, f'followed Some({size + 1})\ncases: 0 passed, 0 failed\n'.encode(), [PROGRAMS[name], str(size)]
    return *write_script(WORKLOADS[name], size, script), [program, '--meta', str(metamodel(name, size, folder))]
