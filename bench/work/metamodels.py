"""Workloads over metamodels of many features."""
NAMESAKES = 300


def inherited(size):
    """An object of the lowest class of `chain`, of whose features one for each class is set."""
    yield f'new C{size - 1}', '#0'
    for c in range(size):
        yield f'set #0 f{c}_0 {c}', 'ok'


def chain(size, declared=40, ending=''):
    """The classes of `inherited`: `size` classes, at most 1,000, each of which declares some features and has those of the class before it.
    The names of the features have an ending."""
    for c in range(size):
        features = ','.join(f'{{"name":"f{c}_{i}{ending}","kind":"attribute","type":"EInt"}}' for i in range(declared))
        supers = f'"C{c - 1}"' if c else ''
        yield f'{{"name":"C{c}","supers":[{supers}],"features":[{features}]}}'


def namesakes(size):
    """An object of each class of `same_names`. The feature whose name all classes have is set in the objects in turn."""
    for c in range(NAMESAKES):
        yield f'new C{c}', f'#{c}'
    for i in range(size):
        yield f'set #{i % NAMESAKES} same {i}', 'ok'


def same_names(_):
    """The classes of `namesakes`: each has a feature of a name that all classes have, and nine features of other names."""
    for c in range(NAMESAKES):
        names = ['same', *(f'f{c}_{i}' for i in range(9))]
        features = ','.join(f'{{"name":"{name}","kind":"attribute","type":"EInt"}}' for name in names)
        yield f'{{"name":"C{c}","features":[{features}]}}'


WORKLOADS = [inherited, namesakes]
