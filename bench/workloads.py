"""The workloads of the folder `work` by name, with their metamodels."""
import pathlib

from work import adapters, links, metamodels, resources, values

TOP = pathlib.Path(__file__).resolve().parent.parent
METAMODEL = TOP / 'examples/library.json'
WORKLOADS = {it.__name__: it for subject in (values, adapters, links, resources, metamodels) for it in subject.WORKLOADS}
METAMODELS = {name: TOP / 'bench/authors.json' for name in ('linked', 'unlinked')} | {
    'far_below': TOP / 'bench/folders.json',
    'paired': TOP / 'crates/cases/data/club.json',
    'paired_back': TOP / 'crates/cases/data/club.json',
}

# The classes of metamodels that are made for a workload and a size.
CLASSES = {'inherited': metamodels.chain, 'namesakes': metamodels.same_names}

# The program `cases` measures calls that no script makes. It takes the size as its argument: a view takes a snapshot of `size` books, is
# notified that each gets a name, and replays the notifications.
PROGRAMS = {'followed': TOP / 'crates/cases/out/cases'}
