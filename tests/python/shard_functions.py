"""Functions that the workers of the tests run on a shard. They are in a module of their own, so that each worker process can import them.
"""

import os


def described(repo, resources):
    """For each resource its file and its persons; for each person the names of the liked books, with the resources that contain these
    books."""
    found = []
    for resource in resources:
        library, = resource.contents
        likes = [[(book.name, book.eResource.path.name) for book in person.likes] for person in library.members]
        nexts = [book.next and (book.next.name, book.next.eResource.path.name) for book in library.books]
        found.append((resource.path.name, resource.uri, likes, nexts))
    return found


def names(repo, resources):
    """The names of the files of a shard, and how many resources or objects the repository has, whichever is more."""
    return [it.path.name for it in resources], len(repo.resources)


def fails(repo, resources):
    """Raises an error, as a faulty function of the user does."""
    raise LookupError(resources[0].path.name)


def dies_once(repo, resources):
    """Kills its own process if a certain file is there, and deletes the file; otherwise it does the work of `described`."""
    marker = os.environ['DIES_ONCE']
    if any(it.path.name == '000004.json' for it in resources) and os.path.exists(marker):
        os.unlink(marker)
        os._exit(9)
    return described(repo, resources)


def edits(repo, resources):
    """Edits the model, and tries to save it."""
    resources[0].contents[0].name = 'edited'
    try:
        repo.save_all(force=True)
    except ValueError as error:
        return str(error)
    return 'saved'
