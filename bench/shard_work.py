"""The work of bench/shards on a shard. It is in a module of its own, so that each worker process can import it."""

import hashlib
import json
from collections import Counter


def digest(repo, resources):
    """For each resource its file, the number of objects of each class, how many references of some persons lead to books of other files,
    the sum of all pages, and a hash of its document."""
    found = []
    for resource in resources:
        text = resource.save()
        features = json.loads(text)['roots'][0]['features']
        counts = Counter(it['class'] for it in features['books'] + features['members'])
        pages = sum(it['features'].get('pages', 100) for it in features['books'])
        persons = list(resource.contents[0].members)[:20]
        across = sum(book.eResource is not resource for person in persons for book in person.likes)
        found.append([resource.path.name, {'Library': 1, **counts}, across, pages, hashlib.sha256(text.encode()).hexdigest()])
    return found
