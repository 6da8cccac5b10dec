"""dask_cluster.py FOLDER METAMODEL OBJECTS: processes a folder by two worker processes of Dask on this machine, and prints the results as
JSON. OBJECTS is how many objects a shard has at most."""

import json
import os
import subprocess
import sys

import shard_functions
from distributed import Client, LocalCluster

from mmrepo import shards


def checked(folder, metamodel, executor, **environment):
    """Runs the `check` command; returns its status, its standard output and its standard error."""
    command = [sys.executable, '-m', 'mmrepo', 'check', metamodel, folder, '--executor', executor]
    done = subprocess.run(command, stdout=subprocess.PIPE, stderr=subprocess.PIPE, env={**os.environ, **environment})
    return done.returncode, done.stdout.decode(), done.stderr.decode()


def main(folder, metamodel, objects):
    """Starts the cluster, and runs the shards once without a fault and once while a worker dies; then runs `check` over the cluster."""
    options = {'metamodel': metamodel, 'objects': int(objects)}
    with LocalCluster(
        n_workers=2, threads_per_worker=1, processes=True, host='127.0.0.1', dashboard_address=None, memory_limit=0
    ) as cluster, Client(cluster) as client, client.get_executor() as executor:
        said = {'results': sum(shards.map(shard_functions.described, folder, executor, **options), [])}
        said['after a death'] = sum(shards.map(shard_functions.dies_once, folder, executor, **options), [])
        client.wait_for_workers(2)
        said['died'] = not os.path.exists(os.environ['DIES_ONCE'])
        said['workers'] = list(client.run(os.getpid).values())
        said['check'] = checked(folder, metamodel, cluster.scheduler_address.replace('tcp', 'dask'))
        said['no scheduler'] = checked(folder, metamodel, 'dask://127.0.0.1:1', DASK_DISTRIBUTED__COMM__TIMEOUTS__CONNECT='2s')
    print(json.dumps(said))


if __name__ == '__main__':
    main(*sys.argv[1:])
