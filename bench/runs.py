"""Runs a program on a script, and measures time, memory and instructions."""
import re
import resource
import subprocess
import sys
import time

COUNTED = re.compile(rb'Collected : (\d+)')


def run(words, script):
    """Runs a command on a script; returns the finished process."""
    with open(script, 'rb') as file:
        return subprocess.run(words, stdin=file, capture_output=True, check=True)


def best_time(command, script, runs, wanted):
    """The least elapsed time of some runs, in seconds. Each run must print what is wanted."""
    times = []
    for _ in range(runs):
        start = time.perf_counter()
        ran = run(command, script)
        times.append(time.perf_counter() - start)
        if ran.stdout != wanted:
            sys.exit(f'{command[0]} does not print what the workload says')
    return min(times)


def spent(command, script):
    """What a run prints, its processor time in seconds (of its own code, and of the system for it) and its peak memory in kilobytes."""
    before = resource.getrusage(resource.RUSAGE_CHILDREN)
    ran = run(['/usr/bin/time', '-f', '%M', *command], script)
    after = resource.getrusage(resource.RUSAGE_CHILDREN)
    seconds = after.ru_utime - before.ru_utime + after.ru_stime - before.ru_stime
    return ran.stdout.decode(), seconds, int(ran.stderr.split()[-1])


def peak_memory(command, script):
    """The largest resident set of a run, in kilobytes."""
    ran = run(['/usr/bin/time', '-f', '%M', *command], script)
    return int(ran.stderr.split()[-1])


def instructions(command, script):
    """The number of instructions of a run; it is the same in each run."""
    ran = run(['valgrind', '--tool=callgrind', '--callgrind-out-file=/dev/null', *command], script)
    return int(COUNTED.search(ran.stderr)[1])
