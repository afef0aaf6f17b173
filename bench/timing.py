"""Times calls of bench_front, in processor time: the least of five runs, less a run that makes no call. Counts their
instructions too."""
import os
import re
import shutil
import subprocess
import sys

TOP = os.path.dirname(os.path.dirname(os.path.abspath(__file__)))
CRATES = os.path.join(TOP, "crates")
PROGRAM = os.path.join(CRATES, "bench_front", "out", "bench_front")


def build(crate="bench_front", words_of_none=("check", "0")):
    """Proves and builds the program, where that wasn't done yet. It is run by words that ask for nothing."""
    built = subprocess.run(["rt", "run", "--", *words_of_none], cwd=os.path.join(CRATES, crate), stdin=subprocess.DEVNULL,
                           stdout=subprocess.PIPE, stderr=subprocess.STDOUT)
    if built.returncode != 0:
        sys.exit(built.stdout.decode())


def words(call, times, others):
    return [PROGRAM, call, str(times), *map(str, others)]


def run(call, times, path, *others):
    """The processor seconds of one run."""
    with open(path, "rb") as body:
        child = subprocess.Popen(words(call, times, others), stdin=body)
    _, status, used = os.wait4(child.pid, 0)
    if status != 0:
        sys.exit(f"bench_front {call} {times} ended with {status}")
    return used.ru_utime + used.ru_stime


def seconds_a_call(call, times, path, *others):
    """The seconds of one call, out of so many."""
    most = min(run(call, times, path, *others) for _ in range(5))
    none = min(run(call, 0, path, *others) for _ in range(5))
    return max(most - none, 1e-9) / times


def count(call, times, path, others):
    """The instructions of one run, as callgrind counts them."""
    with open(path, "rb") as body:
        done = subprocess.run(["valgrind", "--tool=callgrind", "--callgrind-out-file=/dev/null",
                               *words(call, times, others)], stdin=body, stderr=subprocess.PIPE)
    if done.returncode != 0:
        sys.exit(f"bench_front {call} {times} under callgrind ended with {done.returncode}")
    return int(re.search(rb"Collected : ([0-9]+)", done.stderr).group(1))


def instructions_a_call(call, times, path, *others):
    """The instructions of one call, out of so many, or None where valgrind isn't there."""
    if shutil.which("valgrind") is None:
        return None
    return (count(call, times, path, others) - count(call, 0, path, others)) / times
