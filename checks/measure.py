#!/usr/bin/env python3
"""How long one durable set takes, and how long the bare calls that it makes take, in turns on the same disk, so that both
meet the same load: measure.py [COUNT [POOL]]. Each is handed one line and is timed until its reply. The log has 400 blocks, so
that it is written over again and again; the means have the sets that make a checkpoint first, the medians hardly see them. With
POOL the database has as many pages, all of them are in the pool before, and the sets choose among them at random; without it
there are 1,024 pages, a pool of 64, and the sets go by one record after the other. The current folder's disk is measured. FACE
names another program than the one that bin/face runs."""
import os
import random
import shutil
import statistics
import subprocess
import sys
import tempfile
import time

ROOT = os.path.dirname(os.path.dirname(os.path.realpath(__file__)))
sys.path.insert(0, f"{ROOT}/bench")
from program import find_program

COUNT = int(sys.argv[1]) if len(sys.argv) > 1 else 3000
POOL = int(sys.argv[2]) if len(sys.argv) > 2 else None
BLOCKS = 400
SEED = 7


def start(words):
    child = subprocess.Popen(words, stdin=subprocess.PIPE, stdout=subprocess.PIPE, bufsize=0)
    child.stdout.readline()
    return child


def once(child, line):
    begun = time.perf_counter()
    child.stdin.write(line)
    reply = child.stdout.readline()
    assert reply.startswith(b"committed "), reply
    return time.perf_counter() - begun


def fill(child, pages):
    """Brings each page into the pool."""
    for page in range(pages):
        child.stdin.write(b"get %d\n" % (32 * page))
        child.stdout.readline()


def main():
    face = find_program()
    folder = tempfile.mkdtemp(dir=".")
    try:
        os.chdir(folder)
        subprocess.run(["cc", "-O2", "-o", "raw_calls", f"{ROOT}/checks/raw_calls.c"], check=True)
        pages, pool = (POOL, POOL) if POOL else (1024, 64)
        numbers = random.Random(SEED)
        subprocess.run([face, "new", str(pages), "64", str(BLOCKS)], check=True, stdout=subprocess.DEVNULL)
        program = start([face, "run", str(pool)])
        if POOL:
            fill(program, pages)
        bare = start(["./raw_calls", str(COUNT + 2)])
        times = {"a durable set": [], "the bare calls": []}
        for i in range(COUNT):
            record = numbers.randrange(32 * pages) if POOL else i % 32768
            line = b"set %d 0102030405060708\n" % record
            times["a durable set"].append(once(program, line))
            times["the bare calls"].append(once(bare, line))
        medians = []
        means = []
        for name, taken in times.items():
            taken.sort()
            medians.append(statistics.median(taken))
            means.append(statistics.mean(taken))
            quarter = taken[len(taken) // 4]
            print(f"{name}: median {medians[-1] * 1e6:.0f} us, lower quarter {quarter * 1e6:.0f} us, {1 / means[-1]:.0f} a second, {COUNT} times")
        print(f"rate of sets to rate of the bare calls, by medians: {medians[1] / medians[0]:.3f}, by means: {means[1] / means[0]:.3f}")
        print(f"the log of {BLOCKS} blocks was written over {COUNT // BLOCKS} times")
        program.stdin.close()
        bare.stdin.close()
    finally:
        os.chdir("..")
        shutil.rmtree(folder)


main()
