#!/usr/bin/env python3
"""Measures the database on files beside the bare system calls and, where it is installed, sqlite3, in one go on one disk.

    bench/bench.py FOLDER [COUNT]

FOLDER is where the files are made, in a folder of their own that is removed at the end: it says which disk is measured. COUNT
is the number of sets, and of gets, of each size (2,000 where it isn't given). FACE names another program than the one that
bin/face runs. It prints one table of all figures: commits, gets and pairs of a load's set and get per second at several sizes, of
which one is changed at a time; the rate of the commits to that of the bare calls; the time of a restart; and the instructions of
a set with its get, where valgrind is installed. Two more tables have the time of a restart by the blocks of the live log and by the
groups of the queue on flash, each the median of five. The next one is of pools all of whose pages are in memory: a set of each page and
the checkpoint that then finds all of them changed, beside the very calls that these make, and what a page takes in memory. The last three,
where valgrind is installed, have the instructions of one command by the pool, all pages of which are in memory, by the pool where each
command makes a page leave it, and by the groups of a queue from which each page is read."""
import os
import random
import re
import shutil
import statistics
import subprocess
import sys
import tempfile
import time

from program import ROOT, find_program

COUNT = int(sys.argv[2]) if len(sys.argv) > 2 else 2000
SEED = 7

# pages, groups, blocks and pool; each further row changes one of the first
SIZES = [
    (1024, 1024, 4096, 64),
    (16, 1024, 4096, 64),
    (65536, 1024, 4096, 64),
    (1024, 8, 4096, 64),
    (1024, 16384, 4096, 64),
    (1024, 1024, 64, 64),
    (1024, 1024, 4096, 1),
    (1024, 1024, 4096, 4096),
    (64, 1024, 4096, 64),
    (512, 1024, 4096, 512),
    (4096, 1024, 4096, 4096),
    (65536, 1024, 4096, 4096),
]

# as many pages as the pool holds; and the groups of a queue that one page in memory is read from, each with one page
POOLS = [64, 512, 4096]
QUEUES = [8, 1024, 16384]

# how many sets stand in the log behind the last checkpoint, each a block of its own, and how many groups stand in the queue
LIVE_SETS = [0, 1000, 4000, 16000]
LIVE_GROUPS = [0, 1000, 4000, 16000]


def timed(words, lines=""):
    """Seconds that a command takes over this input, and its last line."""
    begun = time.perf_counter()
    done = subprocess.run(words, input=lines, capture_output=True, text=True)
    taken = time.perf_counter() - begun
    if done.returncode != 0:
        raise SystemExit(f"{' '.join(words)}: status {done.returncode}: {done.stdout[-200:]}{done.stderr[-200:]}")
    return taken, done.stdout.rstrip("\n").split("\n")[-1]


def made(face, size):
    pages, groups, blocks, _ = size
    for name in ("face.log", "face.flash", "face.disk"):
        if os.path.exists(name):
            os.remove(name)
    timed([face, "new", str(pages), str(groups), str(blocks)])


def lines_of(pages, line):
    numbers = random.Random(SEED)
    return "".join(line.format(numbers.randrange(32 * pages)) + "\n" for _ in range(COUNT))


def measured(face, size):
    """Commits and gets per second, the restart after the commits and the one after that one, and what a load makes of it."""
    pages, _, _, pool = size
    made(face, size)
    blank, _ = timed([face, "run", str(pool)])
    sets, last = timed([face, "run", str(pool)], lines_of(pages, "set {} 0102030405060708"))
    assert last == f"committed {COUNT}", last
    after_sets, _ = timed([face, "run", str(pool)])
    at_once, _ = timed([face, "run", str(pool)])
    gets, _ = timed([face, "run", str(pool)], lines_of(pages, "get {}"))
    made(face, size)
    load, summary = timed([face, "load", str(COUNT), str(SEED), str(pool)])
    found = re.fullmatch(r"load \d+ committed \d+ checkpoints (\d+) found \d+", summary)
    return COUNT / (sets - blank), COUNT / (gets - at_once), COUNT / (load - blank), int(found[1]), after_sets, at_once


def bare_rate():
    taken, _ = timed(["./raw_calls", str(COUNT)], "set\n" * COUNT)
    return COUNT / taken


def sqlite_rate():
    if not shutil.which("sqlite3"):
        return None
    numbers = random.Random(SEED)
    sets = "".join(f"REPLACE INTO record VALUES ({numbers.randrange(32768)}, x'{numbers.randrange(2 ** 64):016x}');\n" for _ in range(COUNT))
    head = "PRAGMA journal_mode=WAL; PRAGMA synchronous=FULL; CREATE TABLE IF NOT EXISTS record (number INTEGER PRIMARY KEY, value BLOB);\n"
    alone, _ = timed(["sqlite3", "database"], head)
    taken, _ = timed(["sqlite3", "database"], head + sets)
    return COUNT / (taken - alone)


def instructions(face, size):
    """Instructions of one set with its get: what a load of twice as many takes more."""
    if not shutil.which("valgrind"):
        return None
    totals = []
    for count in (200, 400):
        made(face, size)
        done = subprocess.run(["valgrind", "--tool=callgrind", "--callgrind-out-file=/dev/null", face, "load", str(count), str(SEED), str(size[3])], capture_output=True, text=True)
        totals.append(int(re.search(r"Collected : (\d+)", done.stderr)[1]))
    return (totals[1] - totals[0]) // 200


def steps_of_one(face, pool, fill, line, pages):
    """Instructions of one command: what a run takes more with COUNT of them, on these many pages, behind the lines that fill the
    pool."""
    numbers = random.Random(SEED)
    totals = []
    for count in (0, COUNT):
        lines = fill + "".join(line.format(32 * numbers.randrange(pages)) + "\n" for _ in range(count))
        words = ["valgrind", "--tool=callgrind", "--callgrind-out-file=/dev/null", face, "run", str(pool)]
        done = subprocess.run(words, input=lines, capture_output=True, text=True)
        totals.append(int(re.search(r"Collected : (\d+)", done.stderr)[1]))
    return (totals[1] - totals[0]) // COUNT


def answered(child, line):
    """Seconds until the line is answered."""
    begun = time.perf_counter()
    child.stdin.write(line)
    child.stdout.readline()
    return time.perf_counter() - begun


def started(words):
    child = subprocess.Popen(words, stdin=subprocess.PIPE, stdout=subprocess.PIPE, bufsize=0)
    child.stdout.readline()
    return child


def memory_of(child):
    """Octets that it has in memory."""
    with open(f"/proc/{child.pid}/status", encoding="utf-8") as status:
        return 1024 * int(re.search(r"VmRSS:\s+(\d+)", status.read())[1])


def of_a_pool(face, pool):
    """Of a pool whose pages are all in memory, each of them set once, and then flushed: the seconds of a set and of the calls that it makes,
    in turns (medians); of the checkpoint and of the calls that append its groups, in turns (the least of five); and the octets in memory
    for each page."""
    sets, set_calls, checkpoints, group_calls = [], [], [], []
    groups = started(["./raw_groups", "1024", str((pool + 7) // 8)])
    for _ in range(5):
        made(face, (pool, 1024, 65536, pool))
        child = started([face, "run", str(pool)])
        bare = started(["./raw_calls", str(pool + 2)])
        before = memory_of(child)
        for page in range(pool):
            answered(child, b"get %d\n" % (32 * page))
        each = (memory_of(child) - before) / pool
        for page in range(pool):
            sets.append(answered(child, b"set %d 0102030405060708\n" % (32 * page)))
            set_calls.append(answered(bare, b"\n"))
        checkpoints.append(answered(child, b"checkpoint\n"))
        group_calls.append(answered(groups, b"\n"))
        for one in (child, bare):
            one.stdin.close()
            one.wait()
    groups.stdin.close()
    groups.wait()
    return statistics.median(sets), statistics.median(set_calls), min(checkpoints), min(group_calls), each


def steps_by_pool(face, pool):
    """Of a pool that holds all pages: instructions of a get and of a set."""
    fill = "".join(f"get {32 * page}\n" for page in range(pool))
    steps = []
    for line in ("get {}", "set {} 0102030405060708"):
        made(face, (pool, 1024, 16384, pool))
        steps.append(steps_of_one(face, pool, fill, line, pool))
    return steps


def steps_of_a_miss(face, pool):
    """Instructions of a command whose page makes another leave the pool: of 8,192 pages in their order, each of which has a frame, where
    every fiftieth command is a set; what 4,000 of them take behind 20,000."""
    totals = []
    for count in (20000, 24000):
        made(face, (8192, 2048, 65536, pool))
        lines = "".join(f"get {32 * (n % 8192)}\n" if n % 50 else f"set {32 * (n % 8192)} 0102030405060708\n" for n in range(count))
        words = ["valgrind", "--tool=callgrind", "--callgrind-out-file=/dev/null", face, "run", str(pool)]
        done = subprocess.run(words, input=lines, capture_output=True, text=True)
        totals.append(int(re.search(r"Collected : (\d+)", done.stderr)[1]))
    return (totals[1] - totals[0]) // 4000


def get_by_groups(face, groups):
    """Instructions of a get that reads its page from a queue of so many groups but one, each with one page, with one in memory."""
    made(face, (16384, groups, 64, 1))
    timed([face, "run", "1"], "".join(f"get {32 * page}\n" for page in range(groups)))
    return steps_of_one(face, 1, "", "get {}", groups - 1)


def restart_by_log(face, sets):
    """A restart over so many sets on one page that no checkpoint has let go. A restart lets them go, so each has its own copy."""
    made(face, (16, 8, 131072, 16))
    timed([face, "run", "16"], "set 0 0102030405060708\n" * sets)
    times = []
    for _ in range(5):
        shutil.copy("face.log", "kept.log")
        shutil.copy("face.flash", "kept.flash")
        times.append(timed([face, "run", "16"])[0])
        os.replace("kept.log", "face.log")
        os.replace("kept.flash", "face.flash")
    return sorted(times)[2]


def restart_by_groups(face, groups):
    """A restart over a queue of so many groups: reads of one page after the other, with one page in memory, append one each."""
    made(face, (65536, 16384, 64, 1))
    timed([face, "run", "1"], "".join(f"get {32 * page}\n" for page in range(groups + 1)) if groups else "")
    return sorted(timed([face, "run", "1"])[0] for _ in range(5))[2]


def main():
    if len(sys.argv) < 2:
        raise SystemExit(__doc__)
    face = find_program()
    folder = os.path.realpath(tempfile.mkdtemp(dir=sys.argv[1]))
    try:
        os.chdir(folder)
        for name in ("raw_calls", "raw_groups"):
            subprocess.run(["cc", "-O2", "-o", name, f"{ROOT}/checks/{name}.c"], check=True)
        print(f"{COUNT} sets, {COUNT} gets and a load of {COUNT} each")
        print("| PAGES | GROUPS | BLOCKS | POOL | commits/s | bare calls/s | rate | sqlite/s | gets/s | load, pairs/s | its checkpoints | restart after the sets | restart again | instructions of a set and a get |")
        print("|---|---|---|---|---|---|---|---|---|---|---|---|---|---|")
        for size in SIZES:
            before = bare_rate()
            commits, gets, pairs, checkpoints, after_sets, at_once = measured(face, size)
            bare = (before + bare_rate()) / 2
            sqlite, steps = sqlite_rate(), instructions(face, size)
            print("| " + " | ".join(str(n) for n in size) + f" | {commits:.0f} | {bare:.0f} | {commits / bare:.2f} | {f'{sqlite:.0f}' if sqlite else 'not installed'} | {gets:.0f} | {pairs:.0f}"
                  f" | {checkpoints} | {after_sets:.3f} s | {at_once:.3f} s | {steps if steps else 'not installed'} |", flush=True)
        print("\n| blocks of the live log | restart |\n|---|---|")
        for sets in LIVE_SETS:
            print(f"| {sets} | {restart_by_log(face, sets):.3f} s |", flush=True)
        print("\n| groups in the queue | restart |\n|---|---|")
        for groups in LIVE_GROUPS:
            print(f"| {groups} | {restart_by_groups(face, groups):.3f} s |", flush=True)
        print("\n| pages and pool | a set of each page | its calls alone | rate | the first checkpoint | its calls alone | rate | memory for each page |")
        print("|---|---|---|---|---|---|---|---|")
        for pool in POOLS:
            put, put_calls, saved, saved_calls, each = of_a_pool(face, pool)
            print(f"| {pool} | {put * 1e6:.0f} µs | {put_calls * 1e6:.0f} µs | {put_calls / put:.2f} | {saved:.4f} s | {saved_calls:.4f} s | {saved_calls / saved:.2f} | {each:.0f} |", flush=True)
        if not shutil.which("valgrind"):
            return
        print("\n| pages and pool | instructions of a get | of a set |\n|---|---|---|")
        for pool in POOLS:
            get, put = steps_by_pool(face, pool)
            print(f"| {pool} | {get} | {put} |", flush=True)
        print("\n| pool | instructions of a command that evicts |\n|---|---|")
        for pool in (64, 4096):
            print(f"| {pool} | {steps_of_a_miss(face, pool)} |", flush=True)
        print("\n| groups in the queue | instructions of a get from it |\n|---|---|")
        for groups in QUEUES:
            print(f"| {groups - 1} | {get_by_groups(face, groups)} |", flush=True)
    finally:
        os.chdir("/")
        shutil.rmtree(folder)


main()
