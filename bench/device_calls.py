#!/usr/bin/env python3
"""Counts what flash and disk are asked for by each durable set where the pages don't fit the pool, by strace:

    bench/device_calls.py [PROGRAM ..]

Each PROGRAM is one to count, named by its path; without any it is the one that bin/face runs. Two choices of records: uniform, and
skewed (record = top * u^6 with u uniform). A database has 1,024 pages and a pool of 64; 4,000 sets come before those that are
counted, which are 4,000 more. The table is of 1,000 commits: groups pushed to flash, pages read from flash, pages read from the
disk and written to it, and syncs of the disk. The files are made in the current folder, in one of their own that is removed."""
import collections
import os
import random
import re
import shutil
import subprocess
import sys
import tempfile

from program import find_program

PAGES, POOL, BLOCKS, COUNT, SEED = 1024, 64, 4096, 4000, 7
GROUPS = [8, 64, 256]
CHOICES = {"uniform": 1, "skewed": 6}
CALL = re.compile(r"(pread64|pwrite64|fdatasync)\(\d+<[^>]*/face\.(log|flash|disk)>")


def sets(power, seed):
    numbers = random.Random(seed)
    top = 32 * PAGES
    return "".join("set %d %016x\n" % (int(top * numbers.random() ** power), place) for place in range(COUNT))


def counted(face, groups, power):
    """The calls of the second run, behind its opening, by kind and file."""
    subprocess.run([face, "new", str(PAGES), str(groups), str(BLOCKS)], check=True, stdout=subprocess.DEVNULL)
    for seed in (SEED, SEED + 1):
        words = [face, "run", str(POOL)]
        if seed > SEED:
            words = ["strace", "-f", "-y", "-o", "trace", "-e", "trace=pread64,pwrite64,fdatasync,write"] + words
        subprocess.run(words, input=sets(power, seed).encode(), check=True, stdout=subprocess.DEVNULL)
    found, is_open = collections.Counter(), False
    with open("trace", encoding="utf-8", errors="replace") as trace:
        for line in trace:
            is_open = is_open or '"open ' in line
            call = CALL.search(line) if is_open else None
            if call:
                found[call[1], call[2]] += 1
                # no unit of another ring is as long as a group's content
                found["groups"] += call[1] == "pwrite64" and int(line.rsplit("=", 1)[1].split()[0]) > 4096
    for name in ("face.log", "face.flash", "face.disk", "trace"):
        os.remove(name)
    return found


def main():
    programs = [os.path.realpath(name) for name in sys.argv[1:]] or [find_program()]
    folder = tempfile.mkdtemp(dir=".")
    home = os.getcwd()
    try:
        os.chdir(folder)
        print("| program | choice | GROUPS | groups pushed | flash reads | disk reads | disk writes | disk syncs |")
        print("|---|---|---|---|---|---|---|---|")
        for choice, power in CHOICES.items():
            for groups in GROUPS:
                for face in programs:
                    calls = counted(face, groups, power)
                    figures = [calls["groups"], calls["pread64", "flash"], calls["pread64", "disk"]]
                    figures += [calls["pwrite64", "disk"], calls["fdatasync", "disk"]]
                    cells = " | ".join(f"{1000 * figure / COUNT:.0f}" for figure in figures)
                    print(f"| {os.path.basename(face)} | {choice} | {groups} | {cells} |", flush=True)
    finally:
        os.chdir(home)
        shutil.rmtree(folder, ignore_errors=True)


main()
