#!/usr/bin/env python3
"""Measures what a restart takes by the groups in the queue on flash, for one program or several in turns:

    bench/restarts.py [PROGRAM ..]

Each PROGRAM is one to measure, named by its path; without any it is the one that bin/face runs. A database has 65,536 pages, 16,384
groups, and one page in memory; reads of one page after the other append a group each, on devices that the same program made. The table
has the flash reads of a restart, by strace, and its time, the median of eleven, in turns with the other programs; the time of starting
the program is in it. The files are made in the current folder, in folders of their own that are removed."""
import os
import re
import shutil
import statistics
import subprocess
import sys
import tempfile
import time

from program import find_program

PAGES, GROUPS, BLOCKS, POOL = 65536, 16384, 64, 1
LIVE = [0, 1000, 4000, 16383]
TURNS = 11
READ = re.compile(r"pread64\(\d+<[^>]*/face\.flash>")


def made(face, live):
    """A folder with a database whose queue has so many groups."""
    folder = tempfile.mkdtemp(dir=".")
    subprocess.run([face, "new", str(PAGES), str(GROUPS), str(BLOCKS)], cwd=folder, check=True, stdout=subprocess.DEVNULL)
    gets = "".join(f"get {32 * page}\n" for page in range(live + 1)) if live else ""
    subprocess.run([face, "run", str(POOL)], cwd=folder, input=gets.encode(), check=True, stdout=subprocess.DEVNULL)
    return folder


def seconds(face, folder):
    begun = time.perf_counter()
    subprocess.run([face, "run", str(POOL)], cwd=folder, check=True, stdin=subprocess.DEVNULL, stdout=subprocess.DEVNULL)
    return time.perf_counter() - begun


def flash_reads(face, folder):
    words = ["strace", "-f", "-y", "-o", "trace", "-e", "trace=pread64", face, "run", str(POOL)]
    subprocess.run(words, cwd=folder, check=True, stdin=subprocess.DEVNULL, stdout=subprocess.DEVNULL)
    with open(f"{folder}/trace", encoding="utf-8", errors="replace") as trace:
        return sum(1 for line in trace if READ.search(line))


def main():
    programs = [os.path.realpath(name) for name in sys.argv[1:]] or [find_program()]
    print("| groups in the queue | program | flash reads | restart |\n|---|---|---|---|")
    for live in LIVE:
        folders = [made(face, live) for face in programs]
        try:
            times = [[seconds(face, folder) for face, folder in zip(programs, folders)] for _ in range(TURNS)]
            for place, (face, folder) in enumerate(zip(programs, folders)):
                middle = statistics.median(turn[place] for turn in times)
                print(f"| {live} | {face} | {flash_reads(face, folder)} | {middle:.4f} s |", flush=True)
        finally:
            for folder in folders:
                shutil.rmtree(folder, ignore_errors=True)


main()
