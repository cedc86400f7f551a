#!/usr/bin/env python3
"""Measures what a full page, long sessions and marks cost:

    bench/full_pages.py [FOLDER]

Durable sets of 8 octets, and of 200 in a page that is full, in turns, each timed until its reply, in FOLDER (the current one); the
instructions of a set of each, also where each value is an octet longer or shorter than the one before, of the same lines where the
record isn't there, of a get, and of a write in sessions of 20 and of 2,000 (valgrind); and the restart over 16,000 blocks of sessions
that went back to a mark and of such as didn't (in memory). FACE names another program than the one that bin/face runs."""
import os
import re
import shutil
import statistics
import subprocess
import sys
import tempfile
import time

from program import find_program

FACE = find_program()
SHORT, LONG = "0123456789abcdef", "5a" * 200
COUNT = 1000
FILLED = [f"set {record} {LONG}" for record in range(19)] + ["set 19 " + "5a" * 152]
SPARSE = [f"set {record} {SHORT}" for record in range(20)]


class Database:
    """A new database in a folder of its own, which is removed."""

    def __init__(self, parent, blocks):
        self.folder = tempfile.mkdtemp(dir=parent)
        subprocess.run([FACE, "new", "64", "64", str(blocks)], cwd=self.folder, stdout=subprocess.DEVNULL, check=True)

    def __enter__(self):
        return self

    def __exit__(self, *_):
        shutil.rmtree(self.folder)

    def run(self, lines, before=()):
        done = subprocess.run([*before, FACE, "run", "64"], cwd=self.folder, input="\n".join(lines) + "\n", capture_output=True, text=True)
        assert done.returncode == 0, done
        return done


def seconds_of(parent):
    """The median seconds of a set of each kind."""
    with Database(parent, 4096) as one, Database(parent, 4096) as full:
        runs = [subprocess.Popen([FACE, "run", "64"], cwd=base.folder, stdin=subprocess.PIPE, stdout=subprocess.PIPE, bufsize=0) for base in (one, full)]
        times = [[], []]
        for run, lines in zip(runs, (SPARSE, FILLED)):
            run.stdin.write(("\n".join(lines) + "\n").encode())
            for _ in range(1 + len(lines)):
                run.stdout.readline()
        for turn in range(3 * COUNT):
            for run, value, taken in zip(runs, (SHORT, LONG), times):
                begun = time.perf_counter()
                run.stdin.write(f"set {turn % 19} {value}\n".encode())
                assert run.stdout.readline().startswith(b"committed")
                taken.append(time.perf_counter() - begun)
        for run in runs:
            run.stdin.close()
            run.wait()
        return [statistics.median(taken) for taken in times]


def instructions(fill, lines, count):
    """Instructions of each of so many commands among these lines, behind others that fill the pages."""
    totals = []
    for more in ([], lines):
        with Database("/dev/shm", 65536) as base:
            said = base.run(fill + more, ["valgrind", "--tool=callgrind", "--callgrind-out-file=/dev/null"]).stderr
            totals.append(int(re.search(r"Collected : (\d+)", said)[1]))
    return (totals[1] - totals[0]) // count


def session(writes):
    """Lines of sessions of so many writes, 4,000 in all."""
    return [line for _ in range(4000 // writes) for line in ["begin 0", *(f"write 0 {place * 7 % 2048} {SHORT}" for place in range(writes)), "commit 0"]]


def restart(marks):
    """The median seconds of a restart over 16,000 blocks of sessions."""
    middle = ["write 0 {0} " + SHORT, "mark 0", "write 0 {0} aa", "back 0"] if marks else ["write 0 {0} " + SHORT, "write 0 {0} aa", "write 0 {0} " + SHORT]
    lines = [line.format(place * 7 % 2048) for place in range(16000) for line in ["begin 0", *middle, "commit 0"]]
    with Database("/dev/shm", 163840) as base:
        base.run(lines)
        times = []
        for _ in range(9):
            copy = shutil.copytree(base.folder, base.folder + ".copy")
            begun = time.perf_counter()
            subprocess.run([FACE, "run", "64"], cwd=copy, stdin=subprocess.DEVNULL, stdout=subprocess.DEVNULL, check=True)
            times.append(time.perf_counter() - begun)
            shutil.rmtree(copy)
        return statistics.median(times)


def main():
    short, full = seconds_of(sys.argv[1] if len(sys.argv) > 1 else ".")
    print(f"a set of 8 octets {1e6 * short:.0f} us, of 200 in a full page {1e6 * full:.0f} us: {full / short:.2f}")
    for name, values, fill in (("8 octets", [SHORT], SPARSE), ("200 in a full page", [LONG], FILLED), ("199 or 200 there", [LONG[2:], LONG], FILLED)):
        sets = instructions(fill, [f"set {place % 19} {values[place // 19 % len(values)]}" for place in range(COUNT)], COUNT)
        refused = instructions(fill, [f"set 99999 {values[0]}" for place in range(COUNT)], COUNT)
        gets = instructions(fill, [f"get {place % 19}" for place in range(COUNT)], COUNT)
        print(f"a set of {name}: {sets} instructions, of a record that isn't there {refused}, a get {gets}")
    fill = [f"set {record} {SHORT}" for record in range(2048)]
    for writes in (20, 2000):
        print(f"a write in sessions of {writes}: {instructions(fill, session(writes), 4000)} instructions")
    print(f"a restart over 16,000 blocks of sessions {restart(False):.3f} s, with marks {restart(True):.3f} s")


if __name__ == "__main__":
    main()
