#!/usr/bin/env python3
"""Measures the clients of clients/: gets and sets a second by one thread that waits for each reply, and with 64 requests under
way, of values of 8 octets over 64 pages that fit memory.

    bench/clients.py FOLDER [COUNT [TURNS]]

FOLDER is where the files are made, in a folder of their own that is removed at the end: it says which disk is measured. COUNT is
how many requests one figure takes (20,000), TURNS how often each is taken, the clients in turns (9): the table has the medians,
and the best in brackets. FACE names another program than the one that bin/face runs. Beside the clients stands the program fed by
a file of such lines, of which a run that hears none is taken off."""
import collections
import os
import shutil
import statistics
import subprocess
import sys
import tempfile
import time

from program import ROOT, find_program

sys.path.insert(0, f"{ROOT}/clients/python")
from vulzhorn import Database  # noqa: E402

COUNT = int(sys.argv[2]) if len(sys.argv) > 2 else 20000
TURNS = int(sys.argv[3]) if len(sys.argv) > 3 else 9
SIZES, RECORDS = (64, 256, 16384), 2048
KINDS = (("get", 1), ("get", 64), ("set", 1), ("set", 64))


def of_python(face, word, ahead):
    value = [b"01234567"] * (word == "set")
    with Database("db", program=face, sizes=SIZES) as db:
        waiting = collections.deque()
        begun = time.perf_counter()
        for number in range(COUNT):
            if len(waiting) == ahead:
                waiting.popleft().result()
            waiting.append(db.submit(word, number % RECORDS, *value))
        while waiting:
            waiting.popleft().result()
        return COUNT / (time.perf_counter() - begun)


def of_c(face, word, ahead):
    told = subprocess.check_output(["./clients", "db", word, str(ahead), str(COUNT)], env={**os.environ, "FACE": face})
    return float(told)


def seconds_of(face, lines):
    with open("lines", "w", encoding="ascii") as file:
        file.writelines(lines)
    with open("lines", encoding="ascii") as file, open("replies", "w", encoding="ascii") as replies:
        begun = time.perf_counter()
        subprocess.run([face, "run", "64"], cwd="db", stdin=file, stdout=replies, check=True)
        return time.perf_counter() - begun


def of_lines(face, word, ahead):
    """A file's lines are sent ahead, so it has no figure for one at a time."""
    if ahead == 1:
        return None
    count, rest = (COUNT, " 3031323334353637") if word == "set" else (20 * COUNT, "")
    lines = [f"{word} {number % RECORDS}{rest}\n" for number in range(count)]
    return count / (seconds_of(face, lines) - seconds_of(face, []))


def main():
    if len(sys.argv) < 2:
        raise SystemExit(__doc__)
    face, folder = find_program(), os.path.realpath(tempfile.mkdtemp(dir=sys.argv[1]))
    try:
        os.chdir(folder)
        source = [f"{ROOT}/bench/clients.c", f"{ROOT}/clients/c/vulzhorn.c"]
        subprocess.run(["cc", "-std=c11", "-O2", "-pthread", f"-I{ROOT}/clients/c", "-o", "clients", *source], check=True)
        print("| by | gets, one at a time | gets, 64 at a time | sets, one at a time | sets, 64 at a time |\n|---|---|---|---|---|")
        rates = collections.defaultdict(list)
        of_python(face, "set", 64)
        for _ in range(TURNS):
            for kind in KINDS:
                for client in (of_python, of_c, of_lines):
                    rates[client, kind].append(client(face, *kind))
        for name, client in (("Python", of_python), ("C", of_c), ("a file of lines", of_lines)):
            figures = [rates[client, kind] for kind in KINDS]
            shown = [f"{statistics.median(figure):.0f} ({max(figure):.0f})" if figure[0] else "" for figure in figures]
            print("| " + " | ".join([name, *shown]) + " |")
    finally:
        os.chdir("/")
        shutil.rmtree(folder)


main()
