#!/usr/bin/env python3
"""Measures `check` on a full database, beside sqlite3's integrity_check on one of as many octets:

    bench/checks.py FOLDER

FOLDER is where the files are made, in a folder of their own that is removed at the end; they take up 1.7 GB. The database
has 65,536 pages, 16,383 live groups of eight frames and 16,380 kept blocks of the log: sets of each page in turn, two of each,
then a checkpoint, then sets up to the next one. That of sqlite3 has rows of a value of 100 octets each, in pages of 4,096. The
table has the seconds of each, the least of three, in turns. FACE names another program than the one that bin/face runs."""
import os
import shutil
import subprocess
import sys
import tempfile
import time

from program import find_program

PAGES, GROUPS, BLOCKS, POOL = 65536, 16384, 32768, 64
KEPT = 16380
VALUE = "5a" * 100
TURNS = 3


def lines():
    for turn in range(2):
        for page in range(PAGES):
            yield f"set {32 * page + turn} {VALUE}\n"
    yield "checkpoint\n"
    for number in range(KEPT):
        yield f"set {number % 64} {number:08x}\n"


def make_database(face):
    subprocess.run([face, "new", str(PAGES), str(GROUPS), str(BLOCKS)], check=True, stdout=subprocess.DEVNULL)
    with subprocess.Popen([face, "run", str(POOL)], stdin=subprocess.PIPE, stdout=subprocess.DEVNULL, text=True) as run:
        run.stdin.writelines(lines())
        run.stdin.close()
    if run.returncode != 0:
        sys.exit(f"the sets have status {run.returncode}")
    return sum(os.path.getsize(f"face.{name}") for name in ("log", "flash", "disk"))


def make_rows(octets):
    """A database of sqlite3 with at least so many octets."""
    rows = octets // 108
    sql = (
        "PRAGMA page_size=4096; PRAGMA journal_mode=OFF; PRAGMA synchronous=OFF; CREATE TABLE record (number INTEGER PRIMARY KEY, value BLOB);"
        f"WITH RECURSIVE n(i) AS (SELECT 1 UNION ALL SELECT i + 1 FROM n WHERE i < {rows}) INSERT INTO record SELECT i, randomblob(100) FROM n;"
    )
    subprocess.run(["sqlite3", "rows"], input=sql, text=True, check=True, stdout=subprocess.DEVNULL)
    return os.path.getsize("rows")


def seconds(words, right):
    begun = time.perf_counter()
    done = subprocess.run(words, capture_output=True, text=True)
    taken = time.perf_counter() - begun
    if not done.stdout.startswith(right):
        sys.exit(f"{words} tells {done.stdout!r}")
    return taken


def main():
    if len(sys.argv) != 2:
        sys.exit(__doc__)
    face = find_program()
    folder = os.path.realpath(tempfile.mkdtemp(dir=sys.argv[1]))
    os.chdir(folder)
    try:
        octets = make_database(face)
        programs = [("check", [face, "check"], "sound records", octets)]
        if shutil.which("sqlite3"):
            programs.append(("sqlite3, integrity_check", ["sqlite3", "rows", "PRAGMA integrity_check"], "ok", make_rows(octets)))
        times = [[seconds(words, right) for _, words, right, _ in programs] for _ in range(TURNS)]
        print("| program | octets | seconds |\n|---|---|---|")
        for place, (name, _, _, size) in enumerate(programs):
            print(f"| {name} | {size} | {min(turn[place] for turn in times):.2f} |")
    finally:
        os.chdir("/")
        shutil.rmtree(folder)


if __name__ == "__main__":
    main()
