#!/usr/bin/env python3
"""Measures what a start takes over a log with many unfinished transactions, for one program or several in turns:

    bench/unfinished.py [PROGRAM ..]

Each PROGRAM is one to measure, named by its path; without any it is the one that bin/face runs. The logs are written by this script:
so many transactions with no Update or with one, and one transaction with so many, each Update on another page than the one before, and
on a record of its own. A sound log of as many blocks, whose transactions have all ended, stands beside each. The table has the seconds
of a start, the reply `open` among them; it gives up after two minutes. Last come a check and a start over a log that is full of Begins
and has no room to undo them, beside sound ones of as many blocks: full of transactions of a Begin and an End, one after the other; full
of transactions that are open all at once and then end; with an Update of each transaction to undo. The row has the seconds of a
processor, the memory, and the status. The files are made in the current folder, in folders of their own that are removed."""
import os
import shutil
import struct
import subprocess
import sys
import tempfile
import time

from program import find_program

PAGES, GROUPS, LIMIT = 8192, 8, 120
COUNTS = [1000, 10000, 50100, 200400]
WRITES = [1000, 10000, 100000, 260000]
POOLS = [1, 64]
REFUSED = 307700, 16000  # transactions with one Update each to undo, and the blocks that they fill


def update(txn, prev, number):
    return b"\x02" + struct.pack(">QQIBBB", txn, prev, number % PAGES, number // PAGES % 32, 0, 0)


class Log:
    """Records in blocks, each at its LSN."""

    def __init__(self):
        self.blocks = [b""]

    def add(self, octets):
        """Appends a record, and answers its LSN."""
        if 2 + len(self.blocks[-1]) + len(octets) > 503:
            self.blocks.append(b"")
        lsn = 512 * (len(self.blocks) - 1) + 2 + len(self.blocks[-1])
        self.blocks[-1] += octets
        return lsn

    def write(self, folder, owed):
        """Writes the three files: a log with room for all that undo logs, blank pages and a blank queue."""
        slots = max(16, len(self.blocks) + owed + 1)
        with open(f"{folder}/face.log", "wb") as file:
            file.write(bytes(3 * 512))
            for number, records in enumerate(self.blocks):
                content = struct.pack(">H", 2 + len(records)) + records
                file.write(b"\xa5" + struct.pack(">Q", number) + content.ljust(503, b"\0"))
            file.truncate(512 * (3 + slots))
        for name, length in ("flash", 33280 * GROUPS + 1024 * (GROUPS // 4 + 3)), ("disk", 4096 * PAGES):
            with open(f"{folder}/face.{name}", "wb") as file:
                file.truncate(length)


def unfinished(count, updates):
    """So many transactions, each with so many Updates. All begin before the first Update."""
    log = Log()
    last = [log.add(b"\x01") for _ in range(count)]
    txns = list(last)
    for place in range(updates * count):
        last[place % count] = log.add(update(txns[place % count], last[place % count], place))
    return log, count * (updates + 1)


def ended(blocks):
    """A log of so many blocks, whose transactions have a Begin and an End each."""
    log = Log()
    while len(log.blocks) < blocks:
        log.add(b"\x05" + struct.pack(">Q", log.add(b"\x01")))
    return log


def at_once(blocks):
    """A log of so many blocks, or a few less, whose transactions are open all at once before the first of them ends."""
    log = Log()
    for txn in [log.add(b"\x01") for _ in range(501 * (55 * blocks // 556))]:
        log.add(b"\x05" + struct.pack(">Q", txn))
    return log


def full(blocks):
    """A log of so many blocks of Begins alone."""
    log = Log()
    log.blocks = [b"\x01" * 501] * blocks
    return log


def seconds(face, log, owed, pool):
    folder = tempfile.mkdtemp(dir=".")
    try:
        log.write(folder, owed)
        begun = time.perf_counter()
        run = subprocess.run([face, "run", str(pool)], cwd=folder, stdin=subprocess.DEVNULL, capture_output=True, timeout=LIMIT, check=False)
        took = time.perf_counter() - begun
        return f"{took:.3f} s" if run.returncode == 0 else f"status {run.returncode}"
    except subprocess.TimeoutExpired:
        return f"over {LIMIT} s"
    finally:
        shutil.rmtree(folder, ignore_errors=True)


def costs(face, words, log, owed):
    """What these words cost over a log."""
    folder = tempfile.mkdtemp(dir=".")
    try:
        log.write(folder, owed)
        with subprocess.Popen([face, *words], cwd=folder, stdin=subprocess.DEVNULL, stdout=subprocess.DEVNULL, stderr=subprocess.DEVNULL) as run:
            _, status, used = os.wait4(run.pid, 0)
            run.returncode = os.waitstatus_to_exitcode(status)
        return f"{used.ru_utime + used.ru_stime:.1f} s, {used.ru_maxrss // 1000} MB, status {run.returncode}"
    finally:
        shutil.rmtree(folder, ignore_errors=True)


def row(programs, name, made, pool):
    log, owed = made
    sound = ended(len(log.blocks))
    for face in programs:
        print(f"| {name} | {pool} | {len(log.blocks)} | {face} | {seconds(face, sound, owed, pool)} | {seconds(face, log, owed, pool)} |", flush=True)


def main():
    programs = [os.path.realpath(name) for name in sys.argv[1:]] or [find_program()]
    print("| unfinished | pool | blocks | program | a sound log | this log |\n|---|---|---|---|---|---|")
    for count in COUNTS:
        for updates in 0, 1:
            row(programs, f"{count} with {updates} Update each", unfinished(count, updates), POOLS[-1])
    for writes in WRITES:
        for pool in POOLS:
            row(programs, f"1 with {writes} Updates", unfinished(1, writes), pool)
    count, blocks = REFUSED
    logs = [full(blocks), ended(blocks), at_once(blocks)]
    for words in ["check"], ["run", "64"]:
        for face in programs:
            row_of = [costs(face, words, log, blocks - 1) for log in logs] + [costs(face, words, *unfinished(count, 1))]
            print(f"| Begins alone, {words[0]} | {POOLS[-1]} | {blocks} | {face} | {' | '.join(row_of)} |", flush=True)


main()
