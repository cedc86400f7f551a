#!/usr/bin/env python3
"""Counts what the three policies of `simulate` make of traces of touches, and draws it.

    bench/policies.py            the stated traces; prints a table, and draws a figure of each trace into docs/figures
    bench/policies.py FILE       a trace of your own, its lines `r PAGE` and `w PAGE`; prints the table alone

The stated traces touch 4,096 pages 100,000 times, a quarter of it with a change: uniform; skewed, page = top * u^k with u uniform
from 0 to 1, for k of 2, 4 and 8; a loop a tenth larger than the largest pool; and a scan over all pages, one touch in four, between
touches of 64 hot ones. They are drawn anew from a fixed seed at each run, so a run can be repeated. Of each the program counts sizes
of flash from 8 groups to twice as many frames as there are pages, and pools of 1, 8, 64 and 512 pages.

The figures are drawn with matplotlib, as Debian's python3-matplotlib has it. Where that is missing the table is printed all the
same, and a line says so. FACE names another program than the one that bin/face runs."""
import os
import random
import subprocess
import sys

from program import ROOT, find_program

FIGURES = f"{ROOT}/docs/figures"
PAGES = 4096
TOUCHES = 100_000
SEED = 7
POOLS = [1, 8, 64, 512]
GROUPS = [8, 16, 32, 64, 128, 256, 512, 1024]
POLICIES = ["fifo", "group", "chance"]
RATES = [
    ("pool hits", "of all touches"),
    ("flash hits", "of touches not in the pool"),
    ("staged pages", "a touch"),
    ("pushes", "a touch"),
]


def uniform(rng):
    return [rng.randrange(PAGES) for _ in range(TOUCHES)]


def skewed(k):
    return lambda rng: [int(PAGES * rng.random() ** k) for _ in range(TOUCHES)]


def loop(rng):
    size = max(POOLS) + max(POOLS) // 10
    return [place % size for place in range(TOUCHES)]


def scan(rng):
    pages, next_page = [], 0
    for place in range(TOUCHES):
        if place % 4 == 3:
            pages.append(64 + next_page)
            next_page = (next_page + 1) % (PAGES - 64)
        else:
            pages.append(rng.randrange(64))
    return pages


TRACES = [
    ("uniform", "uniform", uniform),
    ("skewed-2", "skewed, k = 2", skewed(2)),
    ("skewed-4", "skewed, k = 4", skewed(4)),
    ("skewed-8", "skewed, k = 8", skewed(8)),
    ("loop", "a loop over 563 pages", loop),
    ("scan", "a scan through 64 hot pages", scan),
]


def trace_of(pages, rng):
    """The lines of a trace: a quarter of its touches are changes."""
    return "".join(f"{'w' if rng.random() < 0.25 else 'r'} {page}\n" for page in pages).encode()


def simulate(face, groups, pool, trace):
    """For each policy its rates, in the order of RATES."""
    run = subprocess.run([face, "simulate", str(groups), str(pool)], input=trace, stdout=subprocess.PIPE, check=False)
    if run.returncode != 0:
        sys.exit(f"simulate {groups} {pool} ended with {run.returncode}: {run.stdout.decode().strip()}")
    rates = {}
    for line in run.stdout.decode().splitlines():
        name, *words = line.split()
        count = {word: int(number) for word, number in zip(words[::2], words[1::2])}
        touches = max(count["touches"], 1)
        beyond = max(count["touches"] - count["pool"], 1)
        rates[name] = (count["pool"] / touches, count["flash"] / beyond, count["staged"] / touches, count["pushed"] / touches)
    return rates


def count_all(face, trace):
    """The rates of each pool and each size of flash."""
    return {(pool, groups): simulate(face, groups, pool, trace) for pool in POOLS for groups in GROUPS}


def print_table(title, rates):
    print(f"\n{title}: fifo / group / chance\n")
    print("| pool | groups | " + " | ".join(f"{name} {unit}" for name, unit in RATES) + " |")
    print("|---|---|" + "---|" * len(RATES))
    for (pool, groups), by_policy in rates.items():
        cells = [" / ".join(f"{by_policy[policy][place]:.3f}" for policy in POLICIES) for place in range(len(RATES))]
        print(f"| {pool} | {groups} | " + " | ".join(cells) + " |", flush=True)


def draw(plot, name, title, rates):
    """One figure: a row of pictures for each rate, a column for each pool, the policies as lines over the groups."""
    figure, rows = plot.subplots(len(RATES), len(POOLS), figsize=(10, 8), sharex=True, sharey="row", squeeze=False)
    for place, (rate, unit) in enumerate(RATES):
        for column, pool in enumerate(POOLS):
            picture = rows[place][column]
            for policy, style in zip(POLICIES, ["-", "--", ":"]):
                line = [rates[pool, groups][policy][place] for groups in GROUPS]
                picture.plot(GROUPS, line, style, label=policy, linewidth=1.5)
            picture.set_xscale("log", base=2)
            picture.set_ylim(bottom=0)
            picture.grid(alpha=0.3)
            if place == 0:
                picture.set_title(f"pool of {pool}", fontsize=10)
            if place == len(RATES) - 1:
                picture.set_xlabel("groups", fontsize=9)
        rows[place][0].set_ylabel(f"{rate}\n{unit}", fontsize=9)
    rows[0][0].legend(fontsize=8)
    figure.suptitle(title)
    figure.tight_layout()
    figure.savefig(f"{FIGURES}/{name}.svg", metadata={"Date": None})
    plot.close(figure)


def plotter():
    """matplotlib's plots, with small and repeatable files; None where it is missing."""
    try:
        import matplotlib
    except ImportError:
        return None
    matplotlib.use("svg")
    matplotlib.rcParams["svg.fonttype"] = "none"
    matplotlib.rcParams["svg.hashsalt"] = "policies"
    import matplotlib.pyplot
    return matplotlib.pyplot


def main():
    face = find_program()
    if len(sys.argv) > 1:
        with open(sys.argv[1], "rb") as file:
            trace = file.read()
        print_table(sys.argv[1], count_all(face, trace))
        return
    plot = plotter()
    if plot is None:
        print("matplotlib is missing (python3-matplotlib), so no figure is drawn")
    else:
        os.makedirs(FIGURES, exist_ok=True)
    for name, title, make in TRACES:
        rng = random.Random(SEED)
        rates = count_all(face, trace_of(make(rng), rng))
        print_table(title, rates)
        if plot is not None:
            draw(plot, name, title, rates)


main()
