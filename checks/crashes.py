"""Tries lives with power cuts, played by `face trial`. See `checks/crashes`."""

import argparse
import collections
import multiprocessing
import os
import random as randoms
import subprocess
import sys
import time

import storage_model
from storage_runs import Course, Sizes, Wrong, short

LIVES = 32
LONGEST_SCRIPT = 65536
SEEDS = [0, 1, 2, 77]

Life = collections.namedtuple('Life', 'lines stop')
Told = collections.namedtuple('Told', 'text status')


# --- scripts
def some_lines(random, records):
    """Lines of all kinds, a session that goes back, a page that is full, or sets over all pages, so that pages leave memory
    and groups are pushed."""
    count = random.choice([0, 1, 2, 4, 8, 16])
    kind = random.random()
    if kind < 0.08:
        return storage_model.full_page_lines(random, records, count)
    if kind < 0.25:
        return storage_model.session_lines(random, records, count)
    if kind < 0.6:
        lines = [storage_model.random_line(random, records) for _ in range(count)]
        return lines + ['quit', 'get 0'] if random.random() < 0.05 else lines
    return [f'set {random.randrange(records)} {storage_model.random_value(random)}' for _ in range(count)]


def some_life(random, records, is_last):
    lines = some_lines(random, records)
    if is_last:
        return Life(lines + [f'get {record}' for record in random.sample(range(records), min(records, 40))], None)
    # a restart makes some dozen changes, a set six and what it pushes
    change = random.choice([random.randint(0, 30), random.randint(0, 40 + 8 * len(lines))])
    seed = random.choice(SEEDS + [random.randrange(10 ** 9)])
    return Life(lines, f'stop {change} {seed}')


def turning_script(random, records):
    """Sets on pages in turn, so many that the queue of eight groups and its segments turn over, cut somewhere, and what is left."""
    lines = [f'set {32 * place % records} {storage_model.random_value(random)}' for place in range(100)]
    stop = f'stop {random.randint(0, 1600)} {random.choice(SEEDS)}'
    return [Life(lines, stop), some_life(random, records, True)]


def octets_of(lives):
    lines = [line for life in lives for line in life.lines + ([life.stop] if life.stop else [])]
    return ''.join(line + '\n' for line in lines).encode()


def some_script(random, sizes):
    records = storage_model.SLOTS * sizes.pages
    lives = [some_life(random, records, number == LIVES) for number in range(random.randint(2, LIVES), LIVES + 1)]
    while len(octets_of(lives)) > LONGEST_SCRIPT:
        lives.pop(0)
    return lives


# --- what is told
def lives_told(octets):
    """What each life has told, and the status in its line."""
    found, text = [], b''
    for line in octets.splitlines(keepends=True):
        words = line.split(b' ')
        if words[0] != b'life':
            text += line
            continue
        if len(words) != 4 or words[1] != b'%d' % (len(found) + 1) or words[2] != b'status' or not line.endswith(b'\n'):
            raise Wrong(f'a line of a life is {short(line)}')
        found.append(Told(text, int(words[3])))
        text = b''
    if text:
        raise Wrong(f'behind the last life stands {short(text)}')
    return found


def opening_of(text, allowed):
    """How many commits a life says that it has found."""
    words = text.split(b'\n', 1)[0].split(b' ')
    commits = int(words[1]) if len(words) == 2 and words[0] == b'open' and words[1].isdigit() else None
    if commits not in allowed:
        raise Wrong(f'it begins with {short(text)}, allowed are {sorted(allowed)} commits')
    return commits


def judged(sizes, life, told, allowed):
    """The tables that the next life may find. A life that has ended by itself has told all of its text, and one that was
    cut some of it, line by line."""
    if told.status not in (0, 3, 6) or (told.status != 0 and not life.stop):
        raise Wrong(f'its status is {told.status}')
    if told.status != 0 and not told.text:
        return allowed
    commits = opening_of(told.text, allowed)
    lines = life.lines[:life.lines.index('quit') + 1] if 'quit' in life.lines else life.lines
    course = Course(sizes, commits, allowed[commits], lines)
    whole = course.told()
    if told.text != whole[:len(told.text)] or not told.text.endswith(b'\n') or (told.status == 0 and told.text != whole):
        raise Wrong(f'after {commits} commits it tells {short(told.text)}, and the record table {short(whole)}')
    return course.allowed(told.text)


def judge(sizes, lives, outcome):
    """Raises what is wrong, and answers how many lives were cut before their end."""
    if outcome.returncode != 0:
        raise Wrong(f'the status is {outcome.returncode}, told was {short(outcome.stdout)}')
    told = lives_told(outcome.stdout)
    if len(told) != len(lives):
        raise Wrong(f'{len(told)} lives are told of {len(lives)}')
    allowed = {0: {}}
    for number, (life, one) in enumerate(zip(lives, told), 1):
        try:
            allowed = judged(sizes, life, one, allowed)
        except Wrong as wrong:
            raise Wrong(f'life {number}: {wrong}') from None
    return sum(one.status != 0 for one in told)


# --- scripts by their numbers
def try_script(job):
    """Plays the script of a number: how many cuts it has, how many of them came before the life's end, and a failure."""
    face, seed, number = job
    random = randoms.Random(f'{seed} {number}')
    sizes = Sizes(random.choice([1, 4, 16]), random.choice([8, 8, 12]), random.choice([16, 20, 40, 64]))
    pool = random.choice([1, 2, 4, 64])
    lives = some_script(random, sizes)
    if random.random() < 0.25:
        sizes, pool = Sizes(16, 8, 64), 1
        lives = turning_script(random, storage_model.SLOTS * sizes.pages)
    words = ['trial'] + [str(size) for size in sizes] + [str(pool)]
    try:
        outcome = subprocess.run([face] + words, input=octets_of(lives), stdout=subprocess.PIPE, stderr=subprocess.DEVNULL, timeout=120)
        return len(lives) - 1, judge(sizes, lives, outcome), None
    except (Wrong, subprocess.TimeoutExpired) as wrong:
        repeat = f'--seed {seed} --only {number}'
        script = octets_of(lives).decode()
        return len(lives) - 1, 0, f"failed: {wrong}\nto repeat: {repeat}, or\nface {' '.join(words)} <<'END'\n{script}END"


def numbers_of(arguments, begun, tally):
    """The numbers of the scripts, as long as there are cuts or seconds left."""
    number = 0
    while True:
        if arguments.seconds and time.monotonic() - begun > arguments.seconds:
            return
        if not arguments.seconds and tally['cuts'] >= arguments.cuts:
            return
        yield os.environ['FACE'], arguments.seed, number
        number += 1


def progress(tally, begun, last):
    now = time.monotonic()
    if now - last < 5:
        return last
    print(f"  {tally['cuts']} cuts in {tally['scripts']} scripts, {tally['failed']} failed, {now - begun:.0f} s", file=sys.stderr)
    return now


def main():
    parser = argparse.ArgumentParser(prog='checks/crashes', description='Tries lives with power cuts.')
    parser.add_argument('--cuts', type=int, default=100000, help='so many power cuts (100000)')
    parser.add_argument('--seconds', type=float, help='for so many seconds, in place of a number of cuts')
    parser.add_argument('--seed', type=int, default=0, help='other scripts')
    parser.add_argument('--only', type=int, help='the script of this number alone')
    parser.add_argument('--jobs', type=int, default=os.cpu_count(), help='so many programs side by side')
    arguments = parser.parse_args()
    tally, begun = collections.Counter(), time.monotonic()
    last = begun
    if arguments.only is not None:
        jobs = iter([(os.environ['FACE'], arguments.seed, arguments.only)])
    else:
        jobs = numbers_of(arguments, begun, tally)
    with multiprocessing.Pool(arguments.jobs) as pool:
        running = collections.deque()
        for job in jobs:
            running.append(pool.apply_async(try_script, (job,)))
            if len(running) > 4 * arguments.jobs:
                count(tally, running.popleft().get())
                last = progress(tally, begun, last)
        while running:
            count(tally, running.popleft().get())
    early = f"{tally['early']} of them before the life's end"
    print(f"crashes: {tally['cuts']} power cuts in {tally['scripts']} scripts, {early}")
    print(f"{tally['scripts'] - tally['failed']} passed, {tally['failed']} failed")
    sys.exit(tally['failed'] > 0)


def count(tally, tried):
    cuts, early, failure = tried
    tally.update(scripts=1, cuts=cuts, early=early)
    if failure:
        tally['failed'] += 1
        print(failure, flush=True)


if __name__ == '__main__':
    main()
