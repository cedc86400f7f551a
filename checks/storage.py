"""Tries what the theorem takes as a premise, and what lies outside it, on real files. See `checks/storage`."""

import argparse
import collections
import multiprocessing
import os
import random as randoms
import shutil
import sys
import tempfile
import time
import traceback

import storage_model
from storage_runs import KILLED, Course, Program, Sizes, Wrong, find, find_new, keep, opened
from storage_trace import DATABASE, FOLDER, Disk

IMAGES_OF_A_LIFE = 24
LIVES = 5
BREAKS_OF_A_SCENE = 24


def fresh(program, sizes):
    program.place({})
    outcome = program.run(sizes.new())
    if (outcome.status, outcome.told) != (0, sizes.ready()):
        raise Wrong(f'new has status {outcome.status} and tells {outcome.told}')
    return program.files()


def some_lines(random, sizes, most):
    """Lines of all kinds, a session that goes back, a page that is full, or sets over all pages, so that pages leave memory
    and groups are pushed."""
    records = storage_model.SLOTS * sizes.pages
    count = random.choice([0, 1, 3, random.randint(0, most)])
    kind = random.random()
    if kind < 0.05:
        return storage_model.full_page_lines(random, records, count)
    if kind < 0.25:
        return storage_model.session_lines(random, records, count)
    if kind < 0.65:
        return [storage_model.random_line(random, records) for _ in range(count)]
    return [f'set {random.randrange(records)} {storage_model.random_value(random)}' for _ in range(count)]


def recorded(program, files, words, lines):
    program.place(files)
    return program.run(words, lines, record=True)


def course_of(outcome, sizes, allowed, lines):
    """The course of a whole run, which must be that of one of the allowed tables."""
    commits = opened(outcome.told)
    if commits not in allowed:
        raise Wrong(f'a run tells {outcome.told[:60]}, allowed are {sorted(allowed)} commits')
    course = Course(sizes, commits, allowed[commits], lines)
    if outcome.status != 0 or outcome.told != course.told():
        raise Wrong('a run has other replies than the record table')
    return course


# --- images of crashes
def moments(random, calls, count):
    """Moments of a run: so many calls are made. Many are chosen behind writes, where something is loose."""
    writes = [number for number, call in enumerate(calls) if call.kind in ('pwrite', 'write', 'rename', 'link', 'unlink')]

    def one():
        near = writes and random.random() < 0.7
        return random.choice(writes) + random.randint(0, 1) if near else random.randint(0, len(calls))

    return collections.Counter(one() for _ in range(count))


def crash_images(random, disk, calls, count):
    """Images that crashes of this run over a disk leave, each with what was told."""
    chosen = moments(random, calls, count)
    for number in range(len(calls) + 1):
        for _ in range(chosen[number]):
            yield disk.left(random), disk.told
        if number < len(calls):
            disk.make(calls[number])


def try_life(random, program, sizes, files, allowed, tally):
    """One run, and images of its crashes; answers one of them, or what it leaves, with what is allowed there."""
    lines = some_lines(random, sizes, 60)
    outcome = recorded(program, files, ['run', str(random.choice([1, 1, 2, 4]))], lines)
    course = course_of(outcome, sizes, allowed, lines)
    ends = [(program.files(), course.allowed(outcome.told))]
    for image, told in crash_images(random, Disk(files), outcome.calls, IMAGES_OF_A_LIFE):
        left = course.allowed(told)
        program.place(image)
        find(program, sizes, left, random.choice([1, 2, 8]))
        tally['images'] += 1
        ends.append((image, left))
    return random.choice(ends)


def files_before_new(random, sizes):
    """What a folder may hold before `new`: nothing, blank files of the sizes, or what an earlier `new` left."""
    lengths = [512 * (3 + sizes.blocks), 33280 * sizes.groups + 1024 * (sizes.groups // 4 + 3), 4096 * sizes.pages]
    files = {}
    for name, length in zip(DATABASE, lengths):
        if random.random() < 0.2:
            files[name] = bytes(length)
        if random.random() < 0.2:
            files[name + '.new'] = random.randbytes(random.randint(0, 3000))
    return files


def new_over(program, sizes, files):
    """A `new` over these files, which must make the database."""
    outcome = recorded(program, files, sizes.new(), [])
    if (outcome.status, outcome.told) != (0, sizes.ready()):
        raise Wrong(f'new has status {outcome.status} and tells {outcome.told}')
    return outcome


def try_new(random, program, sizes, disk, tally):
    """A `new` over a disk, and images of its crashes."""
    outcome = new_over(program, sizes, disk.now())
    made = program.files()
    for image, told in crash_images(random, disk, outcome.calls, IMAGES_OF_A_LIFE // 4):
        find_new(program, sizes, image, told == sizes.ready())
        tally['images'] += 1
    return made


def killed_new(random, program, sizes, named):
    """A disk as a `new` has left it that was killed before it made the folder's names stable: at any call, or behind the
    last name."""
    before = files_before_new(random, sizes)
    calls = new_over(program, sizes, before).calls
    last = max((number for number, call in enumerate(calls, 1) if call.kind in ('link', 'rename')), default=0)
    synced = next(at for at, call in enumerate(calls) if at >= last and (call.kind, call.file) == ('fsync', FOLDER))
    disk = Disk(before)
    for call in calls[:random.randint(last if named else 0, synced)]:
        disk.make(call)
    disk.told, disk.written = b'', False
    return disk


def try_run_behind_kill(random, program, sizes, tally):
    """A run over what a killed `new` has left that had given each name, and images of its crashes. Once it has written no
    name may be lost."""
    disk = killed_new(random, program, sizes, True)
    lines = some_lines(random, sizes, 5)
    outcome = recorded(program, disk.now(), ['run', '1'], lines)
    course = course_of(outcome, sizes, {0: {}}, lines)
    for image, told in crash_images(random, disk, outcome.calls, IMAGES_OF_A_LIFE // 4):
        if disk.written:
            program.place(image)
            find(program, sizes, course.allowed(told), 1)
        else:
            find_new(program, sizes, image, False)
        tally['images'] += 1


def try_images(random, program, tally):
    sizes = Sizes.some(random)
    try_run_behind_kill(random, program, sizes, tally)
    try_new(random, program, sizes, killed_new(random, program, sizes, False), tally)
    files, allowed = try_new(random, program, sizes, Disk(files_before_new(random, sizes)), tally), {0: {}}
    for _ in range(LIVES):
        files, allowed = try_life(random, program, sizes, files, allowed, tally)


# --- faults and kills
FAULTS = {
    'open': ['EIO', 'ENOSPC', 'EINTR'],
    'read': ['EIO', 'EINTR', 'SHORT'],
    'write': ['EIO', 'ENOSPC', 'EINTR', 'SHORT', 'TORN'],
    'pread': ['EIO', 'EINTR', 'SHORT'],
    'pwrite': ['EIO', 'ENOSPC', 'EINTR', 'SHORT', 'TORN'],
    'fdatasync': ['EIO', 'ENOSPC', 'EINTR'],
    'fsync': ['EIO', 'ENOSPC', 'EINTR'],
    'rename': ['EIO', 'ENOSPC'],
    'link': ['EIO', 'ENOSPC', 'EPERM'],
    'unlink': ['EIO'],
    'flock': ['EIO', 'EINTR'],
    'statx': ['EIO'],
}
TRIED_AGAIN = {('EINTR', kind) for kind in ('open', 'read', 'write', 'pread', 'pwrite', 'fdatasync', 'fsync')}
TRIED_AGAIN |= {('SHORT', kind) for kind in ('read', 'write', 'pread', 'pwrite')}
TRIED_AGAIN |= {('EPERM', 'link')}


def some_fault(random, call):
    """A kill, within a write also in its middle, or a fault of this call."""
    if random.random() < 0.5:
        return random.choice(['KILL', 'HALF']) if call.kind in ('pwrite', 'write') else 'KILL'
    return random.choice(FAULTS[call.kind])


def wanted_status(fault, call, opening, new):
    """The statuses that a run, or a `new`, may end with where this befalls: 9 of an opening, 3 of a device."""
    if fault in ('KILL', 'HALF'):
        return {KILLED}
    if (fault, call.kind) in TRIED_AGAIN or call.kind == 'flock':
        return {0}
    if call.file in ('input', 'output'):
        return {5 if call.file == 'input' else 6}
    if new:
        return {'unlink': {0, 9}, 'statx': {0, 9}, 'pread': {3, 9}}.get(call.kind, {9})
    return {9} if opening else {3}


def fault_line(status, call):
    if status == 3:
        return b'fault %s\n' % call.file.split('.')[1].encode()
    return {5: b'fault input\n', 9: b'fault foreign\n'}.get(status, b'')


def check_break(outcome, whole, statuses, call):
    """The program has ended with one of these statuses, has told a front of the replies, and then why."""
    if outcome.status not in statuses:
        raise Wrong(f'status {outcome.status}, wanted one of {sorted(statuses)}; told {outcome.told[-60:]}')
    line = fault_line(outcome.status, call)
    replies = outcome.told[:len(outcome.told) - len(line)]
    if not outcome.told.endswith(line) or not whole.startswith(replies) or (outcome.status == 0 and replies != whole):
        raise Wrong(f'with status {outcome.status} it tells {outcome.told[-60:]}')
    return replies


def try_break(random, program, sizes, files, words, lines, calls, course, tally):
    """One fault or kill of a run; behind it the tables are looked for in what is there, and in what a crash leaves."""
    number = random.randrange(len(calls))
    call = calls[number]
    fault = some_fault(random, call)
    what = f'{fault} at call {number + 1}, {call.kind} of {call.file}'
    read = next((at for at, made in enumerate(calls) if made.kind == 'pread'), len(calls))
    is_opening = call.kind in ('open', 'statx', 'flock') or (call.kind in ('fdatasync', 'fsync') and number < read)
    program.place(files)
    outcome = program.run(words, lines, (number + 1, fault), record=True)
    try:
        told = check_break(outcome, course.told(), wanted_status(fault, call, is_opening, False), call)
        left = course.allowed(told)
        crash = list(crash_images(random, Disk(files), outcome.calls, 1))[0] if outcome.status != KILLED else None
        find(program, sizes, left, random.choice([1, 4]))
        if crash is not None:
            program.place(crash[0])
            find(program, sizes, course.allowed(crash[1]), 1)
            tally['images'] += 1
    except Wrong as wrong:
        raise Wrong(f'{what}: {wrong}')
    tally['kills' if outcome.status == KILLED else 'faults'] += 1


def try_break_of_new(random, program, sizes, before, calls, tally):
    """One fault or kill of a `new`."""
    number = random.randrange(len(calls))
    call = calls[number]
    fault = some_fault(random, call)
    program.place(before)
    outcome = program.run(sizes.new(), [], (number + 1, fault))
    try:
        check_break(outcome, sizes.ready(), wanted_status(fault, call, False, True), call)
        left = program.files()
        if outcome.status == 9 and any(name in left and name not in before for name in DATABASE):
            raise Wrong(f'a new that was refused has left {sorted(left)}')
        find_new(program, sizes, left, outcome.told == sizes.ready())
    except Wrong as wrong:
        raise Wrong(f'{fault} at call {number + 1} of new, {call.kind} of {call.file}: {wrong}')
    tally['kills' if outcome.status == KILLED else 'faults'] += 1


def try_breaks(random, program, tally):
    """Faults and kills of a `new`, or of a run over what a crash left: its restart alone, or with sets and pushes."""
    sizes = Sizes.some(random)
    if random.random() < 0.25:
        before = files_before_new(random, sizes)
        calls = recorded(program, before, sizes.new(), []).calls
        for _ in range(BREAKS_OF_A_SCENE):
            try_break_of_new(random, program, sizes, before, calls, tally)
        return
    files, allowed = fresh(program, sizes), {0: {}}
    for _ in range(random.randint(0, 2)):
        files, allowed = try_life(random, program, sizes, files, allowed, tally)
    words, lines = ['run', str(random.choice([1, 2, 4]))], some_lines(random, sizes, 30)
    outcome = recorded(program, files, words, lines)
    course = course_of(outcome, sizes, allowed, lines)
    for _ in range(BREAKS_OF_A_SCENE):
        try_break(random, program, sizes, files, words, lines, outcome.calls, course, tally)


# --- two programs at once
PIPES = {'stdin': -1, 'stdout': -1}


def try_beside(program, sizes):
    """While a run lasts no other program works on its files."""
    fresh(program, sizes)
    first = program.start(['run', '1'], **PIPES)
    first.stdin.write(b'set 5 0a\n')
    first.stdin.flush()
    told = [first.stdout.readline(), first.stdout.readline()]
    for words in (['run', '1'], ['load', '10', '7', '1'], sizes.new()):
        outcome = program.run(words, ['set 5 0b'])
        if (outcome.status, outcome.told) != (9, b'fault foreign\n'):
            raise Wrong(f'beside a run {words} has status {outcome.status} and tells {outcome.told[:60]}')
    rest, _ = first.communicate(b'get 5\nset 6 0c\n')
    if first.returncode != 0 or b''.join(told) + rest != b'open 0\ncommitted 1\nvalue 0a\ncommitted 2\n':
        raise Wrong(f'the first run tells {told} and {rest}')
    find(program, sizes, {2: {5: '0a', 6: '0c'}}, 1)


def try_race_of_runs(random, program, sizes):
    """Runs that are started at once: each works alone, or not at all."""
    fresh(program, sizes)
    count = random.randint(2, 4)
    sets = [[f'set {number} {number:02x}{line:02x}' for line in range(random.randint(1, 5))] for number in range(count)]
    runs = [program.start(['run', '1'], **PIPES) for _ in range(count)]
    table, commits = {}, 0
    for number, (run, lines) in enumerate(zip(runs, sets)):
        told, _ = run.communicate(''.join(line + '\n' for line in lines).encode())
        if run.returncode == 0 and told.count(b'committed ') == len(lines):
            table[number] = lines[-1].split(' ')[2]
            commits += len(lines)
        elif (run.returncode, told) != (9, b'fault foreign\n'):
            raise Wrong(f'of {count} runs at once one has status {run.returncode} and tells {told[:60]}')
    find(program, sizes, {commits: table}, 1)


def try_race_of_news(random, program, sizes):
    """Programs that make a database at once, some with other sizes: one of them may, and the others are refused."""
    program.place({})
    other = sizes._replace(blocks=sizes.blocks + 1)
    asked = [random.choice([sizes, sizes, other]) for _ in range(random.randint(2, 4))]
    news = [program.start(one.new(), **PIPES) for one in asked]
    ready = set()
    for one, new in zip(asked, news):
        told, _ = new.communicate(b'')
        if (new.returncode, told) == (0, one.ready()):
            ready.add(one)
        elif (new.returncode, told) != (9, b'fault foreign\n'):
            raise Wrong(f'of {asked} at once one has status {new.returncode} and tells {told[:60]}')
    if len(ready) > 1:
        raise Wrong(f'two databases were made: {ready}')
    for one in ready or {sizes}:
        find_new(program, one, program.files(), bool(ready))


def try_pairs(random, program, tally):
    sizes = Sizes.some(random)
    try_beside(program, sizes)
    for _ in range(4):
        try_race_of_runs(random, program, sizes)
        try_race_of_news(random, program, sizes)
    tally['pairs'] += 9


# --- the work, by seeds
SCENES = {'images': try_images, 'breaks': try_breaks, 'pairs': try_pairs}
COUNTS = {'images': ['images'], 'breaks': ['kills', 'faults'], 'pairs': ['pairs']}
program = None


def begin_worker(face, recorder, folder):
    global program
    program = Program(face, recorder, folder)


def try_scene(scene):
    """Tries a scene by its kind and seed; answers its counts and what is wrong."""
    kind, seed = scene
    tally = collections.Counter()
    try:
        SCENES[kind](randoms.Random(f'{kind} {seed}'), program, tally)
        return tally, None
    except Wrong as wrong:
        why = str(wrong)
    except Exception:
        why = traceback.format_exc()
    kept = os.path.join(tempfile.gettempdir(), f'storage-{kind}-{seed}')
    keep(program, kept)
    again = f'checks/storage --again {kind} {seed}'
    return tally, f'{kind} {seed}: {why}\n  again: {again}    the files then: {kept}'


def scenes(goals, done, until, first):
    """The scenes to try, the kinds in turn, until each goal is met or the time is over."""
    seed = first
    while time.monotonic() < until:
        wanted = [kind for kind, names in COUNTS.items() if any(done[name] < goals[name] for name in names)]
        if not wanted:
            return
        for kind in wanted:
            yield kind, seed
        seed += 1


def counts(done, goals):
    wanted = {name: f' of {goals[name]}' if done[name] < goals[name] else '' for name in goals}
    return ', '.join(f'{done[name]} {name}{wanted[name]}' for name in goals)


def work(pool, arguments, goals):
    """Tries scenes, a few ahead of those that have ended, and tells how far it has come."""
    done, failed, told_at = collections.Counter(), 0, time.monotonic()
    until = told_at + arguments.seconds if arguments.seconds else float('inf')
    waiting = collections.deque()
    source = scenes(goals, done, until, arguments.seed)
    while True:
        while len(waiting) < 2 * arguments.jobs and (scene := next(source, None)):
            waiting.append(pool.apply_async(try_scene, (scene,)))
        if not waiting:
            return done, failed
        tally, wrong = waiting.popleft().get()
        done.update(tally)
        if wrong:
            failed += 1
            print('failed: ' + wrong, flush=True)
        if time.monotonic() - told_at > 10:
            told_at = time.monotonic()
            print(f'  {counts(done, goals)}, {failed} failed', flush=True)


def read_arguments():
    reader = argparse.ArgumentParser(
        prog='checks/storage', description='Crash images, kills, faults and programs at once, on real files.')
    reader.add_argument('--images', type=int, default=20000, help='so many images of crashes')
    reader.add_argument('--kills', type=int, default=2000)
    reader.add_argument('--faults', type=int, default=2000)
    reader.add_argument('--pairs', type=int, default=200, help='so many times programs are started at once')
    reader.add_argument('--seconds', type=float, help='end after this time, whatever was tried')
    reader.add_argument('--seed', type=int, default=1, help='the first seed; each scene takes the next')
    reader.add_argument('--jobs', type=int, default=os.cpu_count())
    reader.add_argument('--again', nargs=2, metavar=('KIND', 'SEED'), help='try one scene alone')
    return reader.parse_args()


def main():
    arguments = read_arguments()
    face, recorder = os.environ['FACE'], os.environ['RECORDER']
    shared = '/dev/shm' if os.access('/dev/shm', os.W_OK) else None
    folder = tempfile.mkdtemp(prefix='storage-', dir=shared)
    begin = (face, recorder, folder)
    try:
        if arguments.again:
            begin_worker(*begin)
            tally, wrong = try_scene((arguments.again[0], arguments.again[1]))
            print(f'{dict(tally)}', wrong or 'nothing is wrong')
            return 1 if wrong else 0
        goals = {name: getattr(arguments, name) for name in ('images', 'kills', 'faults', 'pairs')}
        with multiprocessing.Pool(arguments.jobs, begin_worker, begin) as pool:
            done, failed = work(pool, arguments, goals)
        print(f'storage: {counts(done, goals)}, {failed} failed')
        return 1 if failed else 0
    finally:
        shutil.rmtree(folder, ignore_errors=True)


if __name__ == '__main__':
    sys.exit(main())
