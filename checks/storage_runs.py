"""Runs of the program over files in a folder of their own, and what is judged of them."""

import collections
import os
import shutil
import subprocess
import tempfile

import archive_model
import storage_model
import storage_trace

Outcome = collections.namedtuple('Outcome', 'status told calls')
KILLED = -9


class Wrong(Exception):
    """A loss, or another outcome that must not be."""


class Program:
    """The program, and a folder that it runs in."""

    def __init__(self, face, recorder, folder):
        self.face, self.recorder = face, recorder
        self.folder = os.path.join(folder, str(os.getpid()))
        self.trace = self.folder + '.calls'
        os.makedirs(self.folder)

    def place(self, files):
        """Lets the folder hold these files alone."""
        for name in os.listdir(self.folder):
            if name not in files:
                os.remove(os.path.join(self.folder, name))
        for name, content in files.items():
            with open(os.path.join(self.folder, name), 'wb') as file:
                file.write(content)

    def files(self):
        found = {}
        for name in os.listdir(self.folder):
            with open(os.path.join(self.folder, name), 'rb') as file:
                found[name] = file.read()
        return found

    def start(self, words, **streams):
        return subprocess.Popen([self.face] + words, cwd=self.folder, stderr=subprocess.DEVNULL, **streams)

    def run(self, words, lines=(), fault=None, record=False):
        environment = dict(os.environ)
        if record or fault:
            environment['LD_PRELOAD'] = self.recorder
        if record:
            environment['RECORD_TO'] = self.trace
        if fault:
            environment['RECORD_FAULT'] = '%d:%s' % fault
        # from a file, since a pipe may hand on any part of what was written, and a call is found again by its number
        with tempfile.TemporaryFile() as given:
            given.write(''.join(line + '\n' for line in lines).encode())
            given.seek(0)
            ended = subprocess.run(
                [self.face] + words, cwd=self.folder, env=environment, timeout=60, close_fds=False,
                stdin=given, stdout=subprocess.PIPE, stderr=subprocess.DEVNULL)
        calls = []
        if record and os.path.exists(self.trace):
            calls = storage_trace.read_calls(self.trace)
            os.remove(self.trace)
        return Outcome(ended.returncode, ended.stdout, calls)


class Sizes(collections.namedtuple('Sizes', 'pages groups blocks')):
    def new(self):
        return ['new'] + [str(size) for size in self]

    def ready(self):
        return b'ready %d %d %d\n' % self

    @staticmethod
    def some(random):
        return Sizes(random.choice([1, 4, 8]), 8, random.choice([16, 20, 40]))


class Course:
    """What a run of these lines tells, from a restart on that finds so many commits and this table, and how many
    commits stand behind each line."""

    def __init__(self, sizes, commits, table, lines):
        model = storage_model.Model(sizes.pages, sizes.blocks, commits, table)
        self.texts = ['open %d\n' % commits]
        self.commits = [commits]
        for line in lines:
            self.texts.append(model.answer(line) + '\n')
            self.commits.append(model.commits)
        self.tables = model.tables

    def told(self):
        return ''.join(self.texts).encode()

    def allowed(self, told):
        """The tables that may be found when so much was told: that of the commits that were told, and, where the next
        line asks for a commit, that behind it."""
        whole, place = 0, 0
        for text in self.texts:
            if not told.startswith(text.encode(), place):
                break
            place += len(text)
            whole += 1
        least = self.commits[max(whole - 1, 0)]
        most = self.commits[min(whole, len(self.commits) - 1)] if whole else least
        return {commits: self.tables[commits] for commits in range(least, most + 1)}


def opened(told):
    """How many commits a run says that it has found, if it does."""
    words = told.split(b'\n', 1)[0].split(b' ')
    return int(words[1]) if words[0] == b'open' and len(words) == 2 and words[1].isdigit() else None


def short(told):
    return repr(told if len(told) < 100 else told[:40] + b' .. ' + told[-50:])


def judge(program, allowed):
    """Judges the files that are there by `check`, which must find one of the allowed tables and change nothing; answers
    what it tells."""
    before = program.files()
    outcome = program.run(['check'])
    right = {f'sound records {len(table)} commits {commits}\n'.encode() for commits, table in allowed.items()}
    if outcome.status != 0 or outcome.told not in right:
        raise Wrong(f'check has status {outcome.status} and tells {short(outcome.told)}, allowed are {sorted(right)}')
    if program.files() != before:
        raise Wrong('check changed a file')
    return outcome.told


def judge_archive(program, sizes, allowed):
    """Reads the archive of the log that is there from block 0 on, by the program and by a reader of its own: it must lead to one of the
    allowed tables. Answers how many commits it has, or none where block 0 was written over."""
    outcome = program.run(['archive', '0'])
    if outcome.status == 12:
        return None
    try:
        archive = archive_model.Archive(sizes.pages)
        archive.lines(outcome.told)
    except archive_model.Refused as refused:
        raise Wrong(f'line {archive.next + 1} of an archive is refused: {refused}') from refused
    commits = len(archive.nets)
    table = {record: value.hex() for record, value in archive.table(commits).items()}
    if outcome.status != 0 or commits not in allowed or table != allowed[commits]:
        raise Wrong(f'an archive has status {outcome.status} and {commits} commits, or another table than allowed after {sorted(allowed)}')
    verified = program.run(['verify', str(sizes.pages)], outcome.told.decode().splitlines())
    if (verified.status, verified.told) != (0, b'verified %d\n' % commits):
        raise Wrong(f'verify tells {short(verified.told)} of an archive with {commits} commits')
    return commits


def find(program, sizes, allowed, pool):
    """Judges the files that are there, and runs over them: all must find one of the allowed tables, and the same; answers
    how many commits it has."""
    judged = judge(program, allowed)
    archived = judge_archive(program, sizes, allowed)
    lines = ['get %d' % record for record in range(storage_model.SLOTS * sizes.pages)]
    outcome = program.run(['run', str(pool)], lines)
    commits = opened(outcome.told)
    if commits not in allowed:
        raise Wrong(f'a run tells {short(outcome.told)}, allowed are {sorted(allowed)} commits')
    if archived not in (None, commits):
        raise Wrong(f'an archive has {archived} commits, and a run finds {commits}')
    if not judged.endswith(b' commits %d\n' % commits):
        raise Wrong(f'check tells {short(judged)}, and a run finds {commits} commits')
    wanted = Course(sizes, commits, allowed[commits], lines).told()
    if outcome.status != 0 or outcome.told != wanted:
        raise Wrong(f'after {commits} commits a value is lost or changed: ' + first_difference(outcome.told, wanted))
    return commits


def first_difference(told, wanted):
    for number, (line, right) in enumerate(zip(told.split(b'\n'), wanted.split(b'\n'))):
        if line != right:
            return f'line {number} is {short(line)}, and not {short(right)}'
    return f'{len(told)} octets told, and not {len(wanted)}'


def find_new(program, sizes, files, ready):
    """The files that a broken `new` has left hold a blank database, or none where `ready` wasn't told; and `new` again
    makes one."""
    program.place(files)
    outcome = program.run(['run', '1'])
    if outcome.told == b'open 0\n':
        find(program, sizes, {0: {}}, 1)
    elif ready or (outcome.status, outcome.told) != (9, b'fault foreign\n'):
        raise Wrong(f'behind new a run tells {short(outcome.told)}')
    program.place(files)
    outcome = program.run(sizes.new())
    if (outcome.status, outcome.told) != (0, sizes.ready()):
        raise Wrong(f'new again has status {outcome.status} and tells {short(outcome.told)}')
    find(program, sizes, {0: {}}, 1)


def keep(program, folder):
    """Keeps the files that are there for who looks into a failure."""
    shutil.copytree(program.folder, folder, dirs_exist_ok=True)
