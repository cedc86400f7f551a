"""The record table as docs/COMMANDS.md says it, written apart from the program: what each line is answered, and which
table each commit leaves."""

SESSIONS = 8
SLOTS = 32
LONGEST = 200
PAGE_ROOM = 3952


def shown(value):
    return 'none' if value is None else 'value ' + (value or '-')


def length(value):
    """The octets of a value, which is written in two digits each."""
    return len(value or '') // 2


class Session:
    """Its writes are those that stand; the records that it wrote stay its own when a write is dropped."""

    def __init__(self, begun_at):
        self.begun_at = begun_at
        self.writes = []
        self.mark = 0
        self.read = set()
        self.written = set()

    def sees(self, record, table):
        for written, value in reversed(self.writes):
            if written == record:
                return value
        return table.get(record)


class Model:
    """The table of one life of a database of these sizes: a run from its restart on. `tables` has the table behind each
    commit, from the one that the restart has found on."""

    def __init__(self, pages, blocks, commits, table):
        self.records = SLOTS * pages
        self.cap = blocks - 1
        self.commits = commits
        self.table = dict(table)
        self.tables = {commits: dict(table)}
        self.sessions = {}
        self.made = 0
        self.kept_from = 0

    # --- the log's budget
    def used(self):
        return self.made - self.kept_from

    def owed(self):
        return sum(len(session.writes) + 1 for session in self.sessions.values())

    def checkpoint(self):
        self.kept_from = min([self.made] + [session.begun_at for session in self.sessions.values()])

    def checkpoint_if_due(self):
        if self.used() >= self.cap // 2:
            self.checkpoint()

    def full(self, wanted):
        if self.used() + self.owed() + wanted > self.cap:
            return f'full {self.used()} {self.owed()} {self.cap}'
        return None

    # --- the room of a page
    def footprint(self, record):
        """The greatest length that the record has in the table or by a write that stands."""
        writes = [value for session in self.sessions.values() for written, value in session.writes if written == record]
        return max(length(value) for value in [self.table.get(record)] + writes)

    def page_full(self, record, value):
        first = record - record % SLOTS
        prints = {near: self.footprint(near) for near in range(first, first + SLOTS)}
        prints[record] = max(prints[record], length(value))
        need = sum(prints.values())
        return f'full page {record // SLOTS} {need}' if need > PAGE_ROOM else None

    # --- refusals
    def busy(self, record, own, held):
        for number in sorted(self.sessions):
            if number != own and record in held(self.sessions[number]):
                return f'busy {number}'
        return None

    def busy_reading(self, record, own=None):
        return self.busy(record, own, lambda session: session.written)

    def busy_writing(self, record, own=None):
        return self.busy(record, own, lambda session: session.written | session.read)

    # --- lines, each with its words behind the first
    def begin(self, number):
        if number >= SESSIONS or number in self.sessions:
            return 'refused session'
        self.checkpoint_if_due()
        full = self.full(2)
        if full:
            return full
        self.sessions[number] = Session(self.made)
        self.made += 1
        return 'ok'

    def read(self, number, record):
        refused = self.refused(number, record)
        if refused:
            return refused
        busy = self.busy_reading(record, number)
        if busy:
            return busy
        session = self.sessions[number]
        session.read.add(record)
        return shown(session.sees(record, self.table))

    def write(self, number, record, value):
        refused = self.refused(number, record)
        if refused:
            return refused
        if length(value) > LONGEST:
            return 'refused long'
        reason = self.busy_writing(record, number) or self.full(2)
        reason = reason or (value is not None and self.page_full(record, value))
        if reason:
            return reason
        session = self.sessions[number]
        session.writes.append((record, value))
        session.written.add(record)
        self.made += 1
        return 'ok'

    def erase(self, number, record):
        return self.write(number, record, None)

    def scan(self, number, first, count):
        refused = self.refused(number, first + count - 1)
        if refused:
            return refused
        for record in range(first, first + count):
            busy = self.busy_reading(record, number)
            if busy:
                return busy
        session = self.sessions[number]
        session.read.update(range(first, first + count))
        seen = [(record, session.sees(record, self.table)) for record in range(first, first + count)]
        items = [f'item {record} {value or "-"}' for record, value in seen if value is not None]
        return '\n'.join(items + [f'end {len(items)}'])

    def refused(self, number, record):
        if number not in self.sessions:
            return 'refused session'
        if record >= self.records:
            return 'refused record'
        return None

    def enter(self, writes):
        for record, value in writes:
            if value is None:
                self.table.pop(record, None)
            else:
                self.table[record] = value
        self.commits += 1
        self.tables[self.commits] = dict(self.table)
        return f'committed {self.commits}'

    def commit(self, number):
        if number not in self.sessions:
            return 'refused session'
        self.made += 1
        return self.enter(self.sessions.pop(number).writes)

    def abort(self, number):
        if number not in self.sessions:
            return 'refused session'
        self.made += len(self.sessions.pop(number).writes) + 1
        return 'aborted'

    def mark(self, number):
        if number not in self.sessions:
            return 'refused session'
        session = self.sessions[number]
        session.mark = len(session.writes)
        return 'ok'

    def back(self, number, standing=None):
        if number not in self.sessions:
            return 'refused session'
        session = self.sessions[number]
        standing = session.mark if standing is None else standing
        dropped = len(session.writes) - standing
        if dropped < 0:
            return 'refused mark'
        session.writes = session.writes[:standing]
        session.mark = min(session.mark, standing)
        self.made += dropped
        return f'back {dropped}'

    def get(self, record):
        if record >= self.records:
            return 'refused record'
        return self.busy_reading(record) or shown(self.table.get(record))

    def set(self, record, value):
        if record >= self.records:
            return 'refused record'
        if length(value) > LONGEST:
            return 'refused long'
        busy = self.busy_writing(record)
        if busy:
            return busy
        self.checkpoint_if_due()
        full = self.full(4) or self.page_full(record, value)
        if full:
            return full
        self.made += 3
        return self.enter([(record, value)])

    def stat(self):
        budget = f'used {self.used()} owed {self.owed()} cap {self.cap}'
        return f'stat commits {self.commits} {budget} active {len(self.sessions)}'

    def answer(self, line):
        """The reply to a line; lines that aren't in the grammar are those that begin with a question mark."""
        name, *words = line.split(' ')
        if name.startswith('?'):
            return 'refused line'
        if name == 'checkpoint':
            self.checkpoint()
            return 'checkpoint'
        if name == 'quit':
            return 'bye'
        numbers = 2 if name in ('write', 'read', 'erase') else 1 if name == 'set' else len(words)
        given = [int(word) for word in words[:numbers]]
        values = ['' if word == '-' else word.lower() for word in words[numbers:]]
        return getattr(self, name)(*given, *values)


def value_of(random, lengths):
    return ''.join(random.choice('0123456789abcdef') for _ in range(2 * random.choice(lengths))) or '-'


def random_value(random):
    return value_of(random, [0, 1, 1, 2, 4, 8, 8, 20, 60, 120, 200, 201])


def random_back(random, session):
    """To the mark, or to so many writes."""
    return f'back {session}' if random.random() < 0.6 else f'back {session} {random.choice([0, 0, 1, 1, 2, 3, 5])}'


def random_line(random, records):
    """One line, most often of a few records, so that sessions meet."""
    near = random.random() < 0.5
    record = random.randrange(8) * (records // 8) if near else random.randrange(records + records // 32)
    session = random.randrange(3)
    kind = random.random()
    if kind < 0.40:
        return f'set {record} {random_value(random)}'
    if kind < 0.50:
        return f'get {record}'
    if kind < 0.60:
        return f'begin {session}'
    if kind < 0.76:
        return f'write {session} {record} {random_value(random)}'
    if kind < 0.80:
        return f'erase {session} {record}'
    if kind < 0.84:
        return f'read {session} {record}'
    if kind < 0.86:
        return f'scan {session} {record} {random.randrange(1, 65)}'
    if kind < 0.88:
        return f'mark {session}'
    if kind < 0.91:
        return random_back(random, session)
    if kind < 0.95:
        return f'commit {session}'
    if kind < 0.97:
        return f'abort {session}'
    return random.choice(['checkpoint', 'stat', '? what', f'begin {random.randrange(8, 10)}', 'get 999999'])


def session_line(random, records, session):
    """One line of a session that writes a few records again and again, or a set beside it."""
    record = random.randrange(4) * (records // 4)
    kind = random.random()
    if kind < 0.35:
        return f'write {session} {record} {random_value(random)}'
    if kind < 0.42:
        return f'erase {session} {record}'
    if kind < 0.55:
        return f'mark {session}'
    if kind < 0.70:
        return random_back(random, session)
    if kind < 0.76:
        return f'read {session} {record}'
    if kind < 0.80:
        return 'checkpoint'
    return f'set {random.randrange(records)} {random_value(random)}'


def session_lines(random, records, count):
    """A session that marks and goes back, and may be left as it is."""
    session = random.randrange(SESSIONS)
    lines = [session_line(random, records, session) for _ in range(count)]
    return [f'begin {session}'] + lines + random.choice([[], [], [f'commit {session}'], [f'abort {session}']])


def full_page_line(random, first, session):
    """One line that makes room in a page that is nearly full, or takes it: 152 octets are left behind 19 values of 200."""
    record = first + random.choice([0, 1, 18, 19, 19, 20, 31])
    kind = random.random()
    if kind < 0.30:
        return f'set {record} {value_of(random, [0, 1, 48, 100, 152, 153, 200])}'
    if kind < 0.60:
        return f'write {session} {record} {value_of(random, [0, 1, 48, 100, 152, 153, 200])}'
    if kind < 0.70:
        return f'erase {session} {record}'
    if kind < 0.76:
        return f'mark {session}'
    if kind < 0.86:
        return random_back(random, session)
    if kind < 0.92:
        return f'{random.choice(["commit", "abort"])} {session}'
    return f'begin {session}'


def full_page_lines(random, records, count):
    """Values of 200 octets in one page, until it is full, and then what makes room in it and takes it."""
    first = SLOTS * random.randrange(records // SLOTS)
    session = random.randrange(SESSIONS)
    lines = [f'set {first + slot} {"5a" * LONGEST}' for slot in range(19)]
    return lines + [f'begin {session}'] + [full_page_line(random, first, session) for _ in range(2 * count)]
