"""What an archive of the log says, read from its octets as docs/FORMATS.md has them: which lines are accepted, and the table after each
commit."""

import re

LINE = re.compile(rb'block (0|[1-9][0-9]*) ([0-9a-f]{1006})|end (0|[1-9][0-9]*)')
UPDATE, CLR, COMMIT, END = 2, 3, 4, 5


class Refused(Exception):
    """A line isn't accepted."""


class Octets:
    def __init__(self, content, used):
        self.content, self.at, self.used = content, 2, used

    def take(self, count):
        if self.at + count > self.used:
            raise Refused('a record goes past the end')
        self.at += count
        return self.content[self.at - count:self.at]

    def number(self, count):
        return int.from_bytes(self.take(count), 'big')

    def value(self):
        length = self.number(1)
        if length > 201:
            raise Refused('a value is too long')
        return None if length == 0 else self.take(length - 1)


class Open:
    """A transaction that has begun and isn't closed: its last record, its Updates that stand, and what it leaves."""

    def __init__(self, lsn):
        self.last, self.standing, self.net = lsn, [], {}


class Archive:
    """Archives one behind the other, from block 0 on."""

    def __init__(self, pages):
        self.pages, self.next, self.shown, self.open, self.nets = pages, 0, {}, {}, []

    def table(self, commits):
        table = {}
        for net in self.nets[:commits]:
            table.update(net)
        return {record: value for record, value in table.items() if value is not None}

    def lines(self, text):
        for line in text.split(b'\n')[:-1]:
            self.line(line)

    def line(self, line):
        found = LINE.fullmatch(line)
        if not found:
            raise Refused('no such line')
        if int(found[1] or found[3]) != self.next:
            raise Refused('block %d is wanted' % self.next)
        if found[2]:
            self.block(bytes.fromhex(found[2].decode()))
            self.next += 1

    def block(self, content):
        used = int.from_bytes(content[:2], 'big')
        if not 3 <= used <= 503 or any(content[used:]):
            raise Refused('no block')
        octets = Octets(content, used)
        while octets.at < used:
            self.record(512 * self.next + octets.at, octets)

    def record(self, lsn, octets):
        kind = octets.number(1)
        if kind == 1:
            self.open[lsn] = Open(lsn)
            return
        txn = octets.number(8)
        if txn not in self.open or kind not in (UPDATE, CLR, COMMIT, END):
            raise Refused('no open transaction')
        one = self.open[txn]
        if kind in (UPDATE, CLR):
            self.change(kind, lsn, txn, one, octets)
            return
        if kind == COMMIT:
            if octets.number(8) != len(self.nets) + 1:
                raise Refused('another number')
            self.nets.append(one.net)
        elif one.standing:
            raise Refused('an Update stands')
        del self.open[txn]

    def change(self, kind, lsn, txn, one, octets):
        prev = octets.number(8)
        undo_next = octets.number(8) if kind == CLR else None
        page, slot = octets.number(4), octets.number(1)
        before = octets.value() if kind == UPDATE else None
        after = octets.value()
        record = 32 * page + slot
        if prev != one.last or page >= self.pages or slot >= 32:
            raise Refused('not the next one of its transaction')
        if kind == CLR:
            if not one.standing or one.standing.pop() != (record, undo_next, after):
                raise Refused('a CLR of another Update')
        else:
            if self.shown.get(record) != before:
                raise Refused('something else stood there')
            if any(record in other.net for number, other in self.open.items() if number != txn):
                raise Refused('another transaction has written there')
            one.standing.append((record, prev, before))
        one.last, one.net[record], self.shown[record] = lsn, after, after
