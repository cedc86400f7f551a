"""The database as an array of records, and its transactions."""
from __future__ import annotations

import operator
import os
import queue
import random
import time
from contextlib import AbstractContextManager, suppress
from typing import Any, Callable, List, Optional, Tuple, Type, TypeVar, Union

from .errors import Busy, Ended, Error, NoSession, NoSuchRecord, NotBlank, WrongSizes
from .program import Program, Reply, find_program

SESSIONS = 8
SCAN_MAX = 64  # records of one scan
Answer = TypeVar("Answer")


def _spelled(argument: Union[int, bytes]) -> str:
    if isinstance(argument, (bytes, bytearray, memoryview)):
        return argument.hex() or "-"
    number = operator.index(argument)
    if not 0 <= number < 10**9:  # nine digits are what a line takes
        raise NoSuchRecord(f"there is no record {number}")
    return str(number)


class Transaction(AbstractContextManager):
    """A transaction of a database: until it ends others can't change what it has read, nor read what it has written.
    A `with` commits it at its end, and aborts it where an exception leaves the block."""

    def __init__(self, database: Database, session: int) -> None:
        self._database, self.session, self.is_open = database, session, True

    def submit(self, word: str, *arguments: Union[int, bytes]) -> Reply:
        """Sends `read`, `write`, `erase`, `scan`, `mark` or `back` with its arguments; answers the reply's future."""
        if not self.is_open:
            raise NoSession("the transaction has ended")
        return self._database.submit(word, self.session, *arguments)

    def read(self, record: int) -> Optional[bytes]:
        """The value of a record as this transaction sees it, or None."""
        return self.submit("read", record).result()

    def write(self, record: int, value: bytes) -> None:
        """Gives a record a value, which others see when this has committed."""
        self.submit("write", record, value).result()

    def erase(self, record: int) -> None:
        """Takes the value of a record away."""
        self.submit("erase", record).result()

    def scan(self, first: int, count: int) -> List[Tuple[int, bytes]]:
        """Number and value of those of so many records, from the first on, that have a value."""
        end = first + count
        replies = [self.submit("scan", at, min(SCAN_MAX, end - at)) for at in range(first, end, SCAN_MAX)]
        return [item for reply in replies for item in reply.result()]

    def mark(self) -> None:
        """Sets its mark behind all that it has written so far."""
        self.submit("mark").result()

    def back(self, *standing: int) -> int:
        """Takes back the writes behind its mark, or all but the first so many; answers how many these were."""
        return self.submit("back", *standing).result()

    def commit(self) -> int:
        """Commits, and answers how many commits the database then has. All of it is durable when this returns."""
        return self._end("commit")

    def abort(self) -> None:
        """Drops what was written."""
        self._end("abort")

    def _end(self, word: str) -> Any:
        try:
            return self.submit(word).result()
        finally:
            if self.is_open:
                self.is_open = False
                self._database._free.put(self.session)

    def __exit__(self, kind: Optional[Type[BaseException]], *_: object) -> None:
        if kind is None and self.is_open:
            self.commit()
        elif kind:
            with suppress(Error):
                self.abort()


class Database(AbstractContextManager):
    """The database in a folder, served by a program of its own until `close`. `db[7]` is the value of record 7 or None.

    With sizes (pages, groups, blocks) it is made where there is none; else it must have them. `pool` is how many pages
    memory holds, `program` the path of another program. Threads may share it, and its eight sessions. `commits` is how
    many commits it had when it was opened, `pid` the program's process."""

    __iter__ = None  # else `in` and `for` would ask for one record after the other; `scan` asks for many

    def __init__(self, folder: str, pool: int = 64, *, sizes: Optional[Tuple[int, int, int]] = None,
                 program: Optional[str] = None, word: str = "run") -> None:
        self.folder, self._face = os.path.abspath(folder), os.path.abspath(program) if program else find_program()
        self._free: queue.LifoQueue[int] = queue.LifoQueue()
        for session in reversed(range(SESSIONS)):
            self._free.put(session)
        if sizes is not None:
            os.makedirs(self.folder, exist_ok=True)
            with suppress(NotBlank):
                self._start("new", *sizes)
                self.close()
        if word != "run":  # a program that doesn't know it is called with `run`
            with suppress(WrongSizes):
                return self._start(word, pool)
        self._start("run", pool)

    def _start(self, *words: Union[str, int]) -> None:
        self._program = Program([self._face, *map(str, words)], self.folder)
        self.pid, self.commits = self._program.pid, self._program.opening.result()

    def __len__(self) -> int:
        """How many records it has, with a value or without."""
        return os.path.getsize(os.path.join(self.folder, "face.disk")) // 4096 * 32  # for each page

    def submit(self, word: str, *arguments: Union[int, bytes]) -> Reply:
        """Sends `get`, `set`, `checkpoint`, `stat` or `cache` with its arguments; answers the future of the reply."""
        return self._program.ask(" ".join([word, *map(_spelled, arguments)]))

    def __getitem__(self, record: int) -> Optional[bytes]:
        return self.submit("get", record).result()

    def __setitem__(self, record: int, value: bytes) -> None:
        self.submit("set", record, value).result()

    def __delitem__(self, record: int) -> None:
        with self.transaction() as transaction:
            transaction.erase(record)

    def scan(self, first: int, count: int, timeout: Optional[float] = None) -> List[Tuple[int, bytes]]:
        """Number and value of those of so many records, from the first on, that have a value, all of one moment."""
        with self.transaction(timeout) as transaction:
            items = transaction.scan(first, count)
            transaction.abort()
        return items

    def transaction(self, timeout: Optional[float] = None) -> Transaction:
        """Opens a transaction once a session is free, which it holds until it ends: NoSession after so many seconds."""
        try:
            session = self._free.get(timeout=timeout)
        except queue.Empty:
            raise NoSession("each session is taken") from None
        try:
            self.submit("begin", session).result()
        except BaseException:
            with suppress(Ended):
                self.submit("abort", session)  # where the wait was broken off, it has begun
            self._free.put(session)
            raise
        return Transaction(self, session)

    def transact(self, function: Callable[[Transaction], Answer], tries: int = 200, pause: float = 0.0005,
                 again: Tuple[Type[Error], ...] = (Busy,)) -> Answer:
        """Calls the function with a transaction, commits, and answers what it answered. Where that raises Busy, or
        another of `again`, it aborts, and tries again behind a random pause, which grows from `pause` seconds on."""
        for number in range(1, tries):
            with suppress(*again), self.transaction() as transaction:
                return function(transaction)
            time.sleep(random.uniform(0, min(0.1, pause * 2 ** min(number, 20))))
        with self.transaction() as transaction:
            return function(transaction)

    def close(self, *_: object) -> None:
        """Waits until all that was asked is answered and the program has ended. Open transactions are undone."""
        self._program.end()

    __exit__ = close
