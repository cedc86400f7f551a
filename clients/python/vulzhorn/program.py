"""One run of the program: lines go into one pipe, and replies come out of another in the same order."""
from __future__ import annotations

import os
import shutil
import subprocess
import threading
from collections import deque
from contextlib import suppress
from typing import Any, Deque, Optional, Sequence

from .errors import Ended, Error, Unanswered, ValueTooLong, ended, refusal

LINE_MAX = 500  # octets of a line, so a pipe takes it by one write, whole or not at all


def find_program() -> str:
    """The program that FACE names, else that of the clone that this file stands in, else `face` of the PATH."""
    which = os.path.join(os.path.dirname(os.path.realpath(__file__)), "../../../bin/which")
    found = os.environ.get("FACE")
    if not found and os.access(which, os.X_OK):
        found = subprocess.run([which], capture_output=True, text=True, check=False).stdout.strip()
    found = found or shutil.which("face")
    if not found:
        raise FileNotFoundError("there is no program: FACE names it, bin/build makes it, bin/install puts it on PATH")
    return os.path.abspath(found)


def octets(word: str) -> bytes:
    return b"" if word == "-" else bytes.fromhex(word)


class Reply:
    """The future of a request's reply: `result()` waits for it. What is sent is carried out, awaited or not."""

    def __init__(self, line: str) -> None:
        self.line = line
        self._result: Any = []  # the items so far, until the last line is heard
        self._error: Optional[Error] = None
        self._awaited = threading.Lock()
        self._awaited.acquire()  # until it is heard

    def done(self) -> bool:
        """Whether `result` answers at once."""
        return not self._awaited.locked()

    def result(self, timeout: Optional[float] = None) -> Any:
        """What was answered. Raises Refused or Unanswered, or TimeoutError where it doesn't come in so many seconds."""
        if not self._awaited.acquire(timeout=-1 if timeout is None else timeout):
            raise TimeoutError(self.line)
        self._awaited.release()
        if self._error:
            raise self._error
        return self._result

    def hear(self, line: str) -> bool:
        """Takes a line, and answers whether it is the last of this reply. Raises ValueError where it is none."""
        word, _, rest = line.partition(" ")
        if word in ("item", "frame", "pool"):
            number, _, value = rest.partition(" ")
            self._result.append((int(number), octets(value)) if word == "item" else line)
            return False
        if word == "value":
            self._result = octets(rest)
        elif word in ("open", "ready", "committed", "back"):
            self._result = int(rest.split(" ")[0])
        elif word == "stat":
            words = rest.split(" ")
            self._result = dict(zip(words[::2], map(int, words[1::2])))
        elif word in ("busy", "full", "refused"):
            self._error = refusal(line)
        elif word in ("none", "ok", "aborted", "checkpoint"):
            self._result = None
        elif word != "end":
            raise ValueError(line)
        self._awaited.release()
        return True


class Program:
    """The program, run with these words over the files of a folder. Threads may ask it at the same time."""

    def __init__(self, words: Sequence[str], folder: str) -> None:
        # In a session of its own Ctrl-C doesn't reach it. Where the caller ends, so does its input, and so does it.
        self._process = subprocess.Popen(words, cwd=folder, encoding="latin-1", start_new_session=True,
                                         stdin=subprocess.PIPE, stdout=subprocess.PIPE, stderr=subprocess.PIPE)
        self.pid = self._process.pid
        self.opening = Reply("")
        self._ended: Optional[Ended] = None
        self._waiting: Deque[Reply] = deque([self.opening])
        self._lock = threading.Lock()
        self._reader = threading.Thread(target=self._hear_all, name=f"replies of {self.pid}", daemon=True)
        self._reader.start()

    def ask(self, line: str) -> Reply:
        """Sends a line. Its reply comes when all lines before have theirs."""
        if len(line) > LINE_MAX:
            raise ValueTooLong(f"a line has at most {LINE_MAX} octets")
        reply = Reply(line)
        with self._lock:
            if self._ended:
                raise self._ended.with_traceback(None)
            try:
                self._waiting.append(reply)
                with suppress(BrokenPipeError):  # it has ended; who hears the replies tells all that wait
                    os.write(self._process.stdin.fileno(), f"{line}\n".encode())
            except BaseException:
                self._process.kill()  # whether the line went out isn't known, so a reply might be taken for another's
                raise
        return reply

    def end(self) -> None:
        """Sends no further line, and waits until all are answered and the program has ended."""
        with self._lock:
            self._process.stdin.close()
            self._ended = self._ended or Ended(0)
        self._reader.join()

    def _hear_all(self) -> None:
        fault = ""
        try:
            for text in self._process.stdout:
                line, newline, _ = text.partition("\n")
                if line.startswith("fault "):
                    fault = line
                elif newline and self._waiting[0].hear(line):  # where it is killed, a part of a line is no reply
                    self._waiting.popleft()
        except (IndexError, ValueError):
            self._process.kill()  # what it told is no reply of this program
        # What it says on standard error comes at its end, and is less than a pipe holds.
        said = self._process.stderr.read()
        cause = ended(self._process.wait(), fault, said)
        with self._lock, self._process:  # which closes the pipes
            if cause.status or not self._ended:
                self._ended = cause
        for reply in self._waiting:
            reply._error = cause if reply is self.opening else Unanswered(reply.line, cause)
            reply._awaited.release()
