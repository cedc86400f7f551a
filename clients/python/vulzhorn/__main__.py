"""A shell for people: python3 -m vulzhorn FOLDER. A line that it doesn't know isn't sent."""
from __future__ import annotations

import argparse
import atexit
import cmd
import contextlib
import json
import os
import pkgutil
import re
import signal
import sys
import textwrap
from typing import Any, Callable, Dict, Iterator, List, Optional

from . import Database, Ended, Error, Transaction, Unanswered
from .program import octets

HISTORY = os.path.expanduser("~/.vulzhorn_history")
COLUMNS, WIDTH = 79, 70  # of a line, and of a value behind a record's number
EXPORTED, IMPORTED = 4096, 100  # records and lines of one transaction, at most
WORD = re.compile(r'"(?:[^"\\]|\\.)*"|\S+')
EXPORT_LINE = re.compile(r"(\d{1,9}) ((?:[0-9a-fA-F]{2})+|-)\n?")
HELP = json.loads(pkgutil.get_data("vulzhorn", "help.json") or "")
# Of each command the words behind it, what it does, an example, and how what it answers is shown.
COMMANDS: Dict[str, List[str]] = HELP["commands"]


class Wrong(Exception):
    """A line that isn't sent, and why."""


def shown(value: Optional[bytes]) -> str:
    """A value as hex and, where it is one, as text: both in one line, or in lines of their own."""
    if value is None:
        return "none"
    digits, text = value.hex() or "-", value.decode(errors="replace")
    text = json.dumps(text, ensure_ascii=False) if text.isprintable() and text.encode() == value else "(no text)"
    parts = [f"{digits}  {text}"] if len(digits) + len(text) + 2 <= WIDTH else [digits, text]
    return "\n".join(part[at:at + WIDTH] for part in parts for at in range(0, len(part), WIDTH))


def listed(items: List[Any]) -> str:
    """What a scan found, a record a line."""
    lines = [f"{number:7}  " + shown(value).replace("\n", "\n" + 9 * " ") for number, value in items]
    return "\n".join([*lines, f"{len(items)} records have a value"])


def meaning(error: Exception) -> str:
    """What an error is, and of the client's what it means and what to do."""
    texts = [f"not sent: {error}" if isinstance(error, Wrong) else str(error)]
    if isinstance(error, Error):
        texts += (type(error.__cause__ or error).__doc__ or "").splitlines()[:1]
    return "\n".join(textwrap.fill(text, COLUMNS) for text in texts)


@contextlib.contextmanager
def progress(whole: int) -> Iterator[Callable[[int], bool]]:
    """A progress bar, where one sees it: the function shows how much is done, and answers whether there was a Ctrl-C,
    which does nothing else meanwhile, so that no transaction is torn."""
    is_seen, keys = sys.stdout.isatty(), []
    before = signal.signal(signal.SIGINT, lambda *key: keys.append(key))

    def tell(done: int) -> bool:
        part = min(1.0, done / max(1, whole))
        print(f"\r[{'#' * int(50 * part):50}] {part:4.0%}" if is_seen else "", end="", flush=True)
        return bool(keys)

    try:
        yield tell
    finally:
        signal.signal(signal.SIGINT, before)
        print("\r\033[K" if is_seen else "", end="", flush=True)


SHOWN: Dict[str, Callable[[Any], str]] = {"value": shown, "items": listed}


class Shell(cmd.Cmd):
    """A command is a method do_* of this class, or one of the session's, or else a line of the program's."""

    def __init__(self, database: Database) -> None:
        super().__init__()
        self.database, self.status = database, 0
        self.sessions: Dict[int, Transaction] = {}

    @property
    def prompt(self) -> str:  # type: ignore[override]
        return " ".join(["vulzhorn", *map(str, sorted(self.sessions))]) + "> " if sys.stdin.isatty() else ""

    def onecmd(self, line: str) -> bool:
        words = WORD.findall("quit" if line == "EOF" else line)
        print(end="\n" if line == "EOF" and sys.stdin.isatty() else "")
        try:
            answer = self._called(*words) if words else ""
            print(answer, end="\n" if answer else "")
        except OSError as error:
            print(f"{error.filename}: {error.strerror}")
        except (Wrong, Error) as error:
            print(meaning(error))
            self.status = int(isinstance(error, Ended))
        self.sessions = {number: session for number, session in self.sessions.items() if session.is_open}
        return self.status != 0 or words == ["quit"]

    def _called(self, name: str, *words: str) -> str:
        form, _, example, how = COMMANDS[self._argument("COMMAND", name)]
        kinds = form.split()
        if not len([kind for kind in kinds if kind[0] != "["]) <= len(words) <= len(kinds):
            raise Wrong(f"the form is {' '.join([name, *kinds])}, for example {example}")
        arguments = [self._argument(kind.strip("[]"), word) for kind, word in zip(kinds, words)]
        asked = arguments.pop(0) if kinds[:1] == ["SESSION"] else self.database
        call = getattr(self, f"do_{name.lstrip('.')}", None) or getattr(asked, "scan" if name == "list" else name, None)
        answer = call(*arguments) if call else asked.submit(name, *arguments).result()
        return SHOWN.get(how, how.format)(answer)

    def _argument(self, kind: str, word: str) -> Any:
        """What a word of a line stands for."""
        number = int(word) if re.fullmatch(r"[0-9]{1,9}", word) else -1
        with contextlib.suppress(ValueError):
            if kind == "FILE" or (kind == "COMMAND" and word in COMMANDS):
                return word
            if kind == "VALUE":
                return json.loads(word).encode() if word.startswith('"') else octets(word)
            if kind == "SESSION" and number in self.sessions:
                return self.sessions[number]
            if kind in ("RECORD", "COUNT", "LINE") and number >= 0:
                return number
        raise Wrong(f"{word} is no {HELP['not'][kind]}")

    def completenames(self, text: str, *_: Any) -> List[str]:
        return [f"{name} " for name in COMMANDS if name.startswith(text)]

    def completedefault(self, text: str, line: str, *_: Any) -> List[str]:
        is_file = line.startswith((".import ", ".export "))
        names = os.listdir(os.path.dirname(line.split(" ")[1]) or ".") if is_file else map(str, self.sessions)
        return [name for name in names if name.startswith(text)]

    def do_del(self, record: int) -> None:
        with self.database.transaction(0) as session:
            session.erase(record)

    def do_scan(self, first: int, count: int) -> List[Any]:
        return self.database.scan(first, count, 0)

    def do_begin(self) -> int:
        session = self.database.transaction(0)
        self.sessions[session.session] = session
        return session.session

    def do_stat(self) -> str:
        told = self.database.submit("stat").result()
        return "\n".join(f"{name:8}{number:8}  {HELP['stat'].get(name, '')}" for name, number in told.items())

    def do_cache(self) -> str:
        rows: Dict[str, List[str]] = {}
        for kind, *words in map(str.split, self.database.submit("cache").result()):
            title, page = ("memory", words[0]) if kind == "pool" else (f"group {words[0]:>9}", "".join(words[3:]))
            rows.setdefault(title, []).append(page.replace("-", ""))
        lines = [f"{title:15}  {' '.join(pages[at:at + 8])}"
                 for title, pages in rows.items() for at in range(0, len(pages), 8)]
        return "\n".join([*lines, HELP["cache"]])

    def do_export(self, path: str) -> str:
        done, size = 0, len(self.database)
        with open(path, "x", encoding="ascii") as file, progress(size) as tell:
            for first in range(0, size, EXPORTED):
                end = min(first + EXPORTED, size)
                items = self.database.scan(first, end - first)
                file.writelines(f"{number} {value.hex() or '-'}\n" for number, value in items)
                done += len(items)
                if tell(end) and end < size:
                    return f"stopped: {path} has those below {end}, {done} with a value, and no others"
        return f"{done} records are exported"

    def do_import(self, path: str, first: int = 1) -> str:
        count = max(1, min(IMPORTED, self.database.submit("stat").result()["cap"] // 4 - 2))
        done = first - 1
        with open(path, encoding="ascii", errors="replace") as file, progress(os.path.getsize(path)) as tell:
            size = sum(len(next(file, "")) for _ in range(done))
            while lines := [line for _, line in zip(range(count), file)]:
                try:
                    self._import(lines, done + 1)
                except (Error, Wrong) as error:
                    self.status = int(isinstance(error, Ended))
                    state = "may or may not be" if isinstance(error, Unanswered) else "aren't"
                    left = (f"{meaning(error)}\n{done - first + 1} lines are committed; "
                            f"lines {done + 1} to {done + len(lines)} {state}")
                    break
                done, size = done + len(lines), size + sum(map(len, lines))
                if tell(size):
                    left = f"stopped: lines {first} to {done} are committed"
                    break
            else:
                return f"{done - first + 1} lines are committed"
        return f"{left}, and none behind them is.\nTo go on: .import {path} {done + 1}"

    def _import(self, lines: List[str], first: int) -> None:
        forms = [EXPORT_LINE.fullmatch(line) for line in lines]
        if None in forms:
            raise Wrong(f"line {first + forms.index(None)} isn't the number of a record, a space, and hex")
        with self.database.transaction(0) as session:
            for reply in [session.submit("write", int(form[1]), octets(form[2])) for form in forms if form]:
                reply.result()

    def do_help(self, name: str = "") -> str:  # type: ignore[override]
        if name:
            return "{0} {1}\n{2}\nexample: {3}".format(name, *COMMANDS[name])
        return "\n".join([*(f"{f'{it} {form}':28}{does}" for it, (form, does, *_) in COMMANDS.items()), HELP["value"]])

    def do_quit(self) -> str:
        return f"sessions that are undone: {', '.join(map(str, self.sessions))}" if self.sessions else ""


def main() -> int:
    parser = argparse.ArgumentParser(prog="python3 -m vulzhorn", description="A shell for a database of Vulzhorn.")
    parser.add_argument("folder")
    parser.add_argument("--pool", type=int, default=64, help="pages that memory holds (64)")
    parser.add_argument("--sizes", type=int, nargs=3, metavar=("PAGES", "GROUPS", "BLOCKS"), help="to make it by")
    words = parser.parse_args()
    try:
        database = Database(words.folder, words.pool, sizes=words.sizes)
    except (OSError, Error) as error:
        sys.exit(meaning(error))
    with database:
        shell = Shell(database)
        if sys.stdin.isatty():
            print(f"{len(database)} records, {database.commits} commits. help lists the commands, Ctrl-D ends.")
            remember()
        while True:
            try:
                shell.cmdloop()
                return shell.status
            except KeyboardInterrupt:
                print("^C")


def remember() -> None:
    """Has the lines of earlier shells, and keeps those of this one for the next, for its user alone."""
    with contextlib.suppress(ImportError, OSError):
        import readline
        os.close(os.open(HISTORY, os.O_CREAT, 0o600))
        readline.read_history_file(HISTORY)
        readline.set_history_length(1000)
        atexit.register(readline.write_history_file, HISTORY)


if __name__ == "__main__":
    sys.exit(main())
