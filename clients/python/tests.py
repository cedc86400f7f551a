"""Tries the Python client and its shell over the program: python3 tests.py, where FACE names another program than bin/face runs."""
import contextlib
import faulthandler
import os
import pty
import random
import select
import shutil
import signal
import subprocess
import sys
import tempfile
import threading
import time
import unittest

HERE = os.path.dirname(os.path.abspath(__file__))
sys.path[:0] = [HERE, f"{HERE}/../../checks"]
from storage_model import Model  # noqa: E402
from vulzhorn import (Busy, Damaged, Database, DeviceFailed, Ended, Error, InUse, LogFull, NoDatabase,  # noqa: E402
                      NoSession, NoSuchRecord, Refused, Unanswered, Unusable, ValueTooLong, Worn, WrongSizes, find_program)
from vulzhorn.errors import ended, refusal  # noqa: E402

SIZES = (16, 8, 64)
ROOMY = (16, 8, 2000)
ACCOUNTS, TRANSFERS, THREADS = 100, 5000, 8


class Case(unittest.TestCase):
    def setUp(self):
        shared = "/dev/shm" if os.access("/dev/shm", os.W_OK) else None
        self.folder = tempfile.mkdtemp(dir=shared)
        self.addCleanup(shutil.rmtree, self.folder, True)

    def path(self, name):
        return os.path.join(self.folder, name)

    def open(self, name="db", sizes=SIZES, **more):
        return Database(self.path(name), 4, sizes=sizes, **more)


class Records(Case):
    def test_array(self):
        with self.open() as db:
            self.assertEqual((len(db), db.commits, db[7]), (512, 0, None))
            db[7] = b"seven"
            db[8] = bytearray(b"")
            db[511] = memoryview(b"\x00\xff")
            self.assertEqual([db[7], db[8], db[511]], [b"seven", b"", b"\x00\xff"])
            self.assertEqual(db.scan(0, 512), [(7, b"seven"), (8, b""), (511, b"\x00\xff")])
            self.assertEqual([db.scan(0, 8), db.scan(440, 72), db.scan(8, 503)], [[(7, b"seven")], [(511, b"\x00\xff")], [(8, b"")]])
            del db[7]
            self.assertEqual((db[7], db.scan(0, 64)), (None, [(8, b"")]))
        with self.open() as db:
            self.assertEqual((db.commits, db[8]), (4, b""))

    def test_refused(self):
        with self.open() as db:
            for record in (512, 10**9 - 1, 10**9, 2**70, -1):
                with self.assertRaises(NoSuchRecord):
                    db[record]
            for wrong in (5, "text", None):
                with self.assertRaises((TypeError, Refused)):
                    db[7] = wrong
            with self.assertRaises(TypeError):
                7 in db
            for length in (250, 10**6):
                with self.assertRaises(ValueTooLong):
                    db[7] = bytes(length)
            self.assertEqual(db.submit("stat").result()["commits"], 0)

    def test_values_of_each_length(self):
        written = {}
        with self.open(sizes=ROOMY) as db:
            with contextlib.suppress(ValueTooLong):
                for length in range(256):
                    written[2 * length] = os.urandom(length)
                    db[2 * length] = written[2 * length]
            longest = len(written) - 2
            self.assertEqual(longest, 200)
            del written[2 * (longest + 1)]
            self.assertEqual(dict(db.scan(0, 512)), written)
        with self.open(sizes=ROOMY) as db:
            self.assertEqual([db[record] for record in written], list(written.values()))

    def test_many_under_way(self):
        with self.open() as db:
            replies = [db.submit("set" if number % 50 == 0 else "get", number % 512, *([b"%d" % number] * (number % 50 == 0)))
                       for number in range(50000)]
            self.assertEqual([reply.result() for reply in replies[::50]], list(range(1, 1001)))
            self.assertEqual(replies[-1].result(timeout=1), db[49999 % 512])
            last = [db.submit("set", 1, b"x") for _ in range(100)]
        self.assertEqual(last[-1].result(0), 1100)  # what is under way at the close is answered
        with self.assertRaises(Ended):
            db[7]


class Transactions(Case):
    def test_blocks(self):
        with self.open() as db:
            with db.transaction() as one:
                one.write(7, b"a")
                self.assertEqual(one.read(7), b"a")
                with self.assertRaises(Busy) as told:
                    db[7]
                self.assertEqual(told.exception.numbers, [one.session])
            self.assertEqual(db[7], b"a")
            with self.assertRaises(KeyError), db.transaction() as one:
                one.erase(7)
                raise KeyError
            self.assertEqual((db[7], db.submit("stat").result()["active"]), (b"a", 0))
            with db.transaction() as one:
                one.abort()
            for use in (lambda: one.read(7), one.commit, one.abort):
                self.assertRaises(NoSession, use)

    def test_marks(self):
        with self.open() as db:
            with db.transaction() as one:
                one.write(1, b"a")
                one.mark()
                one.write(1, b"b")
                replies = [one.submit("write", record, b"c") for record in (2, 512, 3)]
                self.assertRaises(NoSuchRecord, replies[1].result)
                self.assertEqual(one.back(), 3)
                self.assertEqual([one.read(record) for record in (1, 2, 3)], [b"a", None, None])
                self.assertRaises(Busy, db.__getitem__, 2)
                self.assertRaisesRegex(Refused, "refused mark", one.back, 2)
                one.write(3, b"d")
                one.erase(3)
                self.assertEqual((one.back(2), one.back(2)), (1, 0))
            self.assertEqual(db.scan(0, 64), [(1, b"a"), (3, b"d")])

    def test_eight_sessions(self):
        with self.open() as db:
            opened = [db.transaction() for _ in range(8)]
            self.assertEqual(sorted(one.session for one in opened), list(range(8)))
            with self.assertRaises(NoSession):
                db.transaction(timeout=0.01)
            threading.Timer(0.05, opened[3].abort).start()
            self.assertEqual(db.transaction().session, 3)

    def test_full(self):
        with self.open() as db:
            with self.assertRaises(LogFull) as told, db.transaction() as one:
                for number in range(100):
                    one.write(number, b"x")
            self.assertEqual(told.exception.numbers[2], 63)
            db[7] = b"after"

    def test_transact(self):
        with self.open() as db:
            holder, calls = db.transaction(), []
            holder.write(7, b"held")
            with self.assertRaises(Busy):
                db.transact(lambda one: calls.append(one.read(7)), tries=3)
            threading.Timer(0.05, holder.commit).start()
            self.assertEqual(db.transact(lambda one: one.read(7)), b"held")
            self.assertEqual(db.submit("stat").result()["active"], 0)


class Bank(Case):
    """Eight threads that move money between the same accounts."""

    def transfer(self, one, source, target):
        balances = [int(one.read(account)) for account in (source, target)]
        one.write(source, b"%d" % (balances[0] - 1))
        one.write(target, b"%d" % (balances[1] + 1))

    def work(self, db, seed, wrong):
        choice = random.Random(seed)
        try:
            for number in range(TRANSFERS // THREADS):
                source, target = choice.sample(range(ACCOUNTS), 2)
                db.transact(lambda one: self.transfer(one, source, target))
                if number % 200 == 0:
                    held = db.transact(lambda one: one.scan(0, ACCOUNTS), tries=2000)
                    self.assertEqual(sum(int(value) for _, value in held), 1000 * ACCOUNTS)
        except BaseException as error:
            wrong.append(error)

    def test_sums(self):
        wrong = []
        with self.open(sizes=ROOMY) as db:
            for reply in [db.submit("set", account, b"1000") for account in range(ACCOUNTS)]:
                reply.result()
            threads = [threading.Thread(target=self.work, args=(db, seed, wrong)) for seed in range(THREADS)]
            for thread in threads:
                thread.start()
            for thread in threads:
                thread.join()
        self.assertEqual(wrong, [])
        with self.open(sizes=ROOMY) as db:
            balances = [int(value) for _, value in db.scan(0, ACCOUNTS)]
            self.assertEqual((len(balances), sum(balances)), (ACCOUNTS, 1000 * ACCOUNTS))
            self.assertGreaterEqual(db.commits, ACCOUNTS + TRANSFERS)


class Kills(Case):
    """The program is killed among requests at random; a model of the record table judges what was told and what is kept."""

    def lines(self, model, choice):
        while True:
            word = choice.choice(["get", "set", "begin", "read", "write", "write", "erase", "scan", "mark", "back", "commit", "commit", "abort"])
            session, record = [choice.randrange(4)] * (word not in ("get", "set")), [choice.randrange(40)]
            record += [choice.randrange(1, 24)] if word == "scan" else []
            record = [] if word in ("begin", "mark", "commit", "abort") else record
            record = [choice.randrange(4)][:choice.randrange(2)] if word == "back" else record
            value = [bytes(choice.randrange(256) for _ in range(choice.randrange(20)))] if word in ("set", "write") else []
            line = " ".join([word, *map(str, session + record), *(octets.hex() or "-" for octets in value)])
            yield word, (*session, *record, *value), model.answer(line)

    def told(self, reply, word, expected):
        """Whether it was answered; if so, that it is what the model says."""
        try:
            answer = reply.result()
        except Unanswered:
            return False
        except Refused as error:
            self.assertEqual(error.reply, expected)
        else:
            if word == "scan":
                lines = [f"item {record} {value.hex() or '-'}" for record, value in answer]
                self.assertEqual("\n".join([*lines, f"end {len(lines)}"]), expected)
            elif isinstance(answer, bytes):
                self.assertEqual(f"value {answer.hex() or '-'}", expected)
            else:
                self.assertIn(expected, [f"committed {answer}", f"back {answer}", "none", "ok", "aborted"])
        return True

    def life(self, table, commits, choice):
        model, asked = Model(SIZES[0], SIZES[2], commits, table), []
        ahead, last = choice.choice([1, 10, 1000]), choice.randrange(300)
        with self.open() as db:
            self.assertEqual(db.commits, commits)
            for number, (word, arguments, expected) in enumerate(self.lines(model, choice)):
                if number == last:
                    os.kill(db.pid, signal.SIGKILL)
                try:
                    asked.append((db.submit(word, *arguments), word, expected))
                except Ended as error:
                    self.assertEqual(error.status, -signal.SIGKILL)
                    break
                if number >= ahead:
                    asked[number - ahead][0].done() or number > last or self.told(*asked[number - ahead])
        answers = [self.told(*one) for one in asked]
        self.assertEqual(sorted(answers, reverse=True), answers)
        least = [int(expected.split()[1]) for told, (_, _, expected) in zip(answers, asked) if told and expected[:3] == "com"]
        with self.open() as db:
            self.assertIn(db.commits, range(max([commits, *least]), model.commits + 1))
            kept = {record: value.hex() for record, value in db.scan(0, 512)}
        self.assertEqual(kept, model.tables[db.commits])
        return kept, db.commits

    def test_lives(self):
        choice, table, commits = random.Random(5), {}, 0
        for _ in range(60):
            table, commits = self.life(table, commits, choice)
        self.assertGreater(commits, 100)

    def test_waiters_are_told(self):
        with self.open() as db:
            os.kill(db.pid, signal.SIGSTOP)
            replies = [db.submit("set", 7, b"x") for _ in range(10)]
            os.kill(db.pid, signal.SIGKILL)
            for reply in replies:
                with self.assertRaisesRegex(Unanswered, "may or may not have been committed") as told:
                    reply.result(5)
                self.assertEqual((told.exception.line, told.exception.status), ("set 7 78", -signal.SIGKILL))
            with self.assertRaises(Ended) as told:
                db[7] = b"y"
            self.assertNotIsInstance(told.exception, Unanswered)

    def test_end_of_input(self):
        """The caller is killed: the program ends by itself, and what was open is undone."""
        code = ("import sys, time; from vulzhorn import Database; db = Database(sys.argv[1]); one = db.transaction(); one.write(1, b'x')\n"
                "[db.submit('set', 2, b'%d' % n) for n in range(1, 501)]; print(db.pid, flush=True); time.sleep(60)")
        self.open().close()
        caller = subprocess.Popen([sys.executable, "-c", code, self.path("db")], stdout=subprocess.PIPE, env={**os.environ, "PYTHONPATH": HERE})
        caller.stdout.readline()
        caller.kill()
        caller.wait()
        caller.stdout.close()
        for _ in range(100):
            with contextlib.suppress(InUse), self.open() as db:
                self.assertEqual((db[1], db[2]), (None, b"%d" % db.commits if db.commits else None))
                return
            time.sleep(0.05)
        self.fail("the program goes on without its caller")


class Openings(Case):
    def refused(self, kind, said, *arguments, **more):
        with self.assertRaises(kind) as told:
            Database(*arguments, **more)
        self.assertIn(said, str(told.exception))
        self.assertNotIsInstance(told.exception, Unanswered)

    def script(self, *lines):
        with open(self.path("script"), "w", encoding="ascii") as file:
            file.write("\n".join(["#!/bin/sh", *lines, ""]))
        os.chmod(self.path("script"), 0o755)
        return self.path("script")

    def test_openings(self):
        with self.open() as db:
            self.refused(InUse, "another program is at work on face.log", self.path("db"))
            self.refused(InUse, "another program", self.path("db"), sizes=SIZES)
            db[7] = b"x"
        self.refused(WrongSizes, "these sizes ask for", self.path("db"), sizes=(17, 8, 64))
        self.refused(WrongSizes, "no PAGES", self.path("other"), sizes=(0, 8, 64))
        self.refused(WrongSizes, "no POOL", self.path("db"), 5000)
        self.refused(NoDatabase, "this folder has no database", self.folder)
        self.refused(FileNotFoundError, "nowhere", self.path("nowhere"))
        self.refused(FileNotFoundError, "nowhere", self.path("db"), program="/nowhere/face")
        os.rename(self.path("db/face.flash"), self.path("db/kept"))
        self.refused(Damaged, "face.flash is missing", self.path("db"))
        os.mkdir(self.path("db/face.flash"))
        self.refused(Unusable, "is no file", self.path("db"))
        os.rmdir(self.path("db/face.flash"))
        with open(self.path("db/face.flash"), "wb") as file:
            file.truncate(os.path.getsize(self.path("db/kept")))
        os.truncate(self.path("db/face.log"), 1000)
        self.refused(Damaged, "as in no database", self.path("db"))

    def test_failed_device(self):
        self.open().close()
        limited = self.script("trap '' XFSZ; ulimit -f 1", f'exec {find_program()} "$@"')
        self.refused(DeviceFailed, "couldn't be written", self.path("db"), program=limited)

    def test_texts(self):
        """What can't be brought about in a second."""
        self.assertIsInstance(ended(8, "fault worn log", ""), Worn)
        full = refusal("full page 3 4000")
        self.assertEqual((type(full), full.numbers), (LogFull, [3, 4000]))
        self.assertEqual([kind for kind in Error.__subclasses__() if not kind.__doc__], [])

    def test_word(self):
        """A word that the program doesn't know is run; one that it knows is taken."""
        self.open().close()
        knows = self.script("[ $1 = batch ] || exit 2", "shift", f'exec {find_program()} run "$@"')
        for program in (None, knows):
            with Database(self.path("db"), program=program, word="batch") as db:
                db[7] = b"x"

    def test_two_databases(self):
        """A program doesn't keep the pipes of another one open."""
        first, second = self.open("first"), self.open("second")
        first.close()
        second[7] = b"goes on"
        second.close()

    def test_wrong_replies(self):
        for told in ("echo open 0; echo nonsense", "echo open 0; echo value xy", "echo; echo; echo"):
            with self.assertRaises(Ended), Database(self.folder, program=self.script(told, "exec sleep 60")) as db:
                db[7]


class Shells(Case):
    def shell(self, *lines, name="db"):
        words = [sys.executable, "-m", "vulzhorn", self.path(name), "--sizes", *map(str, ROOMY)]
        return subprocess.run(words, input="".join(f"{line}\n" for line in lines), text=True, capture_output=True,
                              env={**os.environ, "PYTHONPATH": HERE}, check=False)

    def test_lines(self):
        told = self.shell('set 7 "seven"', "get 7", "begin", "write 0 8 0a", "get 8", "commit 0", "scan 0 10", "comit 0", "set 9 abc",
                          'set 9 "open', "set 9", "get 512", "read 0 7", "get 9", "", ".stat", ".cache", "help", "help set")
        self.assertEqual(told.stdout.splitlines()[:17], [
            "committed 1", '736576656e  "seven"', "session 0 is open", "ok", "busy 0", told.stdout.splitlines()[5], "committed 2",
            '      7  736576656e  "seven"', "      8  0a  (no text)", "2 records have a value",
            "not sent: comit is no command; help lists them",
            "not sent: abc is no value, which is text in double quotes, hex digits in pairs,", "or - for no octets",
            'not sent: "open is no value, which is text in double quotes, hex digits in', "pairs, or - for no octets",
            'not sent: the form is set RECORD VALUE, for example set 7 "seven", or in hex', "set 7 736576656e"])
        self.assertLessEqual(max(map(len, told.stdout.splitlines())), 79)
        self.assertEqual((told.stderr, told.returncode), ("", 0))

    def test_export_and_import(self):
        records = {record: os.urandom(record % 201) for record in range(0, 512, 2)}
        with self.open(sizes=ROOMY) as db:
            for reply in [db.submit("set", record, value) for record, value in records.items()]:
                reply.result()
        told = self.shell(f".export {self.path('all')}", f".export {self.path('all')}")
        self.assertIn("256 records are exported", told.stdout)
        self.assertIn("all: File exists", told.stdout)
        self.assertIn("256 lines are committed", self.shell(f".import {self.path('all')}", name="new").stdout)
        with self.open("new", ROOMY) as db:
            self.assertEqual((dict(db.scan(0, 512)), db.commits), (records, 3))
        with open(self.path("all"), "a", encoding="ascii") as file:
            file.write("512 00\n")
        told = self.shell(f".import {self.path('all')} 201", name="new").stdout
        self.assertIn("refused record", told)
        self.assertIn("0 lines are committed; lines 201 to 257 aren't, and none behind them is.", told)
        self.assertIn(f"To go on: .import {self.path('all')} 201\n", told)

    def test_ended(self):
        with self.open(sizes=ROOMY):
            told = self.shell("get 7")
        self.assertIn("another program is at work on face.log", told.stderr)
        self.assertIn("wait until it has ended", told.stderr.replace("\n", " "))
        self.assertEqual(told.returncode, 1)

    def test_terminal(self):
        """A person's: prompt, completion, Ctrl-C, which ends neither shell nor program, and Ctrl-D."""
        self.open().close()
        process, terminal = pty.fork()
        if process == 0:
            os.environ.update(PYTHONPATH=HERE, HOME=self.folder, TERM="dumb", COLUMNS="80")
            os.execv(sys.executable, [sys.executable, "-m", "vulzhorn", self.path("db")])
        self.addCleanup(os.kill, process, signal.SIGKILL)
        for keys, text in (("", "vulzhorn> "), ("chec\t\n", "ok\r\nvulzhorn> "), ("beg\t\n", "session 0 is open\r\nvulzhorn 0> "),
                           ("help sc\t\n", "example: scan 0 100\r\nvulzhorn 0> "), ("get", "get"), ("\x03", "^C\r\nvulzhorn 0> "), ('set 7 "x"\n', "committed 1\r\nvulzhorn 0> "), ("\x04", "undone: 0")):
            time.sleep(0.1)  # a key that comes while readline is at another one may be seen with the next
            os.write(terminal, keys.encode())
            seen, deadline = "", time.monotonic() + 20
            while text not in seen and time.monotonic() < deadline:
                seen += os.read(terminal, 1000).decode() if select.select([terminal], [], [], 0.1)[0] else ""
            self.assertIn(text, seen)
        self.assertEqual(os.waitid(os.P_PID, process, os.WEXITED | os.WNOWAIT).si_status, 0)
        os.close(terminal)
        self.assertEqual(os.stat(self.path(".vulzhorn_history")).st_mode & 0o777, 0o600)


class Packages(Case):
    def test_pip_without_a_network(self):
        pip = [sys.executable, "-m", "pip", "--disable-pip-version-check"]
        if subprocess.run([*pip, "--version"], capture_output=True, check=False).returncode:
            self.skipTest("needs pip")
        done = subprocess.run([*pip, "install", "--no-index", "--no-compile", "--target", self.path("to"), HERE],
                              capture_output=True, text=True, check=False)
        self.assertEqual(done.returncode, 0, done.stderr)
        code = ("import sys, vulzhorn.__main__ as shell\n"
                "sys.exit(not (shell.__file__.startswith(sys.argv[1]) and 'get' in shell.COMMANDS))")
        subprocess.run([sys.executable, "-c", code, self.path("to")], cwd=self.folder, check=True,
                       env={**os.environ, "PYTHONPATH": self.path("to")})


if __name__ == "__main__":
    faulthandler.dump_traceback_later(500, exit=True)  # what waits for ever shows where
    unittest.main()
