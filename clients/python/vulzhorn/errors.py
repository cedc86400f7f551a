"""What may go wrong. The first line of each class says what is so and, behind the colon, what to do."""
import signal


class Error(Exception):
    """Anything of this package."""


class Refused(Error):
    """The program refused a request, which changed nothing: docs/COMMANDS.md says why (`reply`, and its `numbers`)."""

    def __init__(self, reply: str) -> None:
        super().__init__(reply)
        self.reply, self.numbers = reply, [int(word) for word in reply.split(" ") if word.isdigit()]

class Busy(Refused):
    """Another session, of this number, holds the record: try again when it has ended."""
class LogFull(Refused):
    """No room in the log (used, owed, at most), or in the page (page, octets): commit or abort what is open."""
class NoSuchRecord(Refused, IndexError):
    """No record has this number: the first is 0, and there are 32 for each page."""
class ValueTooLong(Refused, ValueError):
    """The value has more octets than the program takes: cut it, or spread it over records."""
class NoSession(Refused):
    """No session is free, or this transaction has ended: commit or abort one, or begin anew."""


class Ended(Error):
    """The program has ended, and nothing is sent any more: open the database again, it holds what was committed.

    `status` is its status, or minus the signal that ended it, `fault` the line of a fault, `said` its last words."""

    def __init__(self, status: int, fault: str = "", said: str = "") -> None:
        self.status, self.fault, self.said = status, fault, said
        why = " ".join(line[6:] for line in said.splitlines() if line.startswith("face: ")) or fault
        super().__init__(f"status {status}: {why or (signal.strsignal(-status) if status < 0 else 'it was closed')}")

class WrongSizes(Ended, ValueError):
    """The program takes no such pool or sizes, or the files have others: see what it said."""
class InUse(Ended):
    """Another program is at work in the folder: wait until it has ended."""
class NoDatabase(Ended):
    """The folder has no database: give sizes to make one, or another folder."""
class Unusable(Ended):
    """A file can't be opened or made: see to room, and to owner and rights of the folder and its files."""
class NotBlank(Ended):
    """There is a database where one was to be made."""
class Damaged(Ended):
    """The files aren't sound, or aren't of one database: `face check` tells the rule that fails; bring back a copy."""
class Worn(Ended):
    """The log or the flash has used up its numbers: export the records, and import them into a new database."""
class DeviceFailed(Ended):
    """A file couldn't be read, written or synced: see to the disk, start the machine again, then open it again."""
class Unanswered(Ended):
    """The program ended before it answered `line`, which may or may not have been committed: open it again, and look.

    How many commits it has then tells whether it was. `__cause__` says why the program ended."""

    def __init__(self, line: str, cause: Ended) -> None:
        super().__init__(cause.status, cause.fault, cause.said)
        self.line, self.__cause__ = line, cause
        self.args = (f"{cause}; '{line}' wasn't answered, and may or may not have been committed",)


REFUSALS = {"busy": Busy, "record": NoSuchRecord, "long": ValueTooLong, "session": NoSession, "full": LogFull}
STATUSES = {2: WrongSizes, 3: DeviceFailed, 8: Worn, 9: Damaged, 10: NotBlank}
FOREIGN = {"another program is at work": InUse, "this folder has no database": NoDatabase, "is no file": Unusable,
           "can't be opened": Unusable, "can't be made": Unusable, "these sizes ask for": WrongSizes}


def refusal(reply: str) -> Refused:
    """The error that a reply stands for, which begins with busy, full or refused."""
    first, *words = reply.split(" ")
    return REFUSALS.get(words[0] if first == "refused" else first, Refused)(reply)


def ended(status: int, fault: str, said: str) -> Ended:
    """The error that an end of the program stands for; of what is foreign (9) the sentence says what it is."""
    kinds = [kind for sentence, kind in FOREIGN.items() if status == 9 and sentence in said]
    return (kinds + [STATUSES.get(status, Ended)])[0](status, fault, said)
