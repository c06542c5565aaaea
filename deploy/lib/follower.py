"""A server that follows a log of batches, and the note of how far it is. Used by replicate.

A batch that the map refuses has a number in the log and changes nothing, so a server's sequence, which counts what it
accepted, is another number. Both are noted before a batch is sent and after it was answered. So a follower that is
killed in between knows from the server's sequence whether the batch was accepted.
"""
import fcntl
import json
import os

from administration import Administrator, Answer, Unanswered, sequence_of

# The seconds in which a server has to answer a line that it can answer at once.
QUICK = 60
NOT_NOW = {
    "NOMEMORY": "the server has no memory for a batch",
    "BUSY": "the server has no memory for a connection",
    "FAILED": "the server can't write its journal, and has to be started again",
}


class Differs(Exception):
    """How a server differs from the log, in a sentence."""


class InUse(Exception):
    """That another follower runs by this note."""


class NotNow(Exception):
    """Why a batch can't be given at present, in a sentence."""


class Note:
    """The number of the log's last batch that the server has answered, its submission, the server's sequence after it,
    and whether the next batch may have been sent. All that is kept in a file, which is synced before anything goes on."""

    FIELDS = ("number", "submission", "sequence", "is_begun")

    def __init__(self, path):
        self.path = path
        self.number, self.submission, self.sequence, self.is_begun = 0, None, 0, False
        if os.path.exists(path):
            with open(path, encoding="utf-8") as file:
                for name, value in json.load(file).items():
                    setattr(self, name, value)

    def __str__(self):
        return f"log number {self.number}, sequence {self.sequence}"

    def keep(self, **changes):
        """Changes the note, in memory and on the disk."""
        for name, value in changes.items():
            setattr(self, name, value)
        with open(f"{self.path}.new", "w", encoding="utf-8") as file:
            json.dump({name: getattr(self, name) for name in self.FIELDS}, file)
            file.flush()
            os.fsync(file.fileno())
        os.rename(f"{self.path}.new", self.path)
        folder = os.open(os.path.dirname(os.path.abspath(self.path)), os.O_RDONLY)
        os.fsync(folder)
        os.close(folder)


class Server:
    """A server that is given batches by this follower alone."""

    def __init__(self, admin, clients, path):
        self.admin, self.clients = admin, clients
        self.lock = open(f"{path}.lock", "w", encoding="utf-8")
        try:
            fcntl.flock(self.lock, fcntl.LOCK_EX | fcntl.LOCK_NB)
        except BlockingIOError as error:
            raise InUse(f"another follower runs by {path}") from error
        self.note, self.is_checked = Note(path), False

    def __enter__(self):
        return self

    def __exit__(self, *_):
        self.lock.close()

    def give(self, log, entry):
        """Gives the server the next batch of the log, where there is one: whether the map has changed.

        Where the server isn't where the note says, nothing is sent, and the note is brought to where it is."""
        self.check(log)
        sequence, answer = self.ask(entry)
        if sequence != self.note.sequence:
            self.move(log, sequence)
            return True
        if entry is None:
            return False
        self.settle(log, entry, answer)
        return answer.word == "PUBLISHED"

    def check(self, log):
        """The note is one on this log."""
        if not self.is_checked and self.note.number:
            entry = log.entry(self.note.number)
            if entry is None or entry.submission != self.note.submission:
                raise Differs(f"{self.note.path} is of another log: the batch {self.note.number} isn't that which the server was given")
        self.is_checked = True

    def ask(self, entry):
        """The server's sequence, and its answer to a batch, which it is sent where the note has this sequence.

        The sequence is asked for while the connection is open, and the connection ends with the server. So a server that
        was started again in between is sent nothing."""
        try:
            with Administrator(self.admin) as administrator:
                publish(administrator)
                sequence = sequence_of(self.clients, QUICK)
                if entry is None or sequence != self.note.sequence:
                    return sequence, None
                self.note.keep(is_begun=True)
                answer = administrator.batch(entry.batch)
                if answer.word == "HELD":
                    publish(administrator)
                    answer = Answer(f"PUBLISHED {sequence + 1}")
        except Unanswered as why:
            raise NotNow(str(why)) from why
        if answer.word in NOT_NOW:
            raise NotNow(NOT_NOW[answer.word])
        return sequence, answer

    def move(self, log, sequence):
        """Notes that the server has another sequence than was noted."""
        note = self.note
        if sequence == note.sequence + 1 and note.is_begun:
            # It was sent the next batch, and the answer was lost.
            self.settle(log, log.entry(note.number + 1), Answer(f"PUBLISHED {sequence}"))
            return
        if sequence > note.sequence:
            raise Differs(f"the server has the sequence {sequence}, and by {note.path} it was given {note.sequence} batches: start it from its mapfile alone")
        # It was started again without its journal, or with an older one.
        number = log.number_at(sequence) if sequence else 0
        if number is None:
            raise Differs(f"no batch of the log has the sequence {sequence} that the server has: start it from its mapfile alone")
        note.keep(number=number, submission=log.entry(number).submission if number else None, sequence=sequence, is_begun=False)

    def settle(self, log, entry, answer):
        """Notes what a batch was answered with, in the log first. What another server was answered with has to be the same."""
        sequence = self.note.sequence + (answer.word == "PUBLISHED")
        if answer.word not in ("PUBLISHED", "REFUSED") or answer.word == "PUBLISHED" and answer.numbers[0] != sequence:
            raise Differs(f"the server answers {answer} to the batch {entry.number} of the log at the sequence {self.note.sequence}")
        kept = log.settle(entry.number, answer)
        if kept != str(answer):
            raise Differs(f"the server answers {answer} to the batch {entry.number} of the log, and another server answered {kept}: they don't serve the same files")
        self.note.keep(number=entry.number, submission=entry.submission, sequence=sequence, is_begun=False)


def publish(administrator):
    """Publishes what is pending."""
    answer = administrator.retry()
    if answer.word == "HELD":
        raise NotNow("the server has no memory to show a batch that it accepted")
    if answer.word not in ("IDLE", "PUBLISHED"):
        raise NotNow(f"the server answers {answer} to RETRY")
