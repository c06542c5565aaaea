"""A log of batches in PostgreSQL, which several servers follow. Used by replicate and batch; it needs python3-psycopg2.

A batch has the number after the last one's: it is appended where that number is still free, by the table's primary key,
and whoever finds it taken tries the next. So numbers have no gaps, and whoever reads on in their order misses none.
"""
import hashlib
import select
import time
import uuid

import psycopg2

from administration import Unanswered

# The line that answered is kept with the batch: a sequence where it was accepted, or the numbers of its refusal.
TABLE = """
CREATE TABLE IF NOT EXISTS kesmoch_log (
    number bigint PRIMARY KEY CHECK (number > 0),
    batch bytea NOT NULL CHECK (length(batch) <= 4194304),
    digest bytea NOT NULL CHECK (digest = sha256(batch)),
    submission uuid NOT NULL UNIQUE,
    who text NOT NULL DEFAULT session_user,
    at timestamptz NOT NULL DEFAULT clock_timestamp(),
    sequence bigint,
    refused text,
    CHECK (sequence IS NULL OR refused IS NULL)
);
CREATE OR REPLACE FUNCTION kesmoch_log_notifies() RETURNS trigger LANGUAGE plpgsql AS $$
BEGIN
    PERFORM pg_notify(CASE TG_OP WHEN 'INSERT' THEN 'kesmoch_log' ELSE 'kesmoch_answer' END, NEW.number::text);
    RETURN NULL;
END $$;
CREATE OR REPLACE FUNCTION kesmoch_log_stays() RETURNS trigger LANGUAGE plpgsql AS $$
BEGIN
    IF TG_OP = 'UPDATE' THEN
        IF (OLD.sequence IS NULL AND OLD.refused IS NULL)
            AND (NEW.number, NEW.batch, NEW.digest, NEW.submission, NEW.who, NEW.at)
                IS NOT DISTINCT FROM (OLD.number, OLD.batch, OLD.digest, OLD.submission, OLD.who, OLD.at) THEN
            RETURN NEW;
        END IF;
    END IF;
    RAISE EXCEPTION 'what stands in the log stays';
END $$;
CREATE OR REPLACE TRIGGER kesmoch_log_notifies AFTER INSERT OR UPDATE ON kesmoch_log FOR EACH ROW EXECUTE FUNCTION kesmoch_log_notifies();
CREATE OR REPLACE TRIGGER kesmoch_log_stays BEFORE UPDATE OR DELETE ON kesmoch_log FOR EACH ROW EXECUTE FUNCTION kesmoch_log_stays();
CREATE OR REPLACE TRIGGER kesmoch_log_whole BEFORE TRUNCATE ON kesmoch_log FOR EACH STATEMENT EXECUTE FUNCTION kesmoch_log_stays();
"""
APPEND = """
INSERT INTO kesmoch_log (number, batch, digest, submission)
SELECT coalesce(max(number), 0) + 1, %s, %s, %s FROM kesmoch_log RETURNING number
"""
# The seconds in which an engine that broke off has to be back, before it isn't known what became of a batch.
PATIENCE = 30


class NoLog(Exception):
    """Why there is no log to use, in a sentence."""


class Entry:
    """A batch of the log, and the line that answered it, where one did."""

    def __init__(self, number, batch, digest, submission, sequence, refused):
        self.number, self.batch, self.submission = number, bytes(batch), submission
        self.answer = line_of(sequence, refused)
        if hashlib.sha256(self.batch).digest() != bytes(digest):
            raise Unanswered(f"the batch {number} of the log isn't what was submitted: its digest differs")


def line_of(sequence, refused):
    """The line of an entry's outcome; nothing where it has none yet."""
    if refused is not None:
        return f"REFUSED {refused}"
    return None if sequence is None else f"PUBLISHED {sequence}"


class Log:
    """A connection to the log."""

    def __init__(self, dsn):
        try:
            self.connection = psycopg2.connect(dsn, connect_timeout=10)
            self.connection.autocommit = True
        except psycopg2.Error as error:
            raise Unanswered(f"the log doesn't answer: {said(error)}") from error

    def __enter__(self):
        return self

    def __exit__(self, *_):
        self.connection.close()

    def ask(self, words, *values):
        """The rows of an answer."""
        try:
            with self.connection.cursor() as cursor:
                cursor.execute(words, values)
                return cursor.fetchall() if cursor.description else []
        except psycopg2.errors.UniqueViolation:
            raise
        except psycopg2.errors.UndefinedTable as error:
            raise NoLog("there is no log in this database: `replicate init DSN` makes it") from error
        except psycopg2.errors.InsufficientPrivilege as error:
            raise NoLog(f"this user may not do that: {said(error)}") from error
        except psycopg2.Error as error:
            raise Unanswered(f"the log broke off: {said(error)}", True) from error

    def append(self, batch, submission):
        """The number of a batch, which it gets where it hasn't one yet."""
        self.ask("SET synchronous_commit = on")
        while True:
            found = self.ask("SELECT number FROM kesmoch_log WHERE submission = %s", submission)
            if found:
                return found[0][0]
            try:
                return self.ask(APPEND, psycopg2.Binary(batch), psycopg2.Binary(hashlib.sha256(batch).digest()), submission)[0][0]
            except psycopg2.errors.UniqueViolation:
                continue

    def entry(self, number):
        """The batch of a number, and nothing where the log ends before it."""
        found = self.ask("SELECT number, batch, digest, submission::text, sequence, refused FROM kesmoch_log WHERE number = %s", number)
        return Entry(*found[0]) if found else None

    def number_at(self, sequence):
        """The number of the batch after which servers have this sequence, and nothing where no batch is known to be that."""
        found = self.ask("SELECT number FROM kesmoch_log WHERE sequence = %s", sequence)
        return found[0][0] if found else None

    def answer(self, number):
        """The line that answered a batch, and nothing where none did."""
        return line_of(*self.ask("SELECT sequence, refused FROM kesmoch_log WHERE number = %s", number)[0])

    def settle(self, number, answer):
        """Keeps the line that answered a batch where none is kept yet: the one that is kept."""
        sequence, refused = (answer.numbers[0], None) if answer.word == "PUBLISHED" else (None, "{} {}".format(*answer.numbers))
        self.ask(
            "UPDATE kesmoch_log SET sequence = %s, refused = %s WHERE number = %s AND sequence IS NULL AND refused IS NULL",
            sequence, refused, number,
        )
        return self.answer(number)

    def listen(self, channel):
        self.ask(f"LISTEN {channel}")

    def wait(self, seconds):
        """Waits for a notification, at most so long."""
        if not self.connection.notifies:
            select.select([self.connection], [], [], max(seconds, 0))
            try:
                self.connection.poll()
            except psycopg2.Error as error:
                raise Unanswered(f"the log broke off: {said(error)}") from error
        self.connection.notifies.clear()


def said(error):
    return " ".join(str(error).split()) or "it ended the connection"


def init(dsn):
    with Log(dsn) as log:
        log.ask(TABLE)


def append(dsn, batch):
    """The number that a batch has in the log. Where the engine breaks off, it is asked whether it has the batch."""
    submission, until, begun = str(uuid.uuid4()), time.monotonic() + PATIENCE, False
    while True:
        try:
            with Log(dsn) as log:
                begun = True
                return log.append(batch, submission)
        except Unanswered as why:
            if not begun or time.monotonic() > until:
                raise Unanswered(str(why), begun) from why
            time.sleep(0.2)


def submit(dsn, batch, seconds):
    """The number of a batch, and the line by which the first server answered it; nothing where none did in that time."""
    number, until = append(dsn, batch), time.monotonic() + seconds
    while True:
        try:
            with Log(dsn) as log:
                log.listen("kesmoch_answer")
                while not (line := log.answer(number)) and time.monotonic() < until:
                    log.wait(until - time.monotonic())
                return number, line
        except Unanswered:
            if time.monotonic() > until:
                return number, None
            time.sleep(0.2)
