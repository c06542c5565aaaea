"""What a run of a program took."""
import os
import pickle
import resource
import signal

# the seconds of processor after which the system ends a run; by the clock it has 60 times as many, for a busy machine
LONGEST = 10


class Usage:
    """How a run ended (the exit status, or the signal below 0), its seconds of processor and its megabytes at most."""

    def __init__(self, status, used):
        self.status = os.waitstatus_to_exitcode(status)
        self.seconds = used.ru_utime + used.ru_stime
        self.megabytes = used.ru_maxrss / 1024

    def is_bad(self, seconds, megabytes):
        return not 0 <= self.status <= 4 or self.seconds > seconds or self.megabytes > megabytes


def used_by(pid):
    """The usage of a started process, once it has ended."""
    _, status, used = os.wait4(pid, 0)
    return Usage(status, used)


def started(words, folder, files):
    """Runs a program in a folder, with files as its streams, and returns the status and the usage that the system gives."""
    os.chdir(folder)
    pid = os.posix_spawn(words[0], words, {}, file_actions=files)
    resource.prlimit(pid, resource.RLIMIT_CPU, (LONGEST, LONGEST))
    signal.signal(signal.SIGALRM, lambda *_: os.kill(pid, signal.SIGKILL))
    signal.alarm(60 * LONGEST)
    _, status, used = os.wait4(pid, 0)
    signal.alarm(0)
    return status, tuple(used)


class Launcher:
    """A process that starts the programs. The system counts the memory of whoever starts a program as that program's, so
    it is forked while this script is small."""

    def __init__(self):
        asked, self.ask = os.pipe()
        self.answer, answered = os.pipe()
        if os.fork() == 0:
            os.close(self.ask)
            with os.fdopen(asked, "rb") as source, os.fdopen(answered, "wb") as sink:
                try:
                    while True:
                        pickle.dump(started(*pickle.load(source)), sink)
                        sink.flush()
                except (EOFError, KeyboardInterrupt, BrokenPipeError):
                    os._exit(0)
        os.close(asked)
        os.close(answered)
        self.owner = os.getpid()
        self.sink, self.source = os.fdopen(self.ask, "wb"), os.fdopen(self.answer, "rb")

    def start(self, *words):
        """Runs a command: its status and what it took."""
        pickle.dump(words, self.sink)
        self.sink.flush()
        status, used = pickle.load(self.source)
        return Usage(status, resource.struct_rusage(used))


LAUNCHERS = []


def run(words, folder, given=os.devnull, written=os.devnull, errors=os.devnull):
    """Runs a program in a folder, with files as its streams."""
    if not LAUNCHERS or LAUNCHERS[-1].owner != os.getpid():
        LAUNCHERS.append(Launcher())
    out = os.O_WRONLY | os.O_CREAT | os.O_TRUNC
    files = [
        (os.POSIX_SPAWN_OPEN, 0, str(given), os.O_RDONLY, 0),
        (os.POSIX_SPAWN_OPEN, 1, str(written), out, 0o600),
        (os.POSIX_SPAWN_OPEN, 2, str(errors), out, 0o600),
    ]
    return LAUNCHERS[-1].start([str(word) for word in words], str(folder), files)
