"""Processes that are started, waited for, and ended so that answers on their way go out whole. Used by up."""
import os
import signal
import socket
import subprocess
import time

# Seconds in which each of them has to begin, and to end.
PATIENCE = 60


class Missing(Exception):
    """What is missing, in a sentence."""


def free_port():
    """A port that nothing listens on."""
    with socket.socket() as taken:
        taken.bind(("127.0.0.1", 0))
        return taken.getsockname()[1]


def is_taken(port):
    """Whether something listens on a port."""
    with socket.socket() as probe:
        probe.setsockopt(socket.SOL_SOCKET, socket.SO_REUSEADDR, 1)
        try:
            probe.bind(("127.0.0.1", port))
        except (OSError, OverflowError):
            return True
    return False


class Process:
    """A process that this one started. `quits` is the signal by which it ends, where it doesn't end with its input."""

    def __init__(self, name, words, quits=signal.SIGTERM, **more):
        self.name, self.quits = name, quits
        # a group of its own, so that Ctrl-C comes to this process alone, which ends them in their order
        self.popen = subprocess.Popen([str(word) for word in words], start_new_session=True, **more)

    def status(self):
        """With what it ended; nothing while it runs."""
        return self.popen.poll()

    def until_listening(self, port):
        """Waits until it listens on a port."""
        end = time.monotonic() + PATIENCE
        while time.monotonic() < end:
            if self.status() is not None:
                raise Missing(f"{self.name} ended with {self.status()}")
            with socket.socket() as probe:
                if probe.connect_ex(("127.0.0.1", port)) == 0:
                    return
            time.sleep(0.05)
        raise Missing(f"{self.name} doesn't listen after {PATIENCE} seconds")

    def end(self):
        """Ends it, once what it hands on is answered."""
        if self.popen.stdin:
            self.popen.stdin.close()
        elif self.status() is None:
            self.popen.send_signal(self.quits)
        try:
            self.popen.wait(PATIENCE)
        except subprocess.TimeoutExpired:
            print(f"up: {self.name} is ended after {PATIENCE} seconds", flush=True)
            os.killpg(self.popen.pid, signal.SIGKILL)
            self.popen.wait()


def children_of(process):
    """The processes that a process has started, by their numbers."""
    with open(f"/proc/{process.popen.pid}/task/{process.popen.pid}/children", encoding="ascii") as file:
        return set(file.read().split())


def until_gone(process, before):
    """Waits until none of these children of a process is left; whether that came in time."""
    end = time.monotonic() + PATIENCE
    while children_of(process) & before:
        if time.monotonic() > end:
            return False
        time.sleep(0.05)
    return True
