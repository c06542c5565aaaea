#!/usr/bin/env python3
"""Tries what `--journal` makes of paths: that nothing is written over, what is refused, and by which line.

Usage: journal_paths.py PROGRAM

Each row starts the program in a folder of its own. After it the folder must have the files that it had, each with its bytes,
and the journal where one is expected. Rows of rights start it as nobody where the script runs as root, and rows of full
disks need that one may be mounted; where that isn't so, the row is skipped by name. It ends with 1 where a row came out
otherwise.

Gate: PROGRAM; 3 s
"""
import fcntl
import os
import pathlib
import resource
import shutil
import signal
import socket
import subprocess
import sys
import time

sys.path.insert(0, str(pathlib.Path(__file__).resolve().parents[1] / "lib"))

from journals import HEADER, Server, as_nobody, expect, files_of, refused, try_all, words
from served import ports_of

# The bytes of a journal without a record.
EMPTY = len(HEADER) + 32
TIMES = 40
DESCRIPTORS = 48
# Bytes of a journal with a few batches.
SMALL = 300


def only_the_journal_is_made(program, folder):
    with Server(program, folder) as server:
        expect("the answer", server.submit(), "PUBLISHED")
    made = folder / "journal"
    expect("whether it has a record", made.stat().st_size > EMPTY, True)
    expect("its names", made.stat().st_nlink, 1)
    made.unlink()


def other_names_are_left(program, folder):
    (folder / "journal.new").write_bytes(b"mine")
    (folder / "journal.new-1").write_bytes(b"mine too")
    (folder / "kept").write_bytes(b"kept")
    (folder / "journal.new-2").symlink_to("kept")
    before = files_of(folder)
    with Server(program, folder):
        pass
    expect("the journal", (folder / "journal").read_bytes()[: len(HEADER)], HEADER)
    (folder / "journal").unlink()
    expect("the files", files_of(folder), before)


def links_without_a_file_are_refused(program, folder):
    (folder / "journal").symlink_to("unmounted/journal")
    refused(program, folder, "it is a link to a file that isn't there")
    expect("the link", os.readlink(folder / "journal"), "unmounted/journal")


def links_to_a_journal_are_followed(program, folder):
    (folder / "journal").symlink_to("elsewhere")
    with Server(program, folder, "elsewhere"):
        pass
    with Server(program, folder) as server:
        expect("the answer", server.submit(), "PUBLISHED")
    expect("whether it has a record", (folder / "elsewhere").stat().st_size > EMPTY, True)


def an_empty_name_leaves_nothing(program, folder):
    before = files_of(folder)
    refused(program, folder, "it can't be read or written", journal="")
    expect("the files", files_of(folder), before)


def folders_that_are_missing_are_refused(program, folder):
    refused(program, folder, "it can't be read or written", journal="missing/journal", explained="error: the folder of the journal is missing\n")


def folders_are_refused(program, folder):
    (folder / "journal").mkdir()
    refused(program, folder, "it can't be read or written")


def rights_are_said(program, folder):
    (folder / "journal").write_bytes(b"")
    (folder / "journal").chmod(0o400)
    program, user = as_nobody(program, folder)
    refused(program, folder, "the program may not read and write it", user=user)
    (folder / "shut").mkdir(0o555)
    refused(program, folder, "the program may not read and write it", journal="shut/journal", user=user)


def full_disks_are_said(program, folder):
    disk = folder / "disk"
    disk.mkdir()
    if subprocess.run(["mount", "-t", "tmpfs", "-o", "size=4096,nr_inodes=8", "none", disk], capture_output=True).returncode != 0:
        return "no file system can be mounted"
    try:
        (disk / "filled").write_bytes(bytes(4096))
        refused(program, folder, "its disk is full", journal="disk/journal")
        expect("the files", list(files_of(disk)), ["filled"])
        subprocess.run(["mount", "-o", "remount,ro", disk], check=True)
        refused(program, folder, "its file system is read-only", journal="disk/journal")
    finally:
        subprocess.run(["umount", disk], check=True)
    return None


def removed_journals_fail(program, folder):
    with Server(program, folder) as server:
        expect("the first answer", server.submit(), "PUBLISHED")
        (folder / "journal").unlink()
        expect("the answer", server.submit(), "FAILED")
        expect("how it ended", server.ended(), (3, "fault journal journal: it was removed or replaced\n"))


def replaced_journals_fail(program, folder):
    with Server(program, folder) as server:
        expect("the first answer", server.submit(), "PUBLISHED")
        shutil.copy(folder / "journal", folder / "other")
        os.rename(folder / "other", folder / "journal")
        expect("the answer", server.submit(), "FAILED")
        expect("how it ended", server.ended(), (3, "fault journal journal: it was removed or replaced\n"))


def make_a_folder(path):
    path.mkdir()


def link_to_itself(path):
    path.symlink_to(path.name)


def make_what_nobody_may_open(path):
    path.write_bytes(b"")
    path.chmod(0)


def make_a_socket(path):
    with socket.socket(socket.AF_UNIX) as made:
        made.bind(str(path))


def make_what_another_program_locked(path):
    path.write_bytes(b"")
    make_what_another_program_locked.file = open(path, "rb+")
    fcntl.flock(make_what_another_program_locked.file, fcntl.LOCK_EX)


def what_took_the_path_of_a_journal_fails(program, folder):
    for take in (make_a_folder, link_to_itself, make_what_nobody_may_open, make_a_socket, make_what_another_program_locked):
        path = folder / "journal"
        with Server(program, folder) as server:
            expect("the first answer", server.submit(), "PUBLISHED")
            path.unlink()
            take(path)
            expect(f"the answer after {take.__name__}", server.submit(), "FAILED")
            expect("how it ended", server.ended(), (3, "fault journal journal: it was removed or replaced\n"))
        os.rmdir(path) if path.is_dir() else path.unlink()


def a_second_server_at_the_path_ends_the_first(program, folder):
    with Server(program, folder) as first:
        expect("the first answer", first.submit(), "PUBLISHED")
        (folder / "journal").unlink()
        with Server(program, folder) as second:
            expect("the answer of the second", second.submit(), "PUBLISHED")
            expect("the next answer of the first", first.submit(), "FAILED")
            expect("the next answer of the second", second.submit(), "PUBLISHED")


def one_server_has_a_journal(program, folder):
    with Server(program, folder) as server:
        for _ in range(TIMES):
            refused(program, folder, "another program has it")
        expect("the answer", server.submit(), "PUBLISHED")
    (folder / "journal").unlink()
    started = [subprocess.Popen(words(program, "journal"), cwd=folder, stdout=subprocess.PIPE, stderr=subprocess.PIPE) for _ in range(8)]
    listening = [process for process in started if ports_of(process.stdout.readline())]
    expect("how many serve", len(listening), 1)
    for process in started:
        process.kill()
        errors = process.communicate()[1]
        expect("what is said", errors, b"" if process in listening else b"fault journal journal: another program has it\n")
    expect("the files", sorted(files_of(folder)), ["journal", "map.map"])


def torn_records_are_said(program, folder):
    with Server(program, folder) as server:
        expect("the answer", server.submit(), "PUBLISHED")
    whole = (folder / "journal").read_bytes()
    line = "warning journal journal: a torn record of 7 bytes was cut off\n"
    for options, said in ((), ""), (("--log",), line), (("--explain",), line):
        (folder / "journal").write_bytes(whole + b"1234567")
        with Server(program, folder, options=options) as server:
            server.process.terminate()
            errors = "".join(text for text in server.ended()[1].splitlines(True) if "journal" in text)
        expect(f"what is said with {options}", errors, said)
        expect("the journal", (folder / "journal").read_bytes(), whole)


def few_descriptors():
    resource.setrlimit(resource.RLIMIT_NOFILE, (DESCRIPTORS, DESCRIPTORS))


def small_files():
    signal.signal(signal.SIGXFSZ, signal.SIG_IGN)
    resource.setrlimit(resource.RLIMIT_FSIZE, (SMALL, SMALL))


def a_limit_of_file_size_fails_a_batch(program, folder):
    with Server(program, folder, preexec_fn=small_files) as server:
        answers = [server.submit()]
        while answers[-1] == "PUBLISHED" and len(answers) < SMALL:
            answers.append(server.submit())
        expect("the first answer", answers[0], "PUBLISHED")
        expect("the last answer", answers[-1], "FAILED")
        expect("how it ended", server.ended(), (3, "fault journal journal: it can't be read or written\n"))
    with Server(program, folder) as server:
        expect("the answer without the limit", server.submit(), "PUBLISHED")


def batches_are_kept_where_clients_take_every_descriptor(program, folder):
    with Server(program, folder, preexec_fn=few_descriptors) as server:
        held = [socket.create_connection(("127.0.0.1", server.clients)) for _ in range(2 * DESCRIPTORS)]
        for connection in held:
            connection.sendall(b"GET ")
        time.sleep(1)
        expect("how many descriptors it has", len(os.listdir(f"/proc/{server.process.pid}/fd")) >= DESCRIPTORS - 2, True)
        for _ in range(3):
            expect("the answer", server.submit(), "PUBLISHED")
        for connection in held:
            connection.close()


ROWS = [
    only_the_journal_is_made,
    other_names_are_left,
    links_without_a_file_are_refused,
    links_to_a_journal_are_followed,
    an_empty_name_leaves_nothing,
    folders_that_are_missing_are_refused,
    folders_are_refused,
    rights_are_said,
    full_disks_are_said,
    removed_journals_fail,
    replaced_journals_fail,
    what_took_the_path_of_a_journal_fails,
    a_second_server_at_the_path_ends_the_first,
    one_server_has_a_journal,
    torn_records_are_said,
    a_limit_of_file_size_fails_a_batch,
    batches_are_kept_where_clients_take_every_descriptor,
]


def main():
    if len(sys.argv) != 2:
        sys.exit("usage: journal_paths.py PROGRAM")
    try_all(sys.argv[1], ROWS)


if __name__ == "__main__":
    main()
