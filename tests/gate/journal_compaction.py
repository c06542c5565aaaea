#!/usr/bin/env python3
"""Tries when a journal is compacted by `--checkpoint`, what keeps it from that, and by which line it is said.

Usage: journal_compaction.py PROGRAM

Each row starts the program in a folder of its own. Rows of rights start it as nobody where the script runs as root, rows
of full disks and of files that are mounted by themselves need that this is allowed, and rows of calls that report another
result than theirs need cc; where that isn't so, the row is skipped by name. It ends with 1 where a row came out otherwise.

Gate: PROGRAM; 6 s
"""
import pathlib
import shutil
import subprocess
import sys

sys.path.insert(0, str(pathlib.Path(__file__).resolve().parents[1] / "lib"))

from journals import BIG, DUE, Server, as_nobody, big, expect, refused, try_all
from preloaded import built

# The names of a new file beside a journal.
NAMES = 1_000


def uncompacted(cause):
    return f"warning journal journal: it isn't compacted: {cause}"


def are_kept_by_three_servers(program, folder, cause, user=None):
    """That batches are published by one server after the other, each of which may not compact the journal that is due, and says so once."""
    sequence = 0
    for _ in range(3):
        with Server(program, folder, options=("--checkpoint", "1", "--explain"), user=user) as server:
            for _ in range(DUE + 2):
                sequence += 1
                expect("the answer", str(server.answer(big(sequence))), f"PUBLISHED {sequence}")
            expect("what is said", server.warnings(), [uncompacted(cause)])
    expect("whether it has all batches", (folder / "journal").stat().st_size > sequence * BIG, True)
    expect("the new files", [path.name for path in folder.glob("journal.new*")], [])


def a_mounted_journal_is_served_on(program, folder):
    with Server(program, folder):
        pass
    (folder / "journal").rename(folder / "mounted")
    (folder / "journal").write_bytes(b"")
    if subprocess.run(["mount", "--bind", folder / "mounted", folder / "journal"], capture_output=True).returncode != 0:
        return "no file can be mounted"
    try:
        are_kept_by_three_servers(program, folder, "it is mounted by itself")
    finally:
        subprocess.run(["umount", folder / "journal"], check=True)
    return None


def the_journal_of_another_user_in_a_sticky_folder_is_served_on(program, folder):
    program, user = as_nobody(program, folder)
    if user is None:
        return "it doesn't run as root"
    with Server(program, folder):
        pass
    (folder / "journal").chmod(0o666)
    folder.chmod(0o1777)
    are_kept_by_three_servers(program, folder, "the program may not make or rename files in its folder", user)
    return None


def make_a_link(folder):
    (folder / "journal").rename(folder / "elsewhere")
    (folder / "journal").symlink_to("elsewhere")


def take_every_name(folder):
    for number in range(1, NAMES + 1):
        (folder / f"journal.new-{number}").write_bytes(b"")


def shut_the_folder(folder):
    (folder / "journal").chmod(0o666)
    folder.chmod(0o555)


def journals_that_are_not_compacted_are_said(program, folder):
    program, user = as_nobody(program, folder)
    causes = [(make_a_link, "its path is a symbolic link"), (take_every_name, "each name of a new file is taken, up to .new-1000")]
    if user is not None:
        causes.append((shut_the_folder, "the program may not make or rename files in its folder"))
    folder.chmod(0o777)
    for change, cause in causes:
        for options, times in (((), 0), (("--log",), 2), (("--explain",), 2)):
            with Server(program, folder, user=user):
                pass
            change(folder)
            with Server(program, folder, options=("--checkpoint", "1", *options), user=user) as server:
                for number in range(1, 2 * DUE + 2):
                    expect("the answer", str(server.answer(big(number))), f"PUBLISHED {number}")
                expect(f"what is said with {options}", server.warnings(), [uncompacted(cause)] * times)
            folder.chmod(0o777)
            for path in folder.glob("journal*"):
                path.unlink()
            (folder / "elsewhere").unlink(missing_ok=True)
    return None


def a_rename_that_may_be_done_fails_a_batch(program, folder):
    if shutil.which("cc") is None:
        return "no cc"
    library = built("journal_compaction", folder)
    for call in ("rename", "fsync"):
        env = {"LD_PRELOAD": library, "FAILING": call}
        with Server(program, folder, options=("--checkpoint", "1"), env=env) as server:
            for number in range(1, DUE):
                expect("the answer", str(server.answer(big(number))), f"PUBLISHED {number}")
            expect(f"the answer after a {call} that failed", str(server.answer(big(DUE))), "FAILED")
            expect("how it ended", server.ended(), (3, "fault journal journal: it can't be read or written\n"))
        with Server(program, folder) as server:
            expect("the next answer", str(server.answer(b"OFF a\n")), f"PUBLISHED {DUE + 1}")
        (folder / "journal").unlink()
    return None


def a_start_compacts_a_journal_that_is_due(program, folder):
    with Server(program, folder) as server:
        for number in range(1, DUE + 1):
            expect("the answer", str(server.answer(big(number))), f"PUBLISHED {number}")
    with Server(program, folder, options=("--checkpoint", "1")) as server:
        expect("whether one batch is left of it", BIG < (folder / "journal").stat().st_size < 2 * BIG, True)
        expect("the answer", str(server.answer(b"OFF a\n")), f"PUBLISHED {DUE + 1}")


def a_compacted_journal_is_locked_and_keeps_its_rights(program, folder):
    """That the new file has the rights of the old one, and that no other server gets it."""
    with Server(program, folder):
        pass
    journal = folder / "journal"
    journal.chmod(0o640)
    with Server(program, folder, options=("--checkpoint", "1")) as server:
        for number in range(1, DUE + 1):
            expect("the answer", str(server.answer(big(number))), f"PUBLISHED {number}")
        expect("whether one batch is left of it", BIG < journal.stat().st_size < 2 * BIG, True)
        expect("its rights", oct(journal.stat().st_mode & 0o777), "0o640")
        refused(program, folder, "another program has it")
        expect("the next answer", str(server.answer(b"OFF a\n")), f"PUBLISHED {DUE + 1}")


def a_start_makes_room_on_a_full_disk(program, folder):
    disk = folder / "disk"
    disk.mkdir()
    if subprocess.run(["mount", "-t", "tmpfs", "-o", f"size={DUE * BIG + BIG // 2}", "none", disk], capture_output=True).returncode != 0:
        return "no file system can be mounted"
    try:
        full = (3, "fault journal disk/journal: its disk is full\n")
        with Server(program, folder, "disk/journal") as server:
            for number in range(1, DUE + 1):
                expect("the answer", str(server.answer(big(number))), f"PUBLISHED {number}")
            expect("the answer to CLEAR", str(server.answer(b"CLEAR a\n")), f"PUBLISHED {DUE + 1}")
            expect("the answer on a full disk", server.answer(big(0)).word, "FAILED")
            expect("how it ended", server.ended(), full)
        with Server(program, folder, "disk/journal", options=("--checkpoint", "1")) as server:
            expect("the next answer", str(server.answer(big(0))), f"PUBLISHED {DUE + 2}")
    finally:
        subprocess.run(["umount", disk], check=True)
    return None


ROWS = [
    a_mounted_journal_is_served_on,
    the_journal_of_another_user_in_a_sticky_folder_is_served_on,
    journals_that_are_not_compacted_are_said,
    a_rename_that_may_be_done_fails_a_batch,
    a_start_compacts_a_journal_that_is_due,
    a_compacted_journal_is_locked_and_keeps_its_rights,
    a_start_makes_room_on_a_full_disk,
]


def main():
    if len(sys.argv) != 2:
        sys.exit("usage: journal_compaction.py PROGRAM")
    try_all(sys.argv[1], ROWS)


if __name__ == "__main__":
    main()
