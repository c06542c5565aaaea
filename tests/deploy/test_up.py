#!/usr/bin/python3
"""What deploy/up decides before it starts something, and which configuration it writes for nginx."""
import os
import pathlib
import select
import signal
import socket
import subprocess
import sys
import tempfile
import unittest
from types import SimpleNamespace
from unittest import mock

sys.path.insert(0, str(pathlib.Path(__file__).resolve().parents[1] / "lib"))

import loading

up = loading.script("deploy/up")
import started


def program(folder, name, words):
    """The path of a script of the shell."""
    path = os.path.join(folder, name)
    with open(path, "w", encoding="ascii") as file:
        file.write(f"#!/bin/sh\n{words}\n")
    os.chmod(path, 0o755)
    return path


class Configurations(unittest.TestCase):
    def written(self, port, server, formats, offers=False):
        """The ports of the configuration: where it listens, and where the server and formats are; and its line for PNG."""
        with tempfile.TemporaryDirectory() as folder, mock.patch.object(up, "offers_png", lambda port: offers):
            up.Up(SimpleNamespace(port=port), pathlib.Path(folder)).write_configuration(server, formats)
            lines = [line.strip() for line in pathlib.Path(folder, "nginx.conf").read_text(encoding="utf-8").splitlines()]
        listens = [line for line in lines if line.startswith("listen 127.0.0.1:")]
        places = {name: lines[at + 1 :][: lines[at:].index("}")] for at, line in enumerate(lines) for name in ("kesmoch", "formats") if line == f"upstream {name} {{"}
        servers = [next(line for line in places[name] if line.startswith("server ")).split()[1].rstrip(";") for name in ("kesmoch", "formats")]
        return listens, servers, up.OWN_PNG in lines

    def test_each_port_stands_where_it_is_meant(self):
        # also where one has the number that another has in the file
        for port, server, formats in ((8000, 40001, 40002), (8123, 40001, 40002), (8080, 40001, 40002), (8070, 40001, 40002), (8001, 8070, 8000), (8001, 8000, 8080)):
            listens, servers, _ = self.written(port, server, formats)
            self.assertEqual(listens[0], f"listen 127.0.0.1:{port};")
            self.assertEqual(servers, [f"127.0.0.1:{server}", f"127.0.0.1:{formats}"])

    def test_png_is_the_servers_own_where_the_map_offers_it(self):
        self.assertEqual([self.written(8000, 1, 2, offers)[2] for offers in (False, True)], [False, True])


class Formats(unittest.TestCase):
    def started(self, sleeping, patience):
        """What clients are sent to where formats is a process that listens on nothing, whether it is kept, and what became of it."""
        with tempfile.TemporaryDirectory() as folder, mock.patch.object(up, "HERE", pathlib.Path(folder)), mock.patch.object(started, "PATIENCE", patience), \
                mock.patch.object(up.shutil, "which", lambda name: name), mock.patch("sys.stderr"):
            program(folder, "formats", f"exec sleep {sleeping}")
            one, made = up.Served(None, pathlib.Path(folder)), []
            one.port = 40001
            with mock.patch.object(up, "Process", lambda *given, **more: made.append(started.Process(*given, **more)) or made[0]):
                return one.start_formats(), one.formats, made[0].popen.wait(10)

    def test_formats_that_do_not_listen_are_ended(self):
        self.assertEqual(self.started(30, 0.3), (40001, None, -15))

    def test_formats_that_ended_are_left_out(self):
        self.assertEqual(self.started(0, 20), (40001, None, 0))


class Servers(unittest.TestCase):
    def test_what_the_server_is_started_with(self):
        options = up.options_of(["m.map", "--program", "/bin/sh", "--workers", "7"])
        self.assertEqual(up.Served(options, None).words_of_server(), ["/bin/sh", "serve", "--explain", "m.map", "--port", 0, "--admin-port", 0, "--workers", 7, "--until-input-ends"])
        options.journal = "a.journal"
        self.assertEqual(up.Served(options, None).words_of_server()[-2:], ["--journal", "a.journal"])

    def test_a_server_that_ends_is_missing(self):
        with tempfile.TemporaryDirectory() as folder:
            options = up.options_of(["m.map", "--program", program(folder, "mapservd", "exit 3")])
            one = up.Served(options, pathlib.Path(folder))
            with self.assertRaisesRegex(up.Missing, "mapservd ended with 3"), mock.patch.object(up, "say"):
                one.begin()
            one.end()
            one.server.popen.stdout.close()

    def test_it_ends_with_its_input(self):
        with tempfile.TemporaryDirectory() as folder, mock.patch.object(up.shutil, "which", lambda name: None), mock.patch.object(up, "warn"):
            words = 'echo "listening 127.0.0.1:40001 127.0.0.1:40002"; cat > "$0.read"; exit 5'
            one = up.Served(up.options_of(["m.map", "--program", program(folder, "mapservd", words)]), pathlib.Path(folder))
            with mock.patch.object(up, "say") as say:
                one.begin()
            self.assertEqual((one.port, one.admin, one.formats_port, [process.name for process in one.running()]), (40001, 40002, 40001, ["mapservd"]))
            self.assertEqual([call.args[0] for call in say.call_args_list], ["mapservd reads m.map", "mapservd serves it on port 40001, and takes batches on port 40002"])
            self.assertIsNone(one.server.status())
            one.end()
            self.assertEqual(one.server.status(), 5)
            one.server.popen.stdout.close()


class Beginnings(unittest.TestCase):
    """In which order all is started, and what is printed meanwhile."""

    def begun(self):
        """What is done and printed, in its order. Of what is printed only that counts which goes out at once."""
        with tempfile.TemporaryDirectory() as folder:
            notes, one = [], up.Up(SimpleNamespace(mapfile="m.map", journal=None, port=1, viewer=False), pathlib.Path(folder))
            nginx = SimpleNamespace(until_listening=lambda port: notes.append(f"listens {port}"))
            patches = {
                "Served": lambda options, folder: Played(notes, 10), "is_taken": lambda port: False, "Legend": lambda mapfile, path: notes.append("legend"),
                "Process": lambda name, *words: notes.append(name) or nginx,
            }
            with mock.patch.multiple(up, **patches), mock.patch.object(up.shutil, "which", lambda name, path=None: name), \
                    mock.patch.object(one, "write_configuration", lambda *ports: notes.append("configure")), \
                    mock.patch("builtins.print", lambda words, flush=False: notes.append(words.split()[0]) if flush else None):
                one.begin()
            return notes

    def test_each_step_is_printed_at_once_and_the_map_is_served_before_its_legend_is_made(self):
        self.assertEqual(self.begun(), ["begin 10", "configure", "nginx", "listens 1", "http://127.0.0.1:1/", "a", "batches:", "legend"])


class Processes(unittest.TestCase):
    def test_the_children_of_a_process_are_waited_for(self):
        with tempfile.TemporaryDirectory() as folder:
            process = started.Process("sh", [program(folder, "parent", "sleep 30 & sleep 31 & echo; wait")], stdout=subprocess.PIPE)
            process.popen.stdout.readline()
            children = started.children_of(process)
            self.assertEqual(len(children), 2)
            with mock.patch.object(started, "PATIENCE", 0.2):
                self.assertFalse(started.until_gone(process, children))
                for child in children:
                    os.kill(int(child), 9)
                self.assertTrue(started.until_gone(process, children))
            process.end()
            process.popen.stdout.close()

    def test_one_that_does_not_end_is_killed_with_what_it_started(self):
        with tempfile.TemporaryDirectory() as folder, mock.patch.object(started, "PATIENCE", 0.3), mock.patch("builtins.print"):
            process = started.Process("sh", [program(folder, "parent", "trap '' TERM; sleep 30 & echo; wait; wait")], stdout=subprocess.PIPE)
            process.popen.stdout.readline()
            process.end()
            # its output is at its end, as nobody holds it open
            self.assertEqual((process.status(), len(select.select([process.popen.stdout], [], [], 5)[0])), (-9, 1))
            process.popen.stdout.close()

    def test_each_ends_by_its_signal(self):
        with tempfile.TemporaryDirectory() as folder:
            words = [program(folder, "parent", "trap 'exit 4' QUIT; trap 'exit 5' TERM; echo; while :; do sleep 0.05; done")]
            for given, status in (({}, 5), ({"quits": signal.SIGQUIT}, 4)):
                process = started.Process("sh", words, stdout=subprocess.PIPE, **given)
                process.popen.stdout.readline()
                process.end()
                self.assertEqual(process.status(), status)
                process.popen.stdout.close()


class Played:
    """A mapfile that is served, in play: it notes what becomes of it."""

    def __init__(self, notes, port, fault=None):
        self.notes, self.port, self.admin, self.formats_port, self.fault = notes, port, port + 1, port + 2, fault

    def begin(self):
        self.notes.append(f"begin {self.port}")
        if self.fault:
            raise up.Missing(self.fault)

    def end(self):
        self.notes.append(f"end {self.port}")


class Changes(unittest.TestCase):
    """How a changed mapfile is served."""

    def changed(self, fault=None, journal=None, is_gone=True, empties=None):
        """What happens, in its order, and the port that is served then."""
        notes = []
        one = up.Up(SimpleNamespace(mapfile="m.map", journal=journal, port=1), pathlib.Path("/nowhere"))
        one.served, one.nginx = Played(notes, 10), SimpleNamespace()
        patches = {
            "Served": lambda options, folder: Played(notes, 20, fault), "children_of": lambda process: notes.append("children") or {"7"}, "say": mock.Mock(),
            "until_gone": lambda process, before: notes.append(f"until {before} are gone") or is_gone, "warn": lambda words: notes.append(f"warn: {str(words)[:24]}"),
            "Legend": lambda mapfile, path: notes.append("legend"),
        }
        for name, value in patches.items():
            patch = mock.patch.object(up, name, value)
            patch.start()
            self.addCleanup(patch.stop)
        run = mock.Mock(side_effect=empties or (lambda *given, **more: notes.append("empty-cache")))
        with mock.patch.object(one, "write_configuration", lambda *ports: notes.append(f"configure {ports}")), mock.patch.object(up.subprocess, "run", run):
            try:
                one.change()
            except up.subprocess.CalledProcessError:
                notes.append("failed")
        return notes, one.served.port

    def test_the_second_takes_all_requests_before_the_first_ends(self):
        steps = ["begin 20", "configure (20, 22)", "children", "empty-cache", "until {'7'} are gone", "end 10", "legend"]
        self.assertEqual(self.changed(), (steps, 20))
        self.assertEqual(self.changed(is_gone=False)[0][-3:], ["warn: answers that take more t", "end 10", "legend"])

    def test_a_mapfile_with_a_fault_changes_nothing(self):
        self.assertEqual(self.changed("mapservd ended with 1"), (["begin 20", "warn: the map stays as it is: ", "end 20"], 10))

    def test_with_a_journal_nothing_changes(self):
        self.assertEqual(self.changed(journal="a.journal"), (["warn: the map stays as it is: "], 10))

    def test_the_first_ends_whatever_becomes_of_the_proxy(self):
        self.assertEqual(self.changed(empties=up.subprocess.CalledProcessError(1, "empty-cache"))[0][-2:], ["end 10", "failed"])

    def test_a_signal_asks_for_one_change(self):
        one = up.Up(SimpleNamespace(), None)
        one.served, one.nginx, one.is_changed = SimpleNamespace(running=lambda: []), SimpleNamespace(status=lambda: None), True
        with mock.patch.object(one, "change") as change, mock.patch.object(up.time, "sleep", mock.Mock(side_effect=[None, None, KeyboardInterrupt])):
            with self.assertRaises(KeyboardInterrupt):
                one.wait()
        self.assertEqual(change.call_count, 1)


class Legends(unittest.TestCase):
    def test_it_is_made_beside_and_put_in_its_place_whole(self):
        with tempfile.TemporaryDirectory() as folder, mock.patch.object(up, "HERE", pathlib.Path(folder)):
            program(folder, "legend", "echo '{'; read go < fifo; echo '}'; exit $go")
            fifo, path = os.path.join(folder, "fifo"), pathlib.Path(folder, "legend.json")
            os.mkfifo(fifo)
            for status, text in ((0, "{\n}\n"), (2, None)):
                path.unlink(missing_ok=True)
                with mock.patch.object(up, "Process", lambda name, words, **more: started.Process(name, words, cwd=folder, **more)):
                    legend = up.Legend("m.map", path)
                self.assertEqual((legend.look(), path.exists()), (True, False))
                with open(fifo, "w", encoding="ascii") as file:
                    file.write(f"{status}\n")
                legend.process.popen.wait(10)
                with mock.patch.object(up, "say") as say, mock.patch.object(up, "warn") as warn:
                    self.assertFalse(legend.look())
                self.assertEqual((path.read_text() if path.exists() else None, say.call_count, warn.call_count), (text, status == 0, status != 0))


class Checks(unittest.TestCase):
    def test_a_program_that_is_not_built_is_missing(self):
        with tempfile.TemporaryDirectory() as folder:
            path = os.path.join(folder, "mapservd")
            with self.assertRaises(up.Missing):
                up.program_of(SimpleNamespace(program=path))
            program(folder, "mapservd", "exit 0")
            self.assertEqual(up.program_of(SimpleNamespace(program=path)), path)

    def test_a_port_is_taken_while_something_listens(self):
        with socket.create_server(("127.0.0.1", 0)) as listener:
            port = listener.getsockname()[1]
            self.assertTrue(up.is_taken(port))
        self.assertFalse(up.is_taken(port))
        self.assertTrue(up.is_taken(65_536))

    def test_the_first_path_that_is_there_is_taken(self):
        with tempfile.NamedTemporaryFile() as file:
            self.assertEqual(up.first([pathlib.Path(file.name + ".missing"), pathlib.Path(file.name)], "x"), pathlib.Path(file.name))
        with self.assertRaises(up.Missing):
            up.first([pathlib.Path(file.name)], "x")


if __name__ == "__main__":
    unittest.main()
