#!/usr/bin/python3
"""Which crates demo/build builds, in which order, and when it builds nothing."""
import contextlib
import io
import os
import pathlib
import shutil
import sys
import tempfile
import unittest
from unittest import mock

sys.path.insert(0, str(pathlib.Path(__file__).resolve().parents[1] / "lib"))

import loading

build = loading.script("demo/build")
# which demo/build has on the path of its modules
import sources
CRATES = """# Ground
base: thiserror
apart: base
# Text: and numbers
middle: base hex
side: base
tests: middle
mapservd: middle side clap
above: mapservd
"""


class Sources(unittest.TestCase):
    def setUp(self):
        folder = tempfile.TemporaryDirectory()
        self.addCleanup(folder.cleanup)
        self.top = folder.name
        built = os.path.join(self.top, "crates", "mapservd", "out", "mapservd")
        given = ((sources, "TOP", self.top), (build, "OUT", os.path.join(self.top, "demo", "out")), (sources, "BUILT", built), (sources, "DIGEST", built + ".sources"))
        for module, name, value in given:
            patch = mock.patch.object(module, name, value)
            patch.start()
            self.addCleanup(patch.stop)
        self.write("crates.txt", CRATES)
        self.write("HANDLES", "none")
        for name, size in (("base", 10), ("middle", 40), ("side", 50), ("mapservd", 5), ("apart", 1000), ("tests", 1000)):
            self.write(f"crates/{name}/src/lib.rt", "x" * size)

    def write(self, path, text):
        path = os.path.join(self.top, path)
        os.makedirs(os.path.dirname(path), exist_ok=True)
        with open(path, "w", encoding="utf-8") as file:
            file.write(text)
        return path

    def digest(self):
        return sources.digest_of(sources.crates())


class Crates(Sources):
    def test_those_that_the_program_stands_on_are_found(self):
        self.assertEqual(sources.crates(), {"base": [], "middle": ["base"], "side": ["base"], "mapservd": ["middle", "side"]})

    def test_a_chain_weighs_what_stands_above_it_too(self):
        self.write("crates/side/specs/S.antt", "x" * 7)
        self.write("crates/side/proofs/P.antt", "x" * 3)
        self.write("crates/side/must-fail/a.edit", "x" * 900)
        self.assertEqual(build.chains(sources.crates()), {"mapservd": 5, "side": 65, "middle": 45, "base": 75})

    def test_a_copy_has_the_sources_of_these_alone(self):
        self.write("crates/side/out/kept", "x")
        self.write("crates/side/must-fail/a.edit", "x")
        folder = os.path.join(self.top, "copy")
        build.copy(sources.crates(), folder)
        with open(os.path.join(folder, "crates.txt"), encoding="utf-8") as file:
            self.assertEqual([line.partition(":")[0] for line in file], ["base", "middle", "side", "mapservd"])
        self.assertEqual(sorted(os.listdir(os.path.join(folder, "crates"))), ["base", "mapservd", "middle", "side"])
        self.assertEqual(os.listdir(os.path.join(folder, "crates", "side")), ["src"])

    def test_a_copy_that_stays_has_the_sources_of_today_and_what_rt_keeps(self):
        folder = os.path.join(self.top, "copy")
        self.write("crates/side/src/old.rt", "x")
        self.write("crates/mapservd/stdin", "a session")
        build.copy(sources.crates(), folder)
        kept = self.write("copy/crates/side/out/incremental/a", "kept")
        os.remove(os.path.join(self.top, "crates/side/src/old.rt"))
        self.write("crates/side/src/new.rt", "y")
        self.write("crates/mapservd/stdin", "another")
        build.copy(sources.crates(), folder)
        self.assertEqual(sorted(os.listdir(os.path.join(folder, "crates/side/src"))), ["lib.rt", "new.rt"])
        with open(os.path.join(folder, "crates/mapservd/stdin"), encoding="utf-8") as file:
            self.assertEqual(file.read(), "another")
        with open(kept, encoding="utf-8") as file:
            self.assertEqual(file.read(), "kept")


class Digests(Sources):
    def test_it_is_of_names_and_bytes(self):
        seen = [self.digest()]
        changes = [("crates/base/src/lib.rt", "y" * 10), ("crates/base/src/new.rt", ""), ("crates/side/proofs/P.antt", "x"), ("HANDLES", "some"), ("crates.txt", CRATES + "# end\n")]
        for path, text in changes:
            self.write(path, text)
            seen.append(self.digest())
        os.rename(os.path.join(self.top, "crates/base/src/new.rt"), os.path.join(self.top, "crates/base/src/newer.rt"))
        seen.append(self.digest())
        self.assertEqual(len(set(seen)), len(seen))

    def test_what_the_program_is_not_made_of_is_not_in_it(self):
        before = self.digest()
        for path in ("crates/base/out/kept", "crates/base/must-fail/a.edit", "crates/apart/src/lib.rt", "demo/world.map"):
            self.write(path, "other")
        os.utime(os.path.join(self.top, "crates/base/src/lib.rt"), (1, 1))
        self.assertEqual(self.digest(), before)

    def test_it_says_whether_the_program_is_built(self):
        below = sources.crates()
        self.assertFalse(sources.is_built(below))
        os.chmod(self.write("crates/mapservd/out/mapservd", "program"), 0o755)
        self.assertFalse(sources.is_built(below))
        self.write("crates/mapservd/out/mapservd.sources", self.digest() + "\n")
        self.assertTrue(sources.is_built(below))
        self.write("crates/base/src/lib.rt", "changed")
        self.assertFalse(sources.is_built(below))


class Statements(Sources):
    def prove(self, script):
        """What is said of a run of rt that is played by a script, and whether it proved all."""
        rt = self.write("bin/rt", f"#!/bin/sh\n{script}\n")
        os.chmod(rt, 0o755)
        with mock.patch.dict(os.environ, {"PATH": os.path.dirname(rt) + ":" + os.environ["PATH"], "RT_JOBS": "1"}):
            with contextlib.redirect_stdout(io.StringIO()) as said:
                os.makedirs(build.OUT)
                failed = build.build_by_statements(sources.crates())
        return said.getvalue().splitlines(), failed

    def test_each_crate_that_is_done_is_named_and_the_program_is_taken(self):
        said, failed = self.prove("""[ -z "$RT_JOBS" ] || exit 1
echo "base proved"; echo "rt: side is kept: an earlier run proved it"; echo "fn a::b: proved"
mkdir -p crates/mapservd/out; echo built > crates/mapservd/out/mapservd""")
        self.assertEqual((said, failed), (["1 of 4: base", "2 of 4: side, proved before"], None))
        with open(sources.BUILT, encoding="utf-8") as file:
            self.assertEqual(file.read(), "built\n")

    def test_a_program_that_runs_stays_as_it_is(self):
        self.write("crates/mapservd/out/mapservd", "old")
        with open(sources.BUILT, encoding="utf-8") as running:
            self.prove("mkdir -p crates/mapservd/out; echo built > crates/mapservd/out/mapservd")
            self.assertEqual(running.read(), "old")
        self.assertEqual(os.listdir(os.path.dirname(sources.BUILT)), ["mapservd"])

    def test_what_rt_wrote_is_kept_where_it_fails(self):
        said, failed = self.prove("echo refused; exit 1")
        self.assertEqual(said, [])
        with open(failed, encoding="utf-8") as file:
            self.assertEqual(file.read(), "refused\n")
        self.assertFalse(os.path.exists(sources.BUILT))
        self.assertEqual(os.listdir(build.OUT), ["log"])


class Orders(Sources):
    def building(self, fails=()):
        """The order in which one job builds, and the log of the crate that failed."""
        building, order = build.Building(sources.crates(), [self.top]), []

        def one(name, folder):
            order.append(name)
            return f"log.{name}" if name in fails else None

        with mock.patch.object(building, "build", one), contextlib.redirect_stdout(io.StringIO()) as said:
            building.run()
        return order, building.failed, said.getvalue().splitlines()

    def test_the_heaviest_chain_of_those_that_can_be_built_comes_first(self):
        order, failed, said = self.building()
        self.assertEqual((order, failed), (["base", "side", "middle", "mapservd"], None))
        self.assertEqual([line.split(",")[0] for line in said], ["1 of 4: base", "2 of 4: side", "3 of 4: middle", "4 of 4: mapservd"])

    def test_after_one_that_fails_none_is_begun(self):
        self.assertEqual(self.building(["side"])[:2], (["base", "side"], "log.side"))

    def test_the_time_that_is_left_is_by_what_was_built(self):
        building = build.Building(sources.crates(), [self.top])
        with mock.patch.object(build.time, "time", lambda: building.begun + 600):
            self.assertEqual(building.time_left(), "")
            # 10 of 105 bytes are less than a tenth, 55 of them took ten minutes
            building.done = {"base"}
            self.assertEqual(building.time_left(), "")
            building.done = {"mapservd", "side"}
            self.assertEqual(building.time_left(), ", some 9 minutes left")
            building.done = {"base", "middle", "side"}
            self.assertEqual(building.time_left(), ", a minute left")

    def test_a_library_is_linked_for_the_other_jobs(self):
        other = os.path.join(self.top, "other")
        building = build.Building(sources.crates(), [self.top, other])
        kept = self.write("other/crates/base/out/rlib/a/b", "x")
        self.write("crates/base/out/rlib/older", "x")
        building.hand_on("base", other)
        self.assertTrue(os.path.samefile(kept, os.path.join(self.top, "crates/base/out/rlib/a/b")))
        self.assertEqual(os.listdir(os.path.join(self.top, "crates/base/out/rlib")), ["a"])
        shutil.rmtree(other)


if __name__ == "__main__":
    unittest.main()
