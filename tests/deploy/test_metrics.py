#!/usr/bin/python3
"""What deploy/metrics counts of the lines of the log, by "Log" of docs/SERVICE.md, with a stand-in for the client of Prometheus."""
import collections
import pathlib
import sys
import tempfile
import unittest
from types import SimpleNamespace
from unittest import mock

sys.path.insert(0, str(pathlib.Path(__file__).resolve().parents[1] / "lib"))

import loading

metrics = loading.script("deploy/metrics")


class Number:
    """A counter or a histogram: what was added, by labels."""

    def __init__(self, name, words, labels=(), registry=None, buckets=None):
        self.name, self.words, self.names, self.added = name, words, labels, collections.Counter()
        registry[name] = self

    def labels(self, *values):
        assert len(values) == len(self.names), values
        return SimpleNamespace(inc=lambda: self.add(values, 1), observe=lambda seconds: self.add(values, seconds))

    def inc(self, count=1):
        self.add((), count)

    def add(self, values, count):
        if count:
            self.added[values] += count


def counted(*lines):
    registry = {}
    counts = metrics.Counted(SimpleNamespace(Counter=Number, Histogram=Number), registry)
    for line in lines:
        counts.take(line)
    return {name.removeprefix("kesmoch_"): dict(number.added) for name, number in registry.items() if number.added}


class Lines(unittest.TestCase):
    def test_an_answer_counts_its_request_its_bytes_and_its_seconds(self):
        found = counted('answer 7 "/wms?VERSION=1.3.0&REQUEST=GetMap&LAYERS=a" 200 30500 250\n', 'answer 12 "/wms?request=GetCapabilities" 200 4000 2000\n')
        self.assertEqual(found, {
            "requests": {("200", "GetMap"): 1, ("200", "GetCapabilities"): 1}, "answer_bytes": {(): 34500},
            "request_seconds": {("GetMap",): 0.25, ("GetCapabilities",): 2.0},
        })

    def test_other_targets_are_other_requests(self):
        for target in ("", "/", "/wms?REQUEST=GetMaps", "/wms?XREQUEST=GetMap", "/wms?LAYERS=REQUEST=GetMap", "/wms?REQUEST=getmap", "/wms?REQUEST=gEtCaPaBiLiTiEs"):
            self.assertEqual(counted(f'answer 1 "{target}" 400 90 1')["requests"], {("400", "other"): 1}, target)

    def test_names_of_parameters_are_read_in_either_case(self):
        self.assertEqual(counted('answer 1 "/wms?rEqUeSt=GetFeatureInfo&X=1" 200 90 1')["requests"], {("200", "GetFeatureInfo"): 1})

    def test_busy_answers_are_counted_besides(self):
        self.assertEqual(counted('answer 1 "" 503 90 1', 'answer 1 "" 200 90 1')["busy"], {(): 1})

    def test_each_other_line_has_its_number(self):
        found = counted("end 3 rate", "end 4 rate", "end 5 idle", "batch 2 PUBLISHED 9", "batch 2 REFUSED 1 2", "dropped 40", "dropped 2")
        self.assertEqual(found, {
            "connections_cut": {("rate",): 2, ("idle",): 1}, "batches": {("PUBLISHED",): 1, ("REFUSED",): 1}, "log_lines_dropped": {(): 42},
        })

    def test_lines_of_others_count_nothing(self):
        self.assertEqual(counted("listening 127.0.0.1:8080", "x answer 1 \"\" 200 1 1", "answer 1 \"/\" 20 1 1", ""), {})


class Connections(unittest.TestCase):
    def test_established_ones_of_the_servers_port_are_counted(self):
        # 8080 is 1F90; behind the local address and the remote one stands the state, 01 for established
        rows = """  sl  local_address rem_address   st tx_queue
   0: 0100007F:1F90 00000000:0000 0A 0
   1: 0100007F:1F90 0100007F:C001 01 0
   2: 0100007F:C001 0100007F:1F90 01 0
   3: 0A00000A:1F90 0100007F:C002 01 0
   4: 0100007F:1F90 0100007F:C003 06 0
   5: 0100007F:1F91 0100007F:C004 01 0
"""
        with tempfile.NamedTemporaryFile("w+") as file:
            file.write(rows)
            file.flush()
            given = open(file.name, encoding="ascii")
            with mock.patch("builtins.open", return_value=given):
                self.assertEqual(metrics.connections_at(8080), 2)

    def test_a_server_without_an_answer_has_no_sequence(self):
        self.assertIsNone(metrics.sequence_of("http://127.0.0.1:1/wms"))

    def test_the_port_is_that_of_the_address(self):
        self.assertEqual([metrics.Asked(address).port for address in ("http://127.0.0.1:8090/wms", "http://maps.example/wms")], [8090, 80])


if __name__ == "__main__":
    unittest.main()
