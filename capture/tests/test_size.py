"""The work goes with the size of the machine: the instructions of Python are counted, on made hosts of 18 and of 72
nodes. A walk over all nodes or all items for each node would more than double the count for a node."""

import os
import sys
import tempfile
import unittest

import machines
import made_hosts

CAPTURE = machines.load("cxl-capture")
SMALL, LARGE = (2, 2, 3), (8, 2, 3)  # bridges, switches below each, endpoints below each of these
TIMES = 4


def steps_of(call, *given):
    """The instructions of Python that a call takes, with those of all that it calls, and its answer."""
    count = 0

    def trace(frame, event, _):
        nonlocal count
        frame.f_trace_opcodes, frame.f_trace_lines = True, False
        count += event == "opcode"
        return trace

    before = sys.gettrace()
    sys.settrace(trace)
    try:
        answer = call(*given)
    finally:
        sys.settrace(before)
    return count, answer


class Size(unittest.TestCase):
    def assert_even(self, call, small, large):
        few, answer = steps_of(call, small)
        many, larger = steps_of(call, large)
        self.assertLess(many, few * TIMES * 1.1)
        return answer, larger

    def test_work_goes_with_the_number_of_nodes(self):
        table = made_hosts.made_table(LARGE[0])
        with tempfile.TemporaryDirectory() as place:
            trees = [made_hosts.made_tree(*size) for size in (SMALL, LARGE)]
            files = [machines.save(machines.pack(tree), os.path.join(place, str(len(tree)))) for tree in trees]
            archives = self.assert_even(CAPTURE.Archive, *files)
            folders = [CAPTURE.Folder(machines.lay(tree, os.path.join(place, f"host{len(tree)}"))) for tree in trees]
            made = self.assert_even(CAPTURE.files_of, *archives)
            for files, others in zip(self.assert_even(CAPTURE.files_of, *folders), made):
                self.assertEqual({**files, "sources.json": b""}, {**others, "sources.json": b""})
            self.assert_even(CAPTURE.copy_of, *archives)
        lists = self.assert_even(CAPTURE.Listing, *[made_hosts.made_list(*size) for size in (SMALL, LARGE)])
        listed = self.assert_even(lambda tree: CAPTURE.files_of(tree, table), *lists)
        for files in (made[1], listed[1]):
            self.assertIn("shows 72 bridges, switches and endpoints, and 48 committed", files["report.txt"].decode())
            nodes = machines.read_topology(files["topo.toml"].decode())
            self.assertEqual(len(machines.read_image(files["image.bin"], nodes)), 72)


if __name__ == "__main__":
    unittest.main()
