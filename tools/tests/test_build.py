"""build.py over a toolchain that only says which crate it is at."""
import contextlib
import io
import os
import sys
import tempfile
import unittest
import unittest.mock

TOP = os.path.dirname(os.path.dirname(os.path.dirname(os.path.realpath(__file__))))
sys.path.insert(0, os.path.join(TOP, "tools"))
import build  # noqa: E402
import quick  # noqa: E402

RT = """#!/bin/sh
for crate in low high program; do echo "rt: chose --jobs 2 for $crate"; done
[ -e ../../broken ] && { echo "goal left"; exit 1; }
mkdir -p out; : > out/program
exit 6
"""


class Builds(unittest.TestCase):
    def setUp(self):
        kept = tempfile.TemporaryDirectory()
        self.addCleanup(kept.cleanup)
        self.top = kept.name
        for name, text in (("rt", RT), ("crates/program/src/main.rt", ""), ("crates.txt", "low: std\nhigh: low\nprogram: high\n")):
            os.makedirs(os.path.dirname(os.path.join(self.top, name)), exist_ok=True)
            with open(os.path.join(self.top, name), "w") as file:
                file.write(text)
        os.chmod(os.path.join(self.top, "rt"), 0o755)

    def build(self, *words):
        out, path = io.StringIO(), f"{self.top}:{os.environ['PATH']}"
        with (unittest.mock.patch.multiple(build, TOP=self.top, LOG=os.path.join(self.top, "build", "proofs.log")), unittest.mock.patch.object(quick, "TOP", self.top),
              unittest.mock.patch.dict(os.environ, PATH=path), unittest.mock.patch.object(sys, "argv", ["build.py", *words]), contextlib.redirect_stdout(out)):
            try:
                build.main()
                said = None
            except SystemExit as end:
                said = str(end)
        return out.getvalue().split("\n"), said

    def test_it_says_where_it_is_and_how_many_are_left(self):
        lines, said = self.build()
        self.assertEqual(lines, ["[1/3] low, 2 left, 0 min", "[2/3] high, 1 left, 0 min", "[3/3] program, 0 left, 0 min",
                                 "program is proved: crates/program/out/program", ""])
        self.assertIsNone(said)

    def test_a_proof_that_fails(self):
        open(os.path.join(self.top, "broken"), "w").close()
        _, said = self.build()
        self.assertIn("program wasn't built (status 1)", said)

    def test_a_program_that_is_none(self):
        self.assertIn("no program other; there are program", self.build("other")[1])


if __name__ == "__main__":
    unittest.main()
