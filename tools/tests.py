#!/usr/bin/env python3
"""Tests of octo-text and octo-chart over the stored texts in texts/."""

import json
import subprocess
import sys
import tempfile
import unittest
from pathlib import Path

HERE = Path(__file__).resolve().parent
sys.path.insert(0, str(HERE))
from octo_texts import BadText, read_texts  # noqa: E402

TEXTS = sorted((HERE / "texts").glob("*.txt"))
KINDS = {
    "run.txt": ["report", "journal"],
    "distinct.txt": ["report", "journal"],
    "prefix.txt": ["prefix"],
    "epochs.txt": ["epochs"],
    "audit.txt": ["audit"],
}
# What the last line of a text may be.
LAST = ("\nend\n", "octosketch audit lawful\n")
# A verdict has no numbers to draw.
DRAWN = [path for path in TEXTS if path.name != "audit.txt"]


def wrong_line(text):
    """The number of the first line that is refused, or None."""
    try:
        read_texts(text)
    except BadText as fault:
        return fault.line
    return None


def call(name, *words, text):
    return subprocess.run(
        [sys.executable, str(HERE / name), *words], input=text, capture_output=True, text=True
    )


class Reading(unittest.TestCase):
    def test_each_stored_text_is_read(self):
        for path in TEXTS:
            kinds = [text["kind"] for text in read_texts(path.read_text())]
            self.assertEqual(kinds, KINDS[path.name])

    def test_a_text_that_is_cut_is_refused(self):
        for path in TEXTS:
            text = path.read_text()
            ends = [at + 1 for at in range(len(text)) if text[: at + 1].endswith(LAST)]
            for length in range(len(text)):
                whole = length in ends
                self.assertEqual(wrong_line(text[:length]) is None, whole, (path.name, length))

    def test_each_wrong_line_is_named(self):
        for path in TEXTS:
            lines = path.read_text().splitlines()
            for at in range(len(lines)):
                changed = lines[:at] + [lines[at] + " x"] + lines[at + 1 :]
                self.assertEqual(wrong_line("\n".join(changed) + "\n"), at + 1, (path.name, at + 1))

    def test_a_number_with_a_leading_zero_is_refused(self):
        text = (HERE / "texts/run.txt").read_text()
        self.assertEqual(wrong_line(text.replace("records 86", "records 086")), 3)

    def test_refused_updates_are_as_many_as_their_worker_says(self):
        text = (HERE / "texts/run.txt").read_text()
        self.assertIsNotNone(wrong_line(text.replace("refused 0 38-39", "refused 0 38-38")))


class Commands(unittest.TestCase):
    def test_json_lines(self):
        for path in TEXTS:
            done = call("octo-text", text=path.read_text())
            self.assertEqual(done.returncode, 0, done.stderr)
            kinds = [json.loads(line)["kind"] for line in done.stdout.splitlines()]
            self.assertEqual(kinds, KINDS[path.name])

    def test_tables(self):
        rows = {
            ("run.txt", "flows"): 2,
            ("run.txt", "watch"): 1,
            ("run.txt", "answers"): 4,
            ("run.txt", "refused"): 6,
            ("run.txt", "live"): 2,
            ("prefix.txt", "hits"): 8,
            ("epochs.txt", "flows"): 1,
            ("epochs.txt", "changes"): 1,
        }
        for (name, table), count in rows.items():
            text = (HERE / "texts" / name).read_text()
            done = call("octo-text", "--csv", table, text=text)
            self.assertEqual(done.returncode, 0, done.stderr)
            self.assertEqual(len(done.stdout.splitlines()), count + 1, (name, table))

    def test_a_wrong_text_is_refused_with_its_line(self):
        for words in (["octo-text"], ["octo-chart", "unmade.png"]):
            done = call(*words, text="octosketch report 1\nsketch none\n")
            self.assertEqual(done.returncode, 1)
            self.assertIn("line 2", done.stderr)

    def test_a_verdict_is_not_drawn(self):
        done = call("octo-chart", "unmade.png", text=(HERE / "texts/audit.txt").read_text())
        self.assertEqual(done.returncode, 1)
        self.assertIn("octo-chart: ", done.stderr)

    def test_pictures(self):
        try:
            import matplotlib  # noqa: F401
        except ImportError:
            self.skipTest("no matplotlib")
        with tempfile.TemporaryDirectory() as folder:
            for path in DRAWN:
                for kind in ("png", "svg"):
                    out = Path(folder) / f"{path.stem}.{kind}"
                    done = call("octo-chart", str(out), text=path.read_text())
                    self.assertEqual(done.returncode, 0, done.stderr)
                    self.assertGreater(out.stat().st_size, 1000)


if __name__ == "__main__":
    unittest.main()
