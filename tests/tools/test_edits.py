"""The must-fail edits that the gate leaves out, and the script that tries them."""
import glob
import os
import subprocess
import sys
import unittest

TOP = os.path.realpath(os.path.join(os.path.dirname(__file__), "..", ".."))


def texts_of(edit):
    """The file, the old text and the new text of each line that an edit changes."""
    file, old = None, None
    with open(edit, encoding="utf-8") as lines:
        for line in lines.read().split("\n"):
            word, _, rest = line.partition(": ")
            if word == "file":
                file = rest
            elif word == "old":
                old = rest
            elif word in ("new", "new:"):
                yield file, old, rest


class Edits(unittest.TestCase):
    def test_each_changes_a_text_that_stands_once(self):
        edits = sorted(glob.glob(f"{TOP}/crates/*/edits/*.edit"))
        self.assertGreater(len(edits), 0)
        for edit in edits:
            crate = os.path.dirname(os.path.dirname(edit))
            made, changes = {}, 0
            for file, old, new in texts_of(edit):
                if file not in made:
                    with open(f"{crate}/{file}", encoding="utf-8") as it:
                        made[file] = it.read()
                self.assertEqual(made[file].count(old), 1, (edit, old))
                self.assertNotEqual(old, new, edit)
                made[file] = made[file].replace(old, new)
                changes += 1
            self.assertGreater(changes, 0, edit)

    def test_no_crate_has_more_than_six(self):
        for folder in glob.glob(f"{TOP}/crates/*/edits") + glob.glob(f"{TOP}/crates/*/must-fail"):
            self.assertLessEqual(len(glob.glob(f"{folder}/*.edit")), 6, folder)

    def test_a_crate_that_has_none(self):
        crates = sorted(os.path.basename(folder) for folder in glob.glob(f"{TOP}/crates/*"))
        crate = next(name for name in crates if not os.path.isdir(f"{TOP}/crates/{name}/edits"))
        done = subprocess.run([sys.executable, "-B", f"{TOP}/tools/try_edits.py", crate], capture_output=True, text=True, timeout=60)
        self.assertEqual((done.returncode, done.stdout), (2, ""))
        self.assertTrue(done.stderr.startswith(f"try_edits.py: {crate} has no folder of edits; those that have one: "))


if __name__ == "__main__":
    unittest.main()
