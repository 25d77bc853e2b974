"""The kernels as the launcher tells of them."""
import json
import os
import re
import subprocess
import sys
import unittest

TOP = os.path.realpath(os.path.join(os.path.dirname(__file__), "..", ".."))


def call(*words):
    done = subprocess.run([sys.executable, "-B", os.path.join(TOP, "tools", "kernels.py"), *words], capture_output=True, text=True, timeout=60)
    return done.returncode, done.stdout, done.stderr


class Kernels(unittest.TestCase):
    def test_all(self):
        status, out, error = call()
        self.assertEqual((status, error), (0, ""))
        rows = out.split("\n\n")[0].split("\n")
        with open(os.path.join(TOP, "docs", "KERNELS.md"), encoding="utf-8") as page:
            self.assertEqual(len(rows) - 1, page.read().count("\n### "))
        self.assertRegex(rows[0], r"^Kernel +Arguments +Inputs +Outputs +Parameters set +In short$")
        self.assertIn("fir          1 to 16    1       1        0               a filter of finite impulse response", rows)

    def test_each_has_a_section(self):
        for row in call()[1].split("\n\n")[0].split("\n")[1:]:
            name = row.split()[0]
            status, out, error = call(name)
            self.assertEqual((status, error), (0, ""))
            self.assertTrue(out.startswith(f"{name}\n\n"))
            self.assertIn("Example: ", out)
            actor = json.loads(re.search(r"^As an actor of a graph file: (.*)$", out, re.M).group(1))
            self.assertEqual((actor["kernel"], "sets" in actor), (name, 'the kind "config"' in out))
            for part, count in zip(("args", "ins", "outs", "sets"), re.search(r"; arguments: (.*), inputs: (.*), outputs: (.*), parameters set: (.*)\.", out).groups()):
                least, _, most = count.partition(" to ")
                self.assertTrue(int(least) <= len(actor.get(part, [])) <= int(most or least), (name, part, count))
            self.assertNotIn("###", out)

    def test_a_name_that_is_none(self):
        self.assertEqual(call("medain"), (1, "", "kernels: no kernel has the name 'medain': the nearest name is 'median'\n"))
        self.assertEqual(call("zzzzz"), (1, "", "kernels: no kernel has the name 'zzzzz': ./pisdf kernels lists them\n"))
        self.assertEqual(call("FIR"), (1, "", "kernels: no kernel has the name 'FIR': the nearest name is 'fir'\n"))
        self.assertEqual(call("fir", "dot")[0], 1)
        for word, told in (("fork", "The compiler adds forks by itself"), ("scale", "The kernel gain multiplies"), ("Sink", "an output interface of the rate 1"),
                           ("filter", "made of dup, gain, add and delays"), ("integrate", "a ring of add and dup with a delay"), ("const", "ramp")):
            status, out, error = call(word)
            self.assertEqual((status, out), (1, ""))
            self.assertIn(told, error)

    def test_other_words_name_kernels_that_are_there(self):
        sys.path.insert(0, os.path.join(TOP, "tools"))
        from pisdf_tools.kernels import OTHER_WORDS, table
        for word, told in OTHER_WORDS.items():
            self.assertNotIn(word, table())
            named = [name for name in re.findall(r"`(\w+)`", told)]
            self.assertLessEqual(set(named), set(table()), told)


if __name__ == "__main__":
    unittest.main()
