"""The launcher over a small tree of its own, with a program that tells its words and a toolchain that only seems to build."""
import os
import shutil
import stat
import subprocess
import tempfile
import time
import unittest

TOP = os.path.realpath(os.path.join(os.path.dirname(__file__), "..", ".."))

# Tells each word in brackets, and ends with status 3.
PROGRAM = """#!/bin/bash
for word in "$@"; do printf '[%s]' "$word"; done
echo
exit 3
"""

# Notes each call, and what lies in its folder. `rt ci` writes the program, and waits before that where the tree says so.
TOOLCHAIN = """#!/bin/bash
kit=$(dirname "$0")
echo "$*" >>"$kit/calls"
case $1 in
  version) echo 'toolchain 7' ;;
  ci) echo "RT_JOBS=${RT_JOBS:-none}" >>"$kit/calls"
    find . -type f | sort >"$kit/files"
    cp crates.txt "$kit/crates.txt"
    pwd >"$kit/folder"
    echo '== low'; echo 'rt: low: its tests are proved'; echo 'rt: low proved'
    [ -f "$kit/note" ] && echo 'rt: note: nothing is kept'
    [ -f "$kit/stays" ] && { sleep 20 >/dev/null 2>&1 & }
    [ -f "$kit/waits" ] && { echo $$ >"$kit/pid.new"; mv "$kit/pid.new" "$kit/pid"; exec sleep 30; }
    [ -f "$kit/slow" ] && sleep 1
    mkdir -p crates/pisdf/out && cp "$kit/program" crates/pisdf/out/pisdf && chmod +x crates/pisdf/out/pisdf
    echo 'rt: pisdf is kept: an earlier run on this machine proved it'; echo '2 passed, 0 failed' ;;
esac
"""

# All that the launcher calls, but for the toolchain.
COMMANDS = "bash cat chmod cp cut dirname find flock git head mkdir mktemp mv python3 readlink rm sha256sum sleep sort stat tail touch xargs".split()


def write(path, text, executable=False):
    os.makedirs(os.path.dirname(path), exist_ok=True)
    with open(path, "w", encoding="utf-8") as file:
        file.write(text)
    if executable:
        os.chmod(path, os.stat(path).st_mode | stat.S_IXUSR)


class Launcher(unittest.TestCase):
    def setUp(self):
        room = tempfile.TemporaryDirectory()
        self.addCleanup(room.cleanup)
        self.room = room.name
        self.tree = os.path.join(self.room, "a [big] tree")
        os.makedirs(self.tree)
        shutil.copy(os.path.join(TOP, "pisdf"), self.tree)
        write(self.path("crates.txt"), "# crates\nlow:\npisdf may_wait=1: low std_io\ntables: low\n")
        write(self.path("HANDLES"), "Handles allowed: none.\n")
        write(self.path("crates/low/src/lib.rt"), "one")
        write(self.path("crates/pisdf/src/main.rt"), "two")
        self.plain = os.path.join(self.room, "plain")
        os.makedirs(self.plain)
        for command in COMMANDS:
            os.symlink(shutil.which(command), os.path.join(self.plain, command))
        self.kit = os.path.join(self.room, "kit")
        write(os.path.join(self.kit, "rt"), TOOLCHAIN, executable=True)
        write(os.path.join(self.kit, "program"), PROGRAM)

    def path(self, name):
        return os.path.join(self.tree, name)

    def call(self, *words, kit=True, tree=None, launcher=None):
        """The status and the two outputs of a call, with the toolchain or without."""
        environment = {"PATH": (self.kit + ":" if kit else "") + self.plain}
        launcher = launcher or os.path.join(tree or self.tree, "pisdf")
        done = subprocess.run([launcher, *words], env=environment, cwd=self.room, capture_output=True, timeout=60)
        return done.returncode, done.stdout.decode(errors="replace"), done.stderr.decode(errors="replace")

    def builds(self):
        """How often the toolchain was asked to build."""
        try:
            with open(os.path.join(self.kit, "calls"), encoding="utf-8") as file:
                return sum(line == "ci\n" for line in file)
        except FileNotFoundError:
            return 0

    def built(self):
        self.assertEqual(self.call("run")[:2], (3, "[run]\n"))
        self.assertEqual(self.builds(), 1)

    def runs_without_the_toolchain(self, tree=None):
        self.assertEqual(self.call("run", kit=False, tree=tree), (3, "[run]\n", ""))

    # ---- words

    def test_words_go_on_as_they_stand(self):
        self.built()
        status, out, error = self.call("plan", "", "two words", "*", "--help", b"\xff\xfe".decode(errors="surrogateescape"))
        self.assertEqual((status, error), (3, ""))
        self.assertEqual(out, "[plan][][two words][*][--help][\ufffd\ufffd]\n")

    def test_no_words(self):
        self.assertEqual(self.call(), (1, "", "pisdf: give a command: ./pisdf --help lists them\n"))
        self.assertEqual(self.builds(), 0)

    def test_a_misspelt_word_builds_nothing(self):
        self.assertEqual(self.call("rnu", "g.json"), (1, "", "pisdf: 'rnu' is no command: ./pisdf --help lists them\n"))
        self.assertEqual(self.builds(), 0)
        self.built()
        self.assertEqual(self.call("rnu", "g.json"), (3, "[rnu][g.json]\n", ""))

    def test_help_needs_nothing(self):
        status, out, error = self.call("--help", kit=False)
        self.assertEqual((status, error), (0, ""))
        for word in "run plain unfold plan schedule memory journal audit soak upgrade explain check report draw kernels".split():
            self.assertRegex(out, rf"(?m)^  {word} ")
        for word in ("-h", "help"):
            self.assertEqual(self.call(word, kit=False), (0, out, ""))
        self.assertEqual(self.builds(), 0)

    @unittest.skipUnless(os.path.exists("/dev/full"), "there is no /dev/full")
    def test_a_text_that_cant_be_written(self):
        self.built()
        for word in ("--help", "--version"):
            with open("/dev/full", "wb") as full:
                done = subprocess.run([self.path("pisdf"), word], env={"PATH": self.plain}, stdout=full, stderr=subprocess.PIPE, timeout=60)
            self.assertEqual(done.returncode, 6)
            self.assertIn(b"No space left on device", done.stderr)

    def test_version(self):
        self.assertIn("isn't built yet", self.call("--version", kit=False)[1])
        self.built()
        self.assertTrue(self.call("--version", kit=False)[1].endswith("proved and built with toolchain 7\n"))
        write(self.path("crates/low/src/lib.rt"), "three")
        self.assertTrue(self.call("--version", kit=False)[1].endswith("proved and built with toolchain 7\nthe sources were changed since then: the next call proves and builds them\n"))

    def test_version_of_a_program_that_another_call_built(self):
        write(self.path("crates/pisdf/out/pisdf"), PROGRAM, executable=True)
        self.assertIn("no record", self.call("--version")[1])
        self.runs_without_the_toolchain()
        self.assertNotIn("proved and built with", self.call("--version")[1])

    def test_help_of_the_own_words(self):
        help_text = self.call("--help")[1]
        for word in "explain check report draw kernels".split():
            self.assertEqual(self.call(word, "--help", kit=False), (0, help_text, ""))

    def test_a_link_from_elsewhere(self):
        self.built()
        link = os.path.join(self.room, "link")
        os.symlink(self.path("pisdf"), link)
        self.assertEqual(self.call("run", launcher=link, kit=False), (3, "[run]\n", ""))

    def test_scripts_get_the_program(self):
        self.built()
        for word in ("explain", "check", "report"):
            write(self.path(f"tools/{word}.py"), f"import sys\nprint('{word}', sys.argv[1:])\nsys.exit(4)\n")
            self.assertEqual(self.call(word, "run", "x"), (4, f"{word} {[self.path('crates/pisdf/out/pisdf'), 'run', 'x']}\n", ""))

    def test_scripts_that_need_no_program(self):
        for word in ("draw", "kernels"):
            write(self.path(f"tools/{word}.py"), f"import sys\nprint('{word}', sys.argv[1:])\nsys.exit(2)\n")
            self.assertEqual(self.call(word, "graph", "x", kit=False), (2, f"{word} ['graph', 'x']\n", ""))

    def test_a_word_that_needs_python(self):
        os.remove(os.path.join(self.plain, "python3"))
        self.assertEqual(self.call("kernels"), (127, "", "pisdf: this word needs Python 3, and 'python3' isn't on the PATH\n"))

    # ---- whether the program is current

    def test_a_newer_time_alone_builds_nothing(self):
        self.built()
        for _ in range(2):
            os.utime(self.path("crates/low/src/lib.rt"), (time.time() + 5, time.time() + 5))
            self.runs_without_the_toolchain()

    def test_a_copied_tree_runs(self):
        self.built()
        copy = os.path.join(self.room, "copy")
        shutil.copytree(self.tree, copy, copy_function=shutil.copyfile)
        for name in ("pisdf", "crates/pisdf/out/pisdf"):
            os.chmod(os.path.join(copy, name), 0o755)
        self.runs_without_the_toolchain(copy)

    def test_another_content_is_built(self):
        self.built()
        write(self.path("crates/low/src/lib.rt"), "three")
        os.utime(self.path("crates/low/src/lib.rt"), (time.time() + 5, time.time() + 5))
        status, out, error = self.call("run", kit=False)
        self.assertEqual((status, out), (127, ""))
        self.assertIn("Rattle toolchain", error)
        self.assertIn("'rt'", error)
        self.assertEqual(self.call("run")[:2], (3, "[run]\n"))
        self.assertEqual(self.builds(), 2)

    def test_a_copy_of_a_changed_tree_is_built(self):
        self.built()
        for name, text in (("crates/low/src/lib.rt", "three"), ("crates.txt", "low:\npisdf: low std_io\n")):
            copy = os.path.join(self.room, "copy of " + os.path.basename(name))
            shutil.copytree(self.tree, copy)
            write(os.path.join(copy, name), text)
            late = time.time() + 5
            os.utime(os.path.join(copy, "crates/pisdf/out/pisdf"), (late, late))
            self.assertEqual(self.call("run", kit=False, tree=copy)[0], 127)

    def test_an_older_file_copied_over_a_source_is_built(self):
        older = os.path.join(self.room, "older.rt")
        write(older, "older")
        os.utime(older, (time.time() - 1000, time.time() - 1000))
        self.built()
        shutil.copy2(older, self.path("crates/low/src/lib.rt"))
        self.assertEqual(self.call("run")[0], 3)
        self.assertEqual(self.builds(), 2)

    def test_a_new_file_and_a_lost_one_are_built(self):
        self.built()
        write(self.path("crates/low/src/more.rt"), "")
        self.assertEqual(self.call("run")[0], 3)
        self.assertEqual(self.builds(), 2)
        os.remove(self.path("crates/low/src/more.rt"))
        self.assertEqual(self.call("run")[0], 3)
        self.assertEqual(self.builds(), 3)

    def test_a_program_of_the_toolchain_itself_is_taken(self):
        write(self.path("crates/pisdf/out/pisdf"), PROGRAM, executable=True)
        self.runs_without_the_toolchain()
        os.utime(self.path("crates.txt"), (time.time() + 5, time.time() + 5))
        self.runs_without_the_toolchain()

    def test_a_source_that_changes_during_the_build(self):
        write(os.path.join(self.kit, "slow"), "")
        call = subprocess.Popen([self.path("pisdf"), "run"], env={"PATH": self.kit + ":" + self.plain}, stdout=subprocess.PIPE, stderr=subprocess.PIPE)
        while not os.path.exists(os.path.join(self.kit, "calls")):
            time.sleep(0.02)
        time.sleep(0.2)
        write(self.path("crates/low/src/lib.rt"), "three")
        call.communicate(timeout=60)
        os.remove(os.path.join(self.kit, "slow"))
        self.assertEqual(self.call("run")[0], 3)
        self.assertEqual(self.builds(), 2)

    # ---- the build

    def test_two_calls_build_once(self):
        write(os.path.join(self.kit, "slow"), "")
        environment = {"PATH": self.kit + ":" + self.plain}
        calls = [subprocess.Popen([self.path("pisdf"), "run"], env=environment, stdout=subprocess.PIPE, stderr=subprocess.PIPE) for _ in range(2)]
        errors = []
        for call in calls:
            out, error = call.communicate(timeout=60)
            self.assertEqual((call.returncode, out), (3, b"[run]\n"))
            errors.append(error)
        self.assertEqual(self.builds(), 1)
        self.assertTrue(any(b"this one waits" in error for error in errors))

    def test_a_build_tells_how_far_it_is(self):
        error = self.call("run")[2]
        told = [line.split(" after ")[0] for line in error.splitlines() if "crates done" in line]
        self.assertEqual(told, ["pisdf: 1 of 2 crates done", "pisdf: 2 of 2 crates done"])
        self.assertNotIn("note", error)

    def test_a_note_of_the_toolchain_is_told(self):
        write(os.path.join(self.kit, "note"), "")
        error = self.call("run")[2]
        self.assertIn("pisdf: note: nothing is kept\n", error)

    def test_what_the_toolchain_leaves_behind_holds_no_later_call_up(self):
        write(os.path.join(self.kit, "stays"), "")
        self.built()
        write(self.path("crates/low/src/lib.rt"), "three")
        began = time.monotonic()
        self.assertNotIn("this one waits", self.call("run")[2])
        self.assertLess(time.monotonic() - began, 10)

    def test_a_call_that_is_told_to_end_ends_the_toolchain(self):
        write(os.path.join(self.kit, "waits"), "")
        environment = {"PATH": self.kit + ":" + self.plain, "TMPDIR": self.room}
        call = subprocess.Popen([self.path("pisdf"), "run"], env=environment, stdout=subprocess.PIPE, stderr=subprocess.PIPE)
        while not os.path.exists(os.path.join(self.kit, "pid")):
            time.sleep(0.02)
        with open(os.path.join(self.kit, "pid"), encoding="utf-8") as file:
            toolchain = int(file.read())
        call.terminate()
        call.communicate(timeout=20)
        self.assertEqual(call.returncode, 143)
        self.assertRaises(ProcessLookupError, os.kill, toolchain, 0)
        with open(os.path.join(self.kit, "folder"), encoding="utf-8") as file:
            self.assertFalse(os.path.exists(file.read().strip()))

    def test_a_program_that_runs_is_not_written_over(self):
        self.built()
        os.link(self.path("crates/pisdf/out/pisdf"), self.path("running"))
        write(os.path.join(self.kit, "program"), PROGRAM + "# another\n")
        write(self.path("crates/low/src/lib.rt"), "three")
        self.call("run")
        with open(self.path("running"), encoding="utf-8") as file:
            self.assertEqual(file.read(), PROGRAM)
        with open(self.path("crates/pisdf/out/pisdf"), encoding="utf-8") as file:
            self.assertEqual(file.read(), PROGRAM + "# another\n")

    def test_the_program_is_built_of_a_copy_of_its_crates_alone(self):
        for name in ("low/specs/Lib.antt", "low/proofs/Lib.antt", "low/must-fail/a.edit", "low/README.md", "low/out/left", "pisdf/stdout", "pisdf/data/g.json", "tables/src/lib.rt"):
            write(self.path(f"crates/{name}"), name)
        self.built()
        with open(os.path.join(self.kit, "files"), encoding="utf-8") as file:
            files = file.read().split()
        wanted = "HANDLES crates.txt crates/low/proofs/Lib.antt crates/low/specs/Lib.antt crates/low/src/lib.rt crates/pisdf/data/g.json crates/pisdf/src/main.rt crates/pisdf/stdout"
        self.assertEqual(sorted(files), sorted(f"./{name}" for name in wanted.split()))
        with open(os.path.join(self.kit, "crates.txt"), encoding="utf-8") as file:
            self.assertEqual(file.read(), "low:\npisdf may_wait=1: low std_io\n")

    def test_nothing_is_left_of_the_copy(self):
        failing = TOOLCHAIN.replace("echo '2 passed, 0 failed' ;;", "exit ${FAILS:-0} ;;")
        write(os.path.join(self.kit, "rt"), failing, executable=True)
        for fails, status in (("1", 127), ("0", 3)):
            environment = {"PATH": self.kit + ":" + self.plain, "FAILS": fails, "TMPDIR": self.room}
            done = subprocess.run([self.path("pisdf"), "run"], env=environment, capture_output=True, timeout=60)
            self.assertEqual(done.returncode, status)
            with open(os.path.join(self.kit, "folder"), encoding="utf-8") as file:
                folder = file.read().strip()
            self.assertTrue(folder.startswith(self.room))
            self.assertFalse(os.path.exists(folder))

    def test_a_build_that_fails(self):
        write(os.path.join(self.kit, "rt"), "#!/bin/bash\necho 'what went wrong'\nexit 1\n", executable=True)
        status, out, error = self.call("run")
        self.assertEqual((status, out), (127, ""))
        self.assertIn("what went wrong", error)

    def test_how_many_processes_prove_at_once(self):
        for asked, told in ((None, "none"), ("7", "7")):
            write(self.path("crates/low/src/lib.rt"), told)
            environment = {"PATH": self.kit + ":" + self.plain, **({"PISDF_JOBS": asked} if asked else {})}
            subprocess.run([self.path("pisdf"), "run"], env=environment, capture_output=True, timeout=60)
            with open(os.path.join(self.kit, "calls"), encoding="utf-8") as file:
                self.assertEqual([line for line in file if line.startswith("RT_JOBS")][-1], f"RT_JOBS={told}\n")

    def test_a_number_of_jobs_that_is_none(self):
        environment = {"PATH": self.kit + ":" + self.plain, "PISDF_JOBS": "many"}
        done = subprocess.run([self.path("pisdf"), "run"], env=environment, capture_output=True, timeout=60)
        self.assertEqual(done.returncode, 127)
        self.assertIn(b"PISDF_JOBS must be a number from 1 to 99", done.stderr)


if __name__ == "__main__":
    unittest.main()
