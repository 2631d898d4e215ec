#!/usr/bin/env python3
"""The program `chains` as its caller meets it: how it is called, what it says where something fails, and when it builds.

Run from the repository's root, after `make lib`:
python3 tests/program.py                     the program
python3 tests/program.py example COMMAND     an example worked_day, which answers as the program does, built before
python3 tests/program.py one_boat COMMAND    the example one_boat, built before
python3 tests/program.py in_steps COMMAND    the example in_steps, built before

When the program and the library are built is tested in a small tree of a few crates and an `rt` that only notes how it is called."""
import fcntl
import os
import re
import shutil
import subprocess
import sys
import tempfile
import unittest

ROOT = os.path.dirname(os.path.dirname(os.path.abspath(__file__)))
CHAINS = ROOT + "/chains"
PROGRAM = ROOT + "/target/bin/chains"
DAY = ROOT + "/examples/day"
NOBODY = 65534

# An rt that is called in a crate's folder. It notes its calls, says much, refuses the crate that the file `refuse` names, and links a
# program, unless its own note says that it did: a copy of the file `program`, or else one that prints what crates/base/src/lib.rt says.
# A library of it has what that file says.
RT = """#!/bin/sh
crate=$(basename "$PWD")
echo "$1 $crate" >>../../rt.calls
echo "notes on $crate"
[ "$(cat ../../refuse 2>/dev/null)" != "$crate" ] || exit 1
mkdir -p out
[ "$1" != lib ] || { cp ../base/src/lib.rt "out/lib$crate.a"; exit; }
[ ! -e "out/$crate.stamp" ] || exit 0
if [ -e ../../program ]; then cp ../../program "out/$crate"
else { echo '#!/bin/sh'; cat ../base/src/lib.rt; } >"out/$crate"; fi
chmod 755 "out/$crate"
"""
CRATES = "# three crates and others\nbase:\nmiddle: base io\nchains: middle\nother: base\nexports staticlib: middle\n"
PROGRESS = "proving 1 of 3: base\nproving 2 of 3: middle\nproving 3 of 3: chains\n"


def write(path, text, mode=0o644):
    os.makedirs(os.path.dirname(path), exist_ok=True)
    with open(path, "w") as out: out.write(text)
    os.chmod(path, mode)


def read(path):
    with open(path) as text: return text.read()


def sentences(): return dict(line.split("\t") for line in read(ROOT + "/include/refusals.txt").splitlines())


def setUpModule():
    """The program is built, where it has to be, before the first test looks at what a call says."""
    if Case.command is None: subprocess.run([CHAINS, DAY], check=True, stdout=subprocess.DEVNULL)


class Case(unittest.TestCase):
    """A folder of its own that every user can enter, and runs of a command in it."""
    command = None  # the example that is tested

    def setUp(self):
        self.folder = tempfile.mkdtemp()
        os.chmod(self.folder, 0o755)
        # Last comes first: a folder that a test has shut is opened, and then all is removed.
        self.addCleanup(shutil.rmtree, self.folder)
        self.addCleanup(subprocess.run, ["chmod", "-R", "u+rwX", self.folder])

    def day(self, name="day", question=None):
        """The worked day in a folder; with another question where it is given."""
        shutil.copytree(DAY, self.folder + "/" + name)
        if question is not None:
            with open("%s/%s/ask.pat" % (self.folder, name), "wb") as out: out.write(question)
        return self.folder + "/" + name

    def run_in(self, *words, **more):
        """Status, standard output and standard error of a command."""
        done = subprocess.run(words, text=True, **{"cwd": self.folder, "stdout": subprocess.PIPE, "stderr": subprocess.PIPE, **more})
        return done.returncode, done.stdout, done.stderr

    def denied(self):
        """What makes a run that of a user whom permissions hold: root becomes nobody."""
        return dict(user=NOBODY, group=NOBODY, extra_groups=[]) if os.getuid() == 0 else {}

    def assertFails(self, reply, status, *parts):
        """Nothing on standard output, one line with these parts on standard error, and the status."""
        self.assertEqual((status, ""), (reply[0], reply[1] or ""), reply[2])
        self.assertEqual(1, reply[2].count("\n"), reply[2])
        for part in parts: self.assertIn(part, reply[2])


class Called(Case):
    """How it is called. Each run is of the real program."""
    FOUND = (0, "found 3: 1 2 5\n", "")

    def test_a_folder(self):
        self.assertEqual(self.FOUND, self.run_in(CHAINS, DAY))
        self.day("two words")
        self.assertEqual(self.FOUND, self.run_in(CHAINS, "two words"))

    def test_cdpath_has_no_say(self):
        self.day()
        self.day("elsewhere/day", b"no")
        for path in (self.folder + "/elsewhere", ROOT, ":" + ROOT, "/"):
            self.assertEqual(self.FOUND, self.run_in(CHAINS, "day", env={**os.environ, "CDPATH": path}))
            self.assertEqual(self.FOUND, self.run_in("./chains", self.folder + "/day", env={**os.environ, "CDPATH": path}, cwd=ROOT))

    def test_names_like_options(self):
        for name in ("-dash", "-", "-e", "--", "--help", "-P"):
            self.day("in/" + name)
            words = ("--", name) if name in ("--", "--help") else (name,)
            self.assertEqual(self.FOUND, self.run_in(CHAINS, *words, cwd=self.folder + "/in"))

    def test_links_to_the_script(self):
        os.mkdir(self.folder + "/bin")
        os.symlink(CHAINS, self.folder + "/bin/chains")
        os.symlink("bin/chains", self.folder + "/again")
        self.assertEqual(self.FOUND, self.run_in("bin/chains", DAY))
        self.assertEqual(self.FOUND, self.run_in("./again", DAY))
        self.assertEqual(self.FOUND, self.run_in("chains", DAY, env={**os.environ, "PATH": self.folder + "/bin:" + os.environ["PATH"]}))

    def test_a_missing_argument_and_a_missing_folder(self):
        self.assertFails(self.run_in(CHAINS), 2, "no folder is named", "--help")
        self.assertFails(self.run_in(CHAINS, DAY, DAY), 2, "one folder", "--help")
        self.assertFails(self.run_in(CHAINS, "nowhere"), 3, "'nowhere'")
        self.assertFails(self.run_in(CHAINS, ""), 3, "''")
        self.assertFails(self.run_in(CHAINS, CHAINS), 3, "no folder")

    def test_help_and_version(self):
        status, said, more = self.run_in(CHAINS, "--help")
        self.assertEqual((0, ""), (status, more))
        self.assertTrue(said.startswith("usage: chains FOLDER\n"))
        self.assertEqual(["0", "2", "3", "4", "5", "6"], re.findall(r"^  (\d)  ", said, re.M))
        self.assertEqual((0, "chains " + read(ROOT + "/VERSION"), ""), self.run_in(CHAINS, "--version"))
        self.assertRegex(read(ROOT + "/VERSION"), r"\A\d+\.\d+\.\d+\n\Z")

    def test_readme_has_the_statuses_of_help(self):
        part = read(ROOT + "/README.md").split("\n## The program\n")[1].split("\n## ")[0]
        self.assertEqual(["0", "2", "3", "4", "5", "6"], re.findall(r"^\| (\d) \|", part, re.M))


class Answered(Case):
    """What is said of the files and of the answer. Each run is of the real program, but for the sentences of all numbers."""

    def test_refused_in_words(self):
        reply = self.run_in(CHAINS, self.day(question=b"\0\0\0\3\x22\1\0"))
        self.assertEqual((0, "refused 12\n", sentences()["12"] + "\n"), reply)

    def test_every_refusal_in_words(self):
        tree = Tree.of(self)
        self.assertEqual([str(i + 1) for i in range(28)], list(sentences()))
        for number, sentence in sentences().items():
            tree.says("echo refused " + number)
            self.assertEqual((0, "refused %s\n" % number, sentence + "\n"), tree.built())

    def test_a_missing_file_counts_as_empty(self):
        day = self.day()
        os.remove(day + "/day.rec")
        self.assertEqual((0, "refused 2\n", sentences()["2"] + "\n"), self.run_in(CHAINS, day))
        os.remove(day + "/ask.pat")
        self.assertEqual((0, "no question\n", ""), self.run_in(CHAINS, day))

    def test_a_file_that_is_a_folder(self):
        for name in ("day.rec", "ask.pat"):
            day = self.day("with " + name)
            os.remove(day + "/" + name)
            os.mkdir(day + "/" + name)
            self.assertFails(self.run_in(CHAINS, day), 4, name + " cannot be read: Is a directory")

    def test_a_read_that_fails(self):
        for name in ("day.rec", "ask.pat"):
            day = self.day("with " + name)
            os.remove(day + "/" + name)
            os.symlink("/proc/self/mem", day + "/" + name)
            self.assertFails(self.run_in(CHAINS, day), 4, name + " cannot be read: Input/output error")

    def test_a_file_without_permission(self):
        tree = Tree.of(self)
        shutil.copy(PROGRAM, tree.path + "/program")
        tree.built()
        for name in ("day.rec", "ask.pat"):
            day = self.day("with " + name)
            os.chmod(day + "/" + name, 0)
            self.assertFails(self.run_in(tree.path + "/chains", day, **self.denied()), 4, name + " cannot be read: Permission denied")

    def test_a_folder_that_cannot_be_entered(self):
        tree = Tree.of(self)
        tree.built()
        day = self.day()
        os.chmod(day, 0)
        self.assertFails(self.run_in(tree.path + "/chains", day, **self.denied()), 3, "cannot be entered")

    def test_an_answer_that_cannot_be_written(self):
        with open("/dev/full", "w") as full:
            self.assertFails(self.run_in(CHAINS, DAY, stdout=full), 5, "cannot be written")
            self.assertFails(self.run_in(CHAINS, "--help", stdout=full), 5, "cannot be written")
            self.assertFails(self.run_in(CHAINS, "--version", stdout=full), 5, "cannot be written")
            # The program alone has no status; it says so.
            self.assertFails(self.run_in(PROGRAM, stdout=full, cwd=DAY), 0, "cannot be written: No space left on device")
        self.assertFails(self.run_in("bash", "-c", '"$0" "$1" >&-', CHAINS, DAY), 5, "cannot be written")


class Tree:
    """A small tree with the script, in a folder of its own."""

    @staticmethod
    def of(case):
        tree = Tree()
        tree.case, tree.path = case, case.folder + "/a tree"
        write(tree.path + "/bin/rt", RT, 0o755)
        write(tree.path + "/crates.txt", CRATES)
        for name in ("base", "middle", "other", "exports"): tree.source(name, name)
        tree.source("chains", "chains", "src/main.rt")
        tree.says("echo none")
        for name in ("chains", "tools", "VERSION", "include", "Makefile", "chains.map"):
            if os.path.isdir(ROOT + "/" + name): shutil.copytree(ROOT + "/" + name, tree.path + "/" + name)
            elif os.path.exists(ROOT + "/" + name): shutil.copy(ROOT + "/" + name, tree.path)
        case.day("a tree/day")
        return tree

    def source(self, name, text, file="src/lib.rt"): write("%s/crates/%s/%s" % (self.path, name, file), text + "\n")

    def says(self, command): self.source("base", command)

    def calls(self):
        """The calls of rt since they were last asked for."""
        try: calls = read(self.path + "/rt.calls").splitlines()
        except FileNotFoundError: return []
        os.remove(self.path + "/rt.calls")
        return calls

    def env(self): return {**os.environ, "PATH": self.path + "/bin:" + os.environ["PATH"]}

    def run(self, **more): return self.case.run_in(self.path + "/chains", self.path + "/day", env=self.env(), **more)

    def built(self):
        """A run that builds, and then the reply of the next."""
        self.run()
        self.calls()
        return self.run()

    def changed(self, *words): return self.case.run_in(self.path + "/tools/changed", *words, env=self.env())[0]


class Built(Case):
    """When the program is built, and what is said of it."""
    ALL = ["lib base", "lib middle", "run chains"]

    def setUp(self):
        super().setUp()
        self.tree = Tree.of(self)

    def test_the_first_call_tells_its_progress(self):
        self.assertEqual((0, "none\n", PROGRESS), self.tree.run())
        self.assertEqual(self.ALL, self.tree.calls())
        self.assertEqual("notes on base\nnotes on middle\nnotes on chains\n", read(self.tree.path + "/target/chains.log"))

    def test_the_second_call_prints_the_answer_alone(self):
        self.assertEqual((0, "none\n", ""), self.tree.built())
        self.assertEqual([], self.tree.calls())

    def test_a_change_of_the_sources(self):
        self.tree.built()
        self.tree.says("echo found 1: 7")
        self.assertEqual((0, "found 1: 7\n", PROGRESS), self.tree.run())
        self.assertEqual((0, "found 1: 7\n", ""), self.tree.run())
        # Back again, with the times of the files as they were: what they say decides.
        self.tree.says("echo none")
        os.utime(self.tree.path + "/crates/base/src/lib.rt", (0, 0))
        self.assertEqual((0, "none\n", PROGRESS), self.tree.run())

    def test_each_sort_of_change(self):
        def noted():
            self.tree.built()
            self.assertEqual([], self.tree.calls())
            return self.tree.calls

        for name, file in (("base", "src/more.rt"), ("middle", "specs/Lib.antt"), ("chains", "proofs/main/Proof.antt"), ("chains", "stdout")):
            calls = noted()
            self.tree.source(name, "new", file)
            self.tree.run()
            self.assertEqual(self.ALL, calls(), file)
            os.remove("%s/crates/%s/%s" % (self.tree.path, name, file))
            self.tree.run()
            self.assertEqual(self.ALL, calls(), file + " taken away")
        calls = noted()
        write(self.tree.path + "/crates.txt", CRATES.replace("chains: middle", "chains: middle base"))
        self.tree.run()
        self.assertEqual(self.ALL, calls())

    def test_what_is_no_change(self):
        self.tree.built()
        self.tree.source("other", "new")
        self.tree.source("base", "new", "must-fail/one.edit")
        write(self.tree.path + "/crates.txt", CRATES.replace("three crates", "some crates"))
        self.assertEqual((0, "none\n", ""), self.tree.run())
        self.assertEqual([], self.tree.calls())

    def test_a_program_that_another_made(self):
        self.tree.built()
        write(self.tree.path + "/target/bin/chains", "#!/bin/sh\necho old\n", 0o755)
        self.assertEqual((0, "none\n", PROGRESS), self.tree.run())

    def test_a_program_that_was_taken_away(self):
        self.tree.built()
        # As rt's own note says that nothing changed, it would link nothing.
        os.remove(self.tree.path + "/crates/chains/out/chains")
        write(self.tree.path + "/crates/chains/out/chains.stamp", "")
        os.remove(self.tree.path + "/target/bin/chains")
        self.assertEqual((0, "none\n", PROGRESS), self.tree.run())

    def test_a_crate_that_is_not_proved(self):
        write(self.tree.path + "/refuse", "middle")
        status, said, more = self.tree.run()
        self.assertEqual((6, ""), (status, said))
        lines = more.splitlines()
        self.assertEqual(PROGRESS.splitlines()[:2] + ["notes on middle"], lines[:3])
        self.assertIn("target/chains.log", lines[3])
        self.assertEqual(4, len(lines))
        os.remove(self.tree.path + "/refuse")
        self.assertEqual((0, "none\n", PROGRESS), self.tree.run())

    def test_an_old_program_does_not_answer_for_sources_that_are_not_proved(self):
        self.tree.built()
        self.tree.says("echo found 1: 7")
        write(self.tree.path + "/refuse", "base")
        for again in range(2): self.assertEqual((6, ""), self.tree.run()[:2])

    def test_a_tree_that_cannot_be_written_to(self):
        # Never built, then built, then changed.
        self.shut()
        self.assertFails(self.tree.run(**self.denied()), 6, "has to be built", "a tree/target cannot be written to")
        self.open()
        self.tree.built()
        self.shut()
        self.assertEqual((0, "none\n", ""), self.tree.run(**self.denied()))
        self.open()
        self.tree.says("echo found 1: 7")
        self.shut()
        self.assertFails(self.tree.run(**self.denied()), 6, "has to be built", "a tree/target cannot be written to")
        self.assertEqual([], self.tree.calls())

    def test_a_target_that_cannot_be_written_to(self):
        os.makedirs(self.tree.path + "/target/log")
        os.chmod(self.tree.path + "/target", 0o777)
        os.chmod(self.tree.path + "/target/log", 0o555)
        self.assertFails(self.tree.run(**self.denied()), 6, "a tree/target/log cannot be written to")

    def test_a_crate_that_cannot_be_written_to(self):
        os.mkdir(self.tree.path + "/target")
        os.chmod(self.tree.path + "/target", 0o777)
        for folder, _, _ in os.walk(self.tree.path + "/crates"): os.chmod(folder, 0o777)
        os.chmod(self.tree.path + "/crates/middle", 0o555)
        self.assertFails(self.tree.run(**self.denied()), 6, "has to be built", "a tree/crates/middle cannot be written to")

    def shut(self): self.each(lambda mode: mode & ~0o222)

    def open(self): self.each(lambda mode: mode | 0o200)

    def each(self, changed):
        for folder, _, _ in os.walk(self.tree.path): os.chmod(folder, changed(os.stat(folder).st_mode))

    def test_no_rt(self):
        without = [part for part in os.environ["PATH"].split(":") if not os.path.exists(part + "/rt")]
        reply = self.run_in(self.tree.path + "/chains", DAY, env={**os.environ, "PATH": ":".join(without)})
        self.assertFails(reply, 6, "has to be built", "(rt) is not on the PATH")

    def test_a_program_that_is_killed(self):
        self.tree.says("kill -9 $$")
        status, said, more = self.tree.built()
        self.assertEqual((6, ""), (status, said))
        self.assertIn("ended before it had answered", more)

    @unittest.skipUnless(shutil.which("flock"), "there is no flock")
    def test_two_builds_at_a_time(self):
        # Another build has the lock, and has made the program when it gives it back.
        self.tree.built()
        stamp = read(self.tree.path + "/target/chains.stamp")
        os.remove(self.tree.path + "/target/chains.stamp")
        with open(self.tree.path + "/target/lock", "w") as lock:
            fcntl.flock(lock, fcntl.LOCK_EX)
            with subprocess.Popen([self.tree.path + "/chains", self.tree.path + "/day"], env=self.tree.env(), text=True,
                                  stdout=subprocess.PIPE, stderr=subprocess.PIPE) as call:
                self.assertEqual("waiting for another build\n", call.stderr.readline())
                write(self.tree.path + "/target/chains.stamp", stamp)
                fcntl.flock(lock, fcntl.LOCK_UN)
                self.assertEqual(("none\n", ""), call.communicate())
        self.assertEqual([], self.tree.calls())


class Changed(Case):
    """tools/changed, for other things that are made from a crate."""

    def test_what_it_says(self):
        tree = Tree.of(self)
        stamp, made = self.folder + "/stamp", self.folder + "/made"
        run = ("--run", stamp, "middle", made, "sh", "-c", 'echo one >>"$0"', made)
        self.assertEqual(0, tree.changed(stamp, "middle", made))
        for again in range(2):
            self.assertEqual(0, tree.changed(*run))
            self.assertEqual("one\n", read(made))
            self.assertEqual(1, tree.changed(stamp, "middle", made))
            self.assertEqual(1, tree.changed(stamp, "middle"))
        self.assertEqual(0, tree.changed(stamp, "chains"))
        self.assertEqual(2, tree.changed(stamp, "nothing"))
        tree.source("base", "new")
        self.assertEqual(0, tree.changed(stamp, "middle"))
        # A command that fails is noted as nothing, and its status is told.
        self.assertEqual(3, tree.changed("--run", stamp, "middle", made, "sh", "-c", "exit 3"))
        self.assertEqual(0, tree.changed(stamp, "middle"))
        self.assertEqual(0, tree.changed(*run))
        self.assertEqual("one\none\n", read(made))
        os.remove(made)
        self.assertEqual(0, tree.changed(stamp, "middle", made))

    def test_the_crates_of_the_program(self):
        crates = self.run_in(ROOT + "/tools/changed", "--crates", "chains")[1].split()
        self.assertEqual(("meaning", "chains"), (crates[0], crates[-1]))
        self.assertIn("`proving 5 of %d: %s`" % (len(crates), crates[4]), read(ROOT + "/README.md"))


class Library(Case):
    """`make lib`: when the library is built. No compiler is asked."""
    PROGRESS = PROGRESS.replace("chains", "exports")

    def setUp(self):
        super().setUp()
        self.tree = Tree.of(self)

    def make(self): return self.run_in("make", "-s", "-C", self.tree.path, "lib", "CC=true", env=self.tree.env())

    def library(self): return read(self.tree.path + "/target/libchains.a")

    def test_the_first_time(self):
        self.assertEqual((0, "", self.PROGRESS), self.make())
        self.assertEqual(["lib base", "lib middle", "lib exports"], self.tree.calls())
        self.assertEqual("echo none\n", self.library())
        self.assertEqual("notes on base\nnotes on middle\nnotes on exports\n", read(self.tree.path + "/target/exports.log"))

    def test_nothing_changed(self):
        self.make()
        self.tree.calls()
        # Times of files have no say.
        os.utime(self.tree.path + "/crates/base/src/lib.rt")
        os.utime(self.tree.path + "/crates.txt")
        self.assertEqual((0, "", ""), self.make())
        self.assertEqual([], self.tree.calls())

    def test_a_change_of_the_sources(self):
        self.make()
        self.tree.says("echo found 1: 7")
        os.utime(self.tree.path + "/crates/base/src/lib.rt", (0, 0))
        self.assertEqual((0, "", self.PROGRESS), self.make())
        self.assertEqual("echo found 1: 7\n", self.library())

    def test_a_crate_that_is_not_proved(self):
        write(self.tree.path + "/refuse", "exports")
        status, said, more = self.make()
        self.assertNotEqual(0, status)
        self.assertIn(self.PROGRESS + "notes on exports\n", more)
        self.assertFalse(os.path.exists(self.tree.path + "/target/libchains.a"))


class Trust(unittest.TestCase):
    """docs/TRUST.md names the C functions that the program's check assumes, and those alone."""

    def test_the_assumed_functions(self):
        report = read(ROOT + "/target/chains.log")
        # The report names three of each library at most.
        reported = {name.rpartition("::")[2] for row in re.findall(r"^axioms \w+: (.*) \(", report, re.M) for name in row.split(", ")}
        part = re.search(r"\*\*For the program `chains`.*?\n\n", read(ROOT + "/docs/TRUST.md"), re.S)[0]
        named = set(re.findall(r"`(\w+)`", part)) - {"chains", "std"}
        self.assertEqual(set(), reported - {"..."} - named)
        self.assertEqual(["axioms=%d" % len(named)], re.findall(r"axioms=\d+", report))
        self.assertIn("`axioms=%d`" % len(named), part)

    def test_the_library_assumes_none(self):
        self.assertEqual([], re.findall("axioms=", read(ROOT + "/target/exports.log")))


class Example(Case):
    """An example for C, Rust or Python: what it prints, and the same statuses as the program's."""

    def test_answers(self):
        self.assertEqual((0, read(DAY + "/worked_day.txt"), ""), self.run_in(self.command, DAY))
        self.assertEqual((0, "none\n", ""), self.run_in(self.command, ROOT + "/tests/data/none"))
        status, said, more = self.run_in(self.command, ROOT + "/tests/data/damaged")
        self.assertEqual((0, "refused 3\n"), (status, said))
        self.assertRegex(more, r"\Aworked_day(\.py)?: %s\n\Z" % re.escape(sentences()["3"]))

    def test_lines_with_a_time(self):
        status, said, more = self.run_in(self.command, ROOT + "/examples/time_limit")
        self.assertEqual((0, ""), (status, more))
        self.assertEqual("found 3: 0 2 5\n"
                         "line 0: from 0, kind 1, class 1, sail number 7, to 1\n"
                         "line 2: from 1, kind 2, class 1, sail number 7, to 2, time 36000\n"
                         "line 5: from 2, kind 4, class 1, sail number 7, to 3, time 54000\n", said)

    def test_an_answer_that_cannot_be_written(self):
        with open("/dev/full", "w") as full:
            self.assertFails(self.run_in(self.command, DAY, stdout=full), 5, "cannot be written")
            self.assertFails(self.run_in(self.command, self.folder, stdout=full), 5, "cannot be written")

    def test_files(self):
        self.assertEqual((0, "no question\n", ""), self.run_in(self.command, self.folder))
        for name in ("day.rec", "ask.pat"):
            day = self.day("with " + name)
            os.remove(day + "/" + name)
            os.mkdir(day + "/" + name)
            self.assertFails(self.run_in(self.command, day), 4, name + " cannot be read: Is a directory")
        self.assertFails(self.run_in(self.command), 2, "day.rec and ask.pat")


class OfRecord(Case):
    """A Rust example that is given the file of a record: what it prints, and that a failure is a line in words."""
    name, record, printed = None, None, None

    def test_answers(self): self.assertEqual((0, self.printed, ""), self.run_in(self.command, self.record))

    def test_failures(self):
        said = self.name + ": "
        self.assertFails(self.run_in(self.command, ROOT + "/tests/data/damaged/day.rec"), 1, said + sentences()["3"])
        self.assertFails(self.run_in(self.command, self.folder), 1, said + "Is a directory")
        self.assertFails(self.run_in(self.command), 1, said + "name a file")
        with open("/dev/full", "w") as full: self.assertFails(self.run_in(self.command, self.record, stdout=full), 1, said + "No space left")


class OneBoat(OfRecord):
    name, record, printed = "one_boat", ROOT + "/examples/one_boat/day.rec", read(ROOT + "/examples/one_boat/by_slip.txt")


class InSteps(OfRecord):
    name, record = "in_steps", DAY + "/day.rec"
    printed = "after 3 states line 7: from 2, kind 4, class 1, sail number 150, to 3\nas it was: found 3: [1, 2, 5]\nas it is: found 3: [0, 3, 7]\n"

    def test_readme(self): self.assertIn("".join("      " + row for row in self.printed.splitlines(True)), read(ROOT + "/README.md"))


EXAMPLES = {"example": "Example", "one_boat": "OneBoat", "in_steps": "InSteps"}

if __name__ == "__main__":
    if sys.argv[1:2] and sys.argv[1] in EXAMPLES:
        Case.command = os.path.abspath(sys.argv[2])
        unittest.main(argv=sys.argv[:1], defaultTest=EXAMPLES[sys.argv[1]])
    unittest.main(defaultTest=["Called", "Answered", "Built", "Changed", "Library", "Trust"])
