"""A copy of each command with a stand-in for rt, and what holds of every command that reads one input: how it runs, and when it builds."""
import glob
import os
import pty
import re
import shutil
import socket
import subprocess
import tempfile
import unittest

from helpers.programs import failing
from repository import ROOT, built, crates, read

TOOLS = ("awk", "bash", "cat", "cp", "date", "dirname", "find", "grep", "head", "mkdir", "mktemp", "python3", "readlink", "rm", "sed", "sleep", "tee", "touch", "wc")


def below(crate):
    """The crates of the repository that a crate rests on, lowest first."""
    return [name for name in reversed(crates()[crate]) if os.path.isdir(os.path.join(ROOT, "crates", name))]


def said_of(program, begun):
    """What a build says: before it begins how long it may take, and of each crate that is begun which come after it."""
    left, said = [*below(program), program], [f"build: {program} is proved and built first, which may take MINUTES; later runs answer at once"]
    for crate in begun:
        left.remove(crate)
        said.append(f"build: at work: {crate}{'; then: ' if left else ''}{' '.join(left)}")
    return "".join(f"{line}\n" for line in said)


def line_of(crate):
    """What rt prints where it begins a crate."""
    return f"rt: chose --jobs 2 for {crate}\n"


def crates_of(program):
    """The crates of the repository that a program rests on, and its own, the last."""
    return [*below(program), program]


class Command(unittest.TestCase):
    """A command in a folder of its own, ./lockers where no other is named; what it is given, and what it answers to a text."""
    name = "lockers"
    given = "script"
    text = "columns=3\nroot=0\nup=0,0,1\n"
    answer = "table=ok\nrest=yes\n"

    def setUp(self):
        temporary = tempfile.TemporaryDirectory()
        self.addCleanup(temporary.cleanup)
        self.folder = os.path.join(os.path.realpath(temporary.name), "a folder")
        self.crates = crates_of(f"{self.name}_main")
        self.place = f"crates/{self.crates[-1]}/out/{self.crates[-1]}"
        self.program = self.path(self.place)
        self.sources = ["crates.txt"] + [f"crates/{crate}/src/main.rt" for crate in self.crates]
        self.minutes = re.search(r"^takes='(.*)'$", read(self.name), re.M)[1]
        self.progress = said_of(self.crates[-1], self.crates).replace("MINUTES", self.minutes)
        printed = "".join(f"{line_of(crate)}fn {crate}::order: proved\n" for crate in self.crates)
        self.said = f"{printed}rt: running out/{self.crates[-1]}; to give it other input, run that file yourself\n"
        self.builds = f'cp "$here/built" "$here/{self.place}"'
        for folder in ["tools", os.path.dirname(self.place)] + [os.path.dirname(source) for source in self.sources]:
            os.makedirs(self.path(folder), exist_ok=True)
        for tool in TOOLS:
            os.symlink(shutil.which(tool), self.path("tools", tool))
        for source in self.sources:
            self.write(source, "")
        self.file = self.write("given", self.text)
        for part in (self.name, "command.sh", "explain.awk", "crates.txt", "tools/build.sh"):
            shutil.copy(os.path.join(ROOT, part), self.path(part))
        shutil.copy(built(self.crates[-1]), self.path("built"))

    def path(self, *parts):
        return os.path.join(self.folder, *parts)

    def write(self, name, text):
        with open(self.path(name), "w", encoding="utf8") as file:
            file.write(text)
        return self.path(name)

    def build(self):
        """The program is there, newer than every source."""
        shutil.copy(self.path("built"), self.program)
        self.age(self.program, 2000)
        for folder, _, files in os.walk(self.path("crates")):
            for name in ["."] + files:
                self.age(os.path.join(folder, name), 1000)
        self.age(self.path("crates.txt"), 1000)

    def age(self, path, seconds):
        os.utime(path, (seconds, seconds))

    def stand_in(self, does=None, said=None):
        """An rt that keeps where it was called, with which words and with what to read, says something and does something."""
        said, does = self.said if said is None else said, self.builds if does is None else does
        rt = self.write("tools/rt", f"#!/bin/sh\nhere='{self.folder}'\n(pwd; echo \"$*\"; cat) >>\"$here/calls\"\ncat <<'END'\n{said}END\n{does}\n")
        os.chmod(rt, 0o755)
        self.called = f"{os.path.dirname(os.path.dirname(self.program))}\nrun\n"

    def calls(self):
        return read(self.path("calls")) if os.path.exists(self.path("calls")) else ""

    def run_command(self, *words, command=None, **given):
        given = {"stdout": subprocess.PIPE, **given}
        if "input" not in given:
            given.setdefault("stdin", subprocess.DEVNULL)
        return subprocess.run([command or self.path(self.name), *words], stderr=subprocess.PIPE, text=True, env={"PATH": self.path("tools")}, **given)

    def run_in_shell(self, words):
        """What is shown to be typed, in the folder of the command."""
        return subprocess.run(["bash", "-c", words], cwd=self.folder, env={"PATH": self.path("tools")}, capture_output=True, text=True)

    def helped(self, *words):
        """The help of the command, which has the words and names where to read more."""
        done = self.run_command("--help")
        self.assertEqual((done.stderr, done.returncode), ("", 0))
        self.assertEqual(self.run_command("-h").stdout, done.stdout)
        for word in (*words, "docs/COMMANDS.md", "x86-64 Linux", "--explain", "--strict", "--version", self.minutes):
            self.assertIn(word, done.stdout)
        return done.stdout

    def assert_answered(self, done, answer=None, said=""):
        self.assertEqual((done.stdout, done.stderr, done.returncode), (self.answer if answer is None else answer, said, 0))

    def assert_failed(self, done, word, answer=""):
        self.assertEqual(done.stdout or "", answer)
        self.assertRegex(done.stderr, rf"(?:\A|\n){self.name}: [^\n]*{word}[^\n]*\n\Z")
        self.assertNotEqual(done.returncode, 0)

    def assert_misused(self, done, word):
        self.assert_failed(done, word)
        self.assertTrue(done.stderr.startswith(f"usage: ./{self.name} "), done.stderr)
        self.assertEqual(done.returncode, 2)


class Fastest(Command):
    name = "fastest"
    given = "request"
    text = "columns=5\ndelay=2\ngap=1\n"
    answer = "columns=5\nroot=0\nup=0,0,0,0,1\n"


class Losses(Command):
    name = "losses"
    given = "table"
    text = "columns=3\nroot=0\nup=0,0,1\nafter=2\n"
    answer = "kept=6\nlost=1\nnone=1\n"


class Journals(Command):
    name = "journals"
    given = "journal"
    text = "column=1\ngot=1,0,1\nsent=1,3,1\n"
    answer = "sent=1,3,1\n"

    def setUp(self):
        super().setUp()
        self.other = self.write("other", "column=3\n")


class Runs:
    def setUp(self):
        super().setUp()
        self.build()

    def test_a_file_and_standard_input_are_answered_alike(self):
        self.assert_answered(self.run_command(self.file))
        self.assert_answered(self.run_command(input=self.text))

    def test_a_terminal_is_read_up_to_its_end_and_says_so(self):
        near, far = pty.openpty()
        os.write(near, f"{self.text}\x04".encode())
        done = self.run_command(stdin=far)
        os.close(near)
        os.close(far)
        self.assertEqual((done.stdout, done.returncode), (self.answer, 0))
        self.assertEqual(done.stderr, f"{self.name}: the {self.given} is read from this terminal, up to Ctrl-D; ./{self.name} -h has its lines\n")

    def test_it_runs_by_a_link_and_from_another_folder(self):
        os.symlink(f"../{self.name}", self.path("tools", "linked"))
        self.assert_answered(self.run_command("../given", command=self.path("tools", "linked"), cwd=self.path("crates")))

    def test_more_than_one_file_is_refused(self):
        self.assert_misused(self.run_command(self.file, self.file), f"more than one {self.given}")

    def test_a_file_that_cannot_be_read_is_reported(self):
        os.symlink("nowhere", self.path("dangling"))
        with socket.socket(socket.AF_UNIX) as nobody_reads:
            nobody_reads.bind(self.path("socket"))
        for name in ("missing", "dangling", "socket", "crates", ""):
            self.assert_failed(self.run_command(name, cwd=self.folder), f"cannot read {name}")

    def test_a_read_that_fails_is_reported(self):
        with failing(self.text.encode()) as given:
            self.assert_failed(self.run_command(stdin=given), "read to its end", self.answer)
        self.assert_failed(self.run_command(stdin=None, preexec_fn=lambda: os.close(0)), "read to its end", "refused=1\n")

    def test_lost_output_is_reported(self):
        reader, writer = os.pipe()
        os.close(reader)
        with open("/dev/full", "w", encoding="ascii") as full, os.fdopen(writer, "w") as unread:
            for words in ((self.file,), ()):
                for stdout in (full, unread):
                    self.assert_failed(self.run_command(*words, stdout=stdout), "output was lost")
                self.assert_failed(self.run_command(*words, stdout=None, preexec_fn=lambda: os.close(1)), "output was lost")
            self.assertNotEqual(self.run_command("--help", stdout=full).returncode, 0)

    def test_a_program_that_is_ended_is_reported(self):
        os.chmod(self.write(self.place, "#!/bin/sh\nkill -SEGV $$\n"), 0o755)
        self.assert_failed(self.run_command(self.file), "status 139")

    def assert_help_has_the_example(self, *words):
        self.assertEqual("".join(f"{line}\n" for line in re.findall(r"^  (\w+=\S+)(?= |$)", self.helped(*words), re.M)), self.text + self.answer)

    def assert_too_long(self, texts, answer):
        """Texts past the limit, from a file, and an endless input are answered alike."""
        for text in texts:
            for restored in (True, False):
                self.assert_answered(self.run_command(self.write("given", text), restore_signals=restored), answer)
        with open("/dev/zero", encoding="ascii") as endless:
            self.assert_answered(self.run_command(stdin=endless), answer)


class Builds:
    def test_a_program_that_is_missing_is_built_with_a_line_a_crate(self):
        self.stand_in()
        self.assert_answered(self.run_command(self.file, cwd="/"), said=self.progress)
        self.assertEqual(self.calls(), self.called)
        logs = glob.glob(self.path("target", "log", "*"))
        self.assertEqual([read(log) for log in logs], [self.said])

    def test_a_build_leaves_standard_input_to_the_program(self):
        self.stand_in()
        self.assert_answered(self.run_command(input=self.text), said=self.progress)
        self.assertEqual(self.calls(), self.called)

    def test_it_is_built_again_where_a_source_is_newer_and_only_then(self):
        self.stand_in()
        for source in self.sources + [os.path.dirname(source) for source in self.sources[1:]]:
            self.build()
            self.assert_answered(self.run_command(self.file))
            self.age(self.path(source), 3000)
            self.assert_answered(self.run_command(self.file), said=self.progress)
            self.assert_answered(self.run_command(self.file))

    def test_what_rt_finds_unchanged_is_not_asked_again(self):
        self.build()
        self.age(self.path("crates.txt"), 3000)
        self.stand_in(does="")
        self.assert_answered(self.run_command(self.file), said=self.progress)
        self.assert_answered(self.run_command(self.file))

    def test_a_source_changed_during_a_build_is_newer(self):
        self.stand_in(does=f'sleep 0.1\ntouch "$here/{self.sources[1]}"\nsleep 0.1\n{self.builds}')
        for _ in range(2):
            self.assert_answered(self.run_command(self.file), said=self.progress)

    def test_a_build_that_fails_names_its_log_and_runs_nothing(self):
        begun = self.crates[:2]
        refused = "".join(map(line_of, begun))
        progress = said_of(self.crates[-1], begun).replace("MINUTES", self.minutes)
        for built in (False, True):
            if built:
                self.build()
                self.age(self.path("crates.txt"), 3000)
            self.stand_in(does="exit 1", said=f"{refused}error: not so\n")
            done = self.run_command(self.file)
            self.assert_failed(done, "the build failed")
            self.assertTrue(done.stderr.startswith(f"{progress}{self.name}: "), done.stderr)
            self.assertIn("error: not so", read(re.search(r"log is (.*)$", done.stderr)[1]))

    def test_a_build_that_leaves_no_program_is_reported(self):
        self.stand_in(does="")
        self.assert_failed(self.run_command(self.file), "there is no")

    def test_without_rt_a_program_is_run_where_it_is_newer_than_its_sources(self):
        self.assert_failed(self.run_command(self.file), r"\brt\b")
        self.build()
        self.assert_answered(self.run_command(self.file))
        self.age(self.path("crates.txt"), 3000)
        self.assert_failed(self.run_command(self.file), r"\brt\b")

    def test_a_file_that_is_not_there_is_reported_before_a_build(self):
        self.stand_in()
        self.assert_failed(self.run_command(self.path("missing")), "cannot read")
        self.assertEqual(self.calls(), "")
