"""What the four commands say beside their answer: which line is refused and why, their status with --strict, their version, and that a copy without sources runs."""
import os
import pty
import re
import shutil
import subprocess

from helpers import commands
from repository import ROOT, read, version

TABLE = "columns=3\nroot=0\nup=0,0,1\n"
NOTHING = "the column has nobody to send to"
# A script, and what is said of it.
SCRIPTS = (
    (f"{TABLE}order=0102000000000000\nlist=0\nsend=2\nrun=9999\nall=0\n",
     f"line 6: send=2: refused=6: {NOTHING}\nline 8: all=0: refused=6: the column is the root, has not noted the column that it watches, has taken over already, or still sends or awaits\n"),
    ("columns=3\nroot=0\nup=0,0,1\nfirst=2,1,0\nwatch=sender\nsend=0\n", f"line 6: send=0: refused=6: {NOTHING}\n"),
    (f"{TABLE}halt=2\nhalt=2\nsend=2\nsend=3\nnote=0,1\nback=1\nack=0\nhalt=0\nback=0\ntake=0\n",
     "line 5: halt=2: refused=5: a column of the line is halted already\nline 6: send=2: refused=5: the column is halted\nline 7: send=3: refused=4: the bank has no such column\n"
     "line 8: note=0,1: refused=6: the second column runs, is the first one, or is noted already\nline 9: back=1: refused=6: the column runs\n"
     "line 10: ack=0: refused=6: the column owes nobody, or it still sends or awaits\nline 12: back=0: refused=15: the root does not come back\n"
     "line 13: take=0: refused=10: no packet is at that place\n"),
    (TABLE.replace("\n", "\r\n"), "line 1: columns=3\\r: refused=1: the input has not the form that is asked for\nline 1 ends in a carriage return: lines end in a newline alone\n"),
    (f"{TABLE}send=0", "line 4: send=0: refused=13: no line has this form; see ./lockers --help\nthe last line does not end in a newline\n"),
    ("columns=17\nroot=0\nup=0\n", "line 1: columns=17: refused=2: there are 0 columns, or more than 16\n"),
    ("columns=3\nroot=3\nup=0,0,1\n", "line 2: root=3: refused=3: this is no tree of these columns\n"),
    ("columns=3\nroot=0\nup=0,2,1\n", "line 3: up=0,2,1: refused=3: this is no tree of these columns\n"),
    (f"{TABLE}first=0,1,1\n", "line 4: first=0,1,1: refused=3: this is no tree of these columns\n"),
    ("columns=3\nroot=0\nup=0,0,1,\n", "line 3: up=0,0,1,: refused=1: the input has not the form that is asked for\n"),
    (f"{TABLE}watch=me\n", "line 4: watch=me: refused=1: the input has not the form that is asked for\n"),
    ("\n" * 65537, "refused=13: the input has more than 65,536 bytes\n"),
)


class Explained:
    """What holds of every command."""
    wrong = (f"{TABLE}jump=1\x1b\n", "line 4: jump=1?: refused=13: no line has this form; see ./lockers --help\n")

    def setUp(self):
        super().setUp()
        self.build()

    def words(self, text):
        """What the command is called with for a text."""
        return [self.write("given", text)]

    def said_on_a_terminal(self, text):
        """What is said where standard error is a terminal, of a run that ends with status 0."""
        near, far = pty.openpty()
        subprocess.run([self.path(self.name), *self.words(text)], stdout=subprocess.DEVNULL, stderr=far, env={"PATH": self.path("tools")}, check=True)
        os.close(far)
        with os.fdopen(near, "rb", buffering=0) as terminal:
            return terminal.read(100_000).decode().replace("\r\n", "\n")

    def test_a_refusal_is_explained_where_it_is_asked_for_and_the_answer_stays(self):
        text, said = self.wrong
        words = self.words(text)
        plain, explained = self.run_command(*words), self.run_command("--explain", *words)
        self.assertEqual((plain.stderr, plain.returncode), ("", 0))
        self.assertEqual((explained.stdout, explained.stderr, explained.returncode), (plain.stdout, said, 0))

    def test_an_answer_without_a_refusal_needs_no_word(self):
        self.assert_answered(self.run_command("--explain", "--strict", *self.words(self.text)))

    def test_on_a_terminal_it_is_explained_unasked(self):
        self.assertEqual(self.said_on_a_terminal(self.wrong[0]), self.wrong[1])

    def test_strict_ends_with_3_where_anything_is_refused(self):
        done = self.run_command("--strict", *self.words(self.wrong[0]))
        self.assertEqual((done.stdout, done.stderr, done.returncode), (self.run_command(*self.words(self.wrong[0])).stdout, "", 3))

    def test_the_version_is_that_of_the_library(self):
        done = self.run_command("--version")
        self.assertEqual((done.stdout, done.stderr, done.returncode), (f"{self.name} {version()}\n", "", 0))
        major, minor = (re.search(rf"MUDASGUP_VERSION_{part} (\d+)", read("include", "mudasgup.h"))[1] for part in ("MAJOR", "MINOR"))
        self.assertEqual(version(), f"{major}.{minor}")

    def test_an_option_that_is_none_is_a_wrong_call(self):
        for word in ("--explained", "-x", "--strict=yes"):
            self.assert_misused(self.run_command(word, *self.words(self.text)), f"there is no option {word}")

    def test_after_two_dashes_a_file_may_begin_with_a_dash(self):
        words = self.words(self.text)
        for path in words:
            shutil.copy(path, self.path(f"-{os.path.basename(path)}"))
        self.assert_answered(self.run_command("--", *(f"-{os.path.basename(path)}" for path in words), cwd=self.folder))

    def test_a_copy_without_sources_runs_and_says_nothing(self):
        words = self.words(self.text)
        for place in (".", f"crates/{self.crates[-1]}/out"):
            elsewhere = self.path("elsewhere", place.replace("/", "-"))
            os.makedirs(os.path.join(elsewhere, place), exist_ok=True)
            for part in (self.name, "command.sh", "explain.awk"):
                shutil.copy(os.path.join(ROOT, part), elsewhere)
            command = os.path.join(elsewhere, self.name)
            self.assert_failed(self.run_command(*words, command=command), "there are no sources")
            shutil.copy(self.path("built"), os.path.join(elsewhere, place, self.crates[-1]))
            self.assert_answered(self.run_command(*words, command=command))
            os.remove(os.path.join(elsewhere, "explain.awk"))
            self.assert_answered(self.run_command(*words, command=command))


class Lockers(Explained, commands.Command):
    def test_each_refusal_names_its_line(self):
        for text, said in SCRIPTS:
            self.assertEqual(self.run_command("--explain", *self.words(text)).stderr, said, text[:80])

    def test_a_terminal_has_the_first_twenty(self):
        said = self.said_on_a_terminal(TABLE + "send=0\n" * 25).splitlines()
        self.assertEqual((len(said), said[-1]), (21, "5 more are refused; --explain names all"))


class Fastest(Explained, commands.Fastest):
    wrong = ("columns=5\ndelay=2\ngap=256\n", "line 3: gap=256: refused=17: a delay or gap is 0 or above 255\n")


class Losses(Explained, commands.Losses):
    wrong = (f"{TABLE}after=1000\n", "line 4: after=1000: refused=13: no line has this form; see ./losses --help\n")

    def test_each_refusal_names_its_line(self):
        for text, said in ((f"{TABLE}watch=sender\nafter=2\n", "line 4: watch=sender: refused=23: there are more than 8 columns, or the table has watch=sender\n"),
                           (TABLE, "refused=13: the line after= is missing\n"), (f"{TABLE}after=2\nafter=3\n", "line 5: after=3: refused=13: no line has this form; see ./losses --help\n")):
            self.assertEqual(self.run_command("--explain", *self.words(text)).stderr, said, text)


class Journals(Explained, commands.Journals):
    wrong = ("column=1\ngot=1,3,1\n", "refused=21: one column got what the other did not send\njournal 1, line 2: got=1,3,1\n")

    def words(self, text):
        return [self.write("given", text), self.other]

    def test_each_refusal_names_its_line(self):
        form, twice = "a line has not the form of a journal's, a journal is too long, or both have one owner", "a line is there twice"
        for text, said in (("column=1\nsent=3,3,1\n", f"refused=19: {form}\njournal 1, line 2: sent=3,3,1\n"), ("column=3\n", f"refused=19: {form}\n"),
                           ("column=1\nsent=1,3,1\nsent=1,3,1\n", f"refused=20: {twice}\njournal 1, line 3: sent=1,3,1: as line 2\n"),
                           ("column=1\nsent=1,3,1", f"refused=19: {form}\nthe last line does not end in a newline\n")):
            self.assertEqual(self.run_command("--explain", *self.words(text)).stderr, said, text)
