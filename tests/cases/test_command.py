"""The commands ./lockers, ./fastest, ./journals and ./losses: what they read and print, when they build, and how they end where something is lost. They run as copies, with
a stand-in for rt."""
import os
import re
import shutil
import subprocess

import model
from helpers import commands
from helpers.documents import BLOCK, section
from models import model_fastest
from repository import ROOT, examples, read


class LockersRuns(commands.Runs, commands.Command):
    def test_every_example_is_answered_from_a_file_and_from_standard_input(self):
        for path in examples():
            answer = read(path.removesuffix(".script") + ".out")
            self.assert_answered(self.run_command(path), answer)
            self.assert_answered(self.run_command(input=read(path)), answer)

    def test_help_names_the_lines_and_where_to_read_more(self):
        lines = re.findall(r"^  (\w+=\S+) ", self.helped("examples/", "KB of stack"), re.M)
        self.assertEqual(model.script("".join(f"{line}\n" for line in lines[:3]).encode()), self.answer)
        self.assertEqual(sorted(line.split("=")[0] for line in lines[3:]), sorted(model.STEPS))
        for line in lines[3:]:
            self.assertRegex(line, rf"\A{model.STEPS[line.split('=')[0]]}\Z")

    def test_a_script_of_any_length_is_answered(self):
        whole = self.text.ljust(model.LIMIT, "\n")
        answer = "table=ok\n" + "refused=13\n" * (model.LIMIT - len(self.text)) + "rest=yes\n"
        self.assert_answered(self.run_command(self.write("given", whole)), answer)
        self.assert_too_long((whole + "\n", whole * 100), "refused=13\n")


class LockersBuilds(commands.Builds, commands.Command):
    pass


class FastestRuns(commands.Runs, commands.Fastest):
    def test_help_names_the_lines_and_where_to_read_more(self):
        self.assert_help_has_the_example("17 for")

    def test_a_request_of_any_length_is_answered(self):
        longest = "columns=16\ndelay=255\ngap=255\n"
        self.assertEqual(len(longest), 29)
        self.assert_answered(self.run_command(input=longest), model_fastest.Strategy().answer(longest.encode()))
        self.assert_too_long((longest + "\n", self.text.ljust(29, "\n"), longest * 10_000), "refused=1\n")


class FastestBuilds(commands.Builds, commands.Fastest):
    pass


class LossesRuns(commands.Runs, commands.Losses):
    def test_help_names_the_lines_and_where_to_read_more(self):
        self.assert_help_has_the_example("23 for", "13 for")

    def test_an_input_of_any_length_is_answered(self):
        self.assert_too_long((self.text.ljust(model.LIMIT, "\n"), self.text.ljust(model.LIMIT + 1, "\n"), self.text * 10_000), "refused=13\n")

    def test_what_the_document_shows_of_losses(self):
        command, printed, _ = BLOCK.findall(section(read("docs", "COMMANDS.md"), "How many halts lose the order"))
        self.assert_answered(self.run_in_shell(command), printed)


class LossesBuilds(commands.Builds, commands.Losses):
    pass


class JournalsRuns(commands.Journals):
    def test_two_files_are_answered(self):
        self.build()
        self.assert_answered(self.run_command(self.file, self.other))
        self.assert_answered(self.run_command(self.other, self.file))
        self.assert_answered(self.run_command(self.file, self.file), "refused=19\n")
        self.assert_answered(self.run_command(self.file, "/dev/zero"), "refused=19\n")

    def test_another_count_of_files_is_refused(self):
        self.build()
        for words in ((), (self.file,), (self.file, self.other, self.other)):
            self.assert_misused(self.run_command(*words), "two journals are asked for")

    def test_a_file_that_cannot_be_read_is_reported_before_a_build(self):
        self.stand_in()
        for words in (("missing", self.other), (self.file, "missing"), (self.file, self.folder)):
            self.assert_failed(self.run_command(*words, cwd=self.folder), "cannot read")
        self.assertEqual(self.calls(), "")

    def test_what_was_held_is_removed(self):
        self.build()
        os.makedirs(self.path("held"))
        done = subprocess.run([self.path(self.name), self.file, self.other], capture_output=True, text=True,
                              env={"PATH": self.path("tools"), "TMPDIR": self.path("held")})
        self.assert_answered(done)
        self.assertEqual(os.listdir(self.path("held")), [])

    def test_lost_output_and_a_program_that_is_ended_are_reported(self):
        self.build()
        with open("/dev/full", "w", encoding="ascii") as full:
            self.assert_failed(self.run_command(self.file, self.other, stdout=full), "output was lost")
        os.chmod(self.write(self.place, "#!/bin/sh\nkill -SEGV $$\n"), 0o755)
        self.assert_failed(self.run_command(self.file, self.other), "status 139")

    def test_a_program_that_is_missing_is_built(self):
        self.stand_in()
        self.assert_answered(self.run_command(self.file, self.other), said=self.progress)
        self.assertEqual(self.calls(), self.called)

    def test_help_names_the_lines_and_where_to_read_more(self):
        self.helped("column=1", "sent=1,2,7", "got=2,2,7", "19 for", "20 where", "21 where")

    def test_what_the_document_shows_of_journals(self):
        self.build()
        os.makedirs(self.path("examples"))
        shutil.copytree(os.path.join(ROOT, "tools", "model"), self.path("tools", "model"))
        for path in ("tools/script_journals.py", "tools/repository.py", "mudasgup.pc", "examples/strip-halted.script"):
            shutil.copy(os.path.join(ROOT, path), self.path(path))
        command, printed = BLOCK.findall(section(read("docs", "COMMANDS.md"), "The journals of two columns"))
        self.assert_answered(self.run_in_shell(command), printed)


class Together(commands.Command):
    """Two commands; the request's table goes from the one to the other."""
    def test_what_the_document_shows_of_the_fastest_tree(self):
        self.build()
        for path in ("fastest", "crates/fastest_main/out/fastest_main"):
            os.makedirs(os.path.dirname(self.path(path)), exist_ok=True)
            shutil.copy(os.path.join(ROOT, path), self.path(path))
        shown = BLOCK.findall(section(read("docs", "COMMANDS.md"), "The fastest tree"))
        self.assertEqual(len(shown), 4)
        for command, printed in zip(shown[::2], shown[1::2]):
            self.assert_answered(self.run_in_shell(command), printed)
