"""Every name that a page of docs/ cites is in the file that it names for it, and the layers are those of the crates."""
import glob
import os
import re

from cases import test_fastest, test_firmware, test_frames, test_handed, test_journals, test_losses, test_pages
from generators import counters
from helpers import refusals
from machines.kit import PARTS
from helpers.documents import BLOCK, Citations, citations, file_of, rows, section, spans
from repository import ROOT, crates, read
from models import handed_five
from wrong_models import fastest_mutants, firmware_mutants, frames_mutants, journals_mutants, losses_mutants, pages_mutants, script_mutants

CITING = ("SPECIFICATION.md", "REPORT.md", "PROOFS.md")
# Of each test what it counts, how often each must be met at least, and the wrong models that it must find.
COUNTED = {
    "test_random": (counters.WANTED, counters.LEAST, [script_mutants.TOLD]),
    "test_frames": ([*test_frames.ASKED, *test_frames.CONVERTED], test_frames.LEAST, [frames_mutants.WRONG, frames_mutants.WRONG_CONVERTERS]),
    "test_fastest": (test_fastest.ASKED, test_fastest.LEAST, [fastest_mutants.WRONG]),
    "test_journals": (test_journals.ASKED, test_journals.LEAST, [journals_mutants.wrong()]),
    "test_pages": (test_pages.TOLD, test_pages.LEAST, [pages_mutants.WRONG]),
    "test_losses": (test_losses.ASKED, test_losses.LEAST, [losses_mutants.WRONG]),
    "test_firmware": (test_firmware.TOLD, test_firmware.LEAST, [firmware_mutants.WRONG]),
}


def rests_on(crate, below):
    """A crate's crates, and those of theirs."""
    return below[crate].union(*(rests_on(other, below) for other in below[crate]))


class Documents(Citations):
    def test_every_citation_is_in_its_file(self):
        cited = {document: list(citations(read("docs", document))) for document in CITING}
        for document, pairs in cited.items():
            self.assertGreater(len([name for name, _ in pairs if name]), 20, document)
            for name, path in pairs:
                self.assert_cited(document, name, path)

    def test_every_law_that_a_reason_cites_is_in_its_file(self):
        cited = [pair for _, _, _, reason, *_ in script_mutants.EQUAL for pair in citations(reason)]
        self.assertGreaterEqual(len(cited), 2)
        for name, path in cited:
            self.assert_cited("tests/wrong_models/script_equals.py", name, path)

    def test_the_numbers_of_each_program_are_those_of_the_table(self):
        _, _, *lines = rows(section(read("tests", "mutants", "README.md"), "The refusals that the tests meet"))
        told = {program: {int(number) for number, *cells in lines if cells[place]} for place, program in enumerate(refusals.PROGRAMS)}
        self.assertEqual(told, refusals.PROGRAMS)

    def test_counters_and_wrong_models_are_as_many_as_is_said(self):
        said = {re.search(r"tests/run\.py (\w+)`", row[0])[1]: row[2] for row in rows(section(read("docs", "TESTS.md"), "What each prints"))[2:] if "tests/run.py" in row[0]}
        for test, (counted, least, wrong) in COUNTED.items():
            self.assertEqual(re.findall(r"(\d+) counters met (\d+) times", said[test]), [(str(len(counted)), str(least))], test)
            self.assertEqual(re.findall(r"(\d+) wrong ", said[test]), [str(len(models)) for models in wrong], test)
        self.assertIn(f"; {len(script_mutants.EQUAL)} are equal,", said["test_random"])
        handed = [len(handed_five.WRONG_RETURNS), len(test_handed.WRONG_PAGES)]
        self.assertEqual(re.findall(r"(\d+) wrong ", said["test_handed"]), [str(count) for count in handed])

    def test_the_table_of_wrong_models_has_as_many_as_there_are(self):
        text = section(read("tests", "mutants", "README.md"), "Wrong models")
        told = [[int(number) for number in re.findall(r"\b\d+\b", row[2].split("(")[0])] for row in rows(text)[2:]]
        self.assertEqual(sorted(told), sorted([len(models) for models in wrong] for _, _, wrong in COUNTED.values()))
        self.assertIn(f"Of the script program {len(script_mutants.EQUAL)} more are equal", text)

    def test_the_layers_are_the_crates_and_their_modules(self):
        layers = section(read("docs", "PROOFS.md"), "Layers")
        self.assertEqual(set(re.findall(r"crates/(\w+)", layers)), set(crates()))
        libraries = ("column", "fastest", "bank", "losses", "text", "list", "table", "script", "fastest_text", "losses_text", "journals", "firmware", "firmware_c")
        modules = {os.path.relpath(path, ROOT) for crate in libraries for path in glob.glob(os.path.join(ROOT, "crates", crate, "src", "*.rt"))}
        named = {file_of(word) for word in spans(layers)} - {None}
        self.assertEqual(named, {path for path in modules if not path.endswith("lib.rt")})

    def test_the_list_of_the_layers_is_that_of_the_crates(self):
        lines = BLOCK.search(section(read("docs", "PROOFS.md"), "Layers"))[1].splitlines()
        listed = crates()
        below = {}
        for line in lines:
            name, rest = re.match(r"crates/(\w+) +(.*?)(?:  |$)", line).groups()
            below[name] = set(rest.split()) - {"-"}
        self.assertEqual({crate: rests_on(crate, below) for crate in below}, {crate: {*rest} & {*listed} for crate, rest in listed.items()})

    def test_every_name_of_the_decisions_is_in_a_source(self):
        paths = [path for part in PARTS for path in glob.glob(os.path.join(ROOT, "crates", "*", part, "**", "*.*"), recursive=True) if path.endswith((".rt", ".antt"))]
        modules = {os.path.basename(path).split(".")[0] for path in paths + glob.glob(os.path.join(ROOT, "tests", "mutants", "*", "*.edit"))}
        words = set(re.findall(r"[\w\-]+", "\n".join(read(path) for path in [*paths, "crates.txt", "command.sh"])))
        named = {word for word in spans(read("docs", "DECISIONS.md")) if re.fullmatch(r"[A-Za-z][\w\-]*", word)}
        self.assertGreater(len(named), 200)
        self.assertEqual(named - words - modules, set())

    def test_every_point_of_document_02_has_its_decisions_and_its_landing(self):
        decisions = read("docs", "DECISIONS.md")
        entries = re.findall(r"^- \*\*(.+?)\*\*", decisions, re.M)
        named = {int(row[0]): re.findall(r"\*\*(.+?)\*\*", row[1]) for row in rows(section(decisions, "Document 02, Point by Point"))[2:]}
        self.assertEqual(list(named), list(range(1, 14)))
        for point, names in named.items():
            self.assertTrue(names, point)
            for name in names:
                self.assertEqual(entries.count(name), 1, name)
        for document, heading in (("SPECIFICATION.md", "## Document 02, Point"), ("CHANGES.md", "## Point")):
            points = {int(point) for point in re.findall(rf"^{heading} (\d+): ", read("docs", document), re.M)}
            self.assertEqual(points, set(named), document)
