"""Pictures of runs: every example is drawn with what happens in it, and an answer that does not fit is reported."""
import os
import subprocess
import sys
import tempfile
import unittest
import xml.etree.ElementTree as tree

import picture
import recorded
from repository import ROOT, examples, read

TOOL = os.path.join(ROOT, "tools", "picture.py")
SHOWN = {"taken-over": os.path.join(ROOT, "docs", "taken-over.svg")}
# How wide a letter is at most.
LETTER = 6.2
# What the legend has of each.
LEGEND = {"message": 1, "acknowledgement": 1, "takeover": 1}


def drawn(script, *program):
    return subprocess.run([sys.executable, TOOL, script, *program], capture_output=True, text=True)


def stored(script):
    """The answers to a script that are stored beside it."""
    return read(script.replace(".script", ".out"))


def counts(picture):
    """How often each class of the legend's is drawn."""
    classes = [element.get("class") for element in tree.fromstring(picture).iter()]
    return {kind: classes.count(kind) - more for kind, more in LEGEND.items()}


def happened(script):
    """How many packets of each kind were put, and how many takeovers there were."""
    with open(script, "rb") as file:
        bank = recorded.recorded(file.read(), stored(script))
    kinds = [flight.kind for flight in bank.flights]
    marks = [kind for moment in bank.moments for _, kind, _ in moment.marks]
    return {"message": kinds.count("message"), "acknowledgement": kinds.count("acknowledgement"), "takeover": marks.count("takeover")}


def accepted(script):
    return stored(script).startswith("table=ok\n")


class Pictures(unittest.TestCase):
    def test_every_example_is_drawn_with_what_happens_in_it(self):
        met = {kind: 0 for kind in LEGEND}
        for script in filter(accepted, examples()):
            picture = drawn(script)
            self.assertEqual((picture.returncode, picture.stderr), (0, ""), script)
            self.assertEqual(counts(picture.stdout), happened(script), script)
            for kind, count in happened(script).items():
                met[kind] += count
        self.assertNotIn(0, met.values())

    def test_a_refused_table_is_not_drawn(self):
        picture = drawn(os.path.join(ROOT, "examples", "cycle.script"))
        self.assertEqual((picture.returncode, picture.stdout), (1, ""))
        self.assertIn("the table is refused with 3", picture.stderr)

    def test_an_answer_that_does_not_fit_is_reported(self):
        script = os.path.join(ROOT, "examples", "taken-over.script")
        answers = stored(script)
        for wrong in (answers.replace("number=1\n", "number=0\n", 1), answers.replace("rest=yes", "rest=no"), answers + "step=ok\n"):
            with tempfile.NamedTemporaryFile("w", suffix=".sh", delete=False) as program:
                program.write(f"#!/bin/sh\ncat <<'END'\n{wrong}END\n")
            os.chmod(program.name, 0o755)
            picture = drawn(script, program.name)
            os.remove(program.name)
            self.assertEqual((picture.returncode, picture.stdout), (1, ""))
            self.assertIn("the program answers", picture.stderr)

    def test_the_pictures_of_the_documents_are_those_of_their_scripts(self):
        document = read("docs", "SCRIPTS.md")
        for name, path in SHOWN.items():
            self.assertEqual(drawn(os.path.join(ROOT, "examples", f"{name}.script")).stdout, read(path), path)
            self.assertIn(f"](docs/{name}.svg)\n", read("README.md"))
            self.assertIn(f"]({name}.svg)\n", document)
            self.assertIn(f"\ntools/picture.py examples/{name}.script > docs/{name}.svg\n", document)


def box_of(element):
    """Where a text is, as the least and the greatest x and y."""
    x, y, width = float(element.get("x")), float(element.get("y")), LETTER * len(element.text or "")
    left = x - width / 2 if element.get("text-anchor") == "middle" else x
    return left, y - 9, left + width, y + 2


def crosses(line, box):
    """Whether a line goes through a box: what is left of it between each pair of sides is no point less than a part of it."""
    x, y, to_x, to_y = (float(line.get(name)) for name in ("x1", "y1", "x2", "y2"))
    begin, end = 0, 1
    for start, way, least, most in ((x, to_x - x, box[0], box[2]), (y, to_y - y, box[1], box[3])):
        if way == 0:
            if not least < start < most:
                return False
        else:
            enters, leaves = sorted(((least - start) / way, (most - start) / way))
            begin, end = max(begin, enters), min(end, leaves)
    return begin < end


class LargeRuns(unittest.TestCase):
    """A run of sixteen columns and 200 steps, with a sequence and the sender watched."""

    @classmethod
    def setUpClass(cls):
        up, first = (0, 0, 0, 1, 1, 2, 2, 3, 3, 4, 4, 5, 5, 6, 6, 7), (0, *range(15, 0, -1))
        table = f"columns=16\nroot=0\nup={','.join(map(str, up))}\nfirst={','.join(map(str, first))}\nwatch=sender\n"
        data = (table + "order=0102000000000000\nrun=70\nrun=9999\norder=0400000000000000\nrun=40\nhalt=3,5\nrun=60\nhalt=0\nrun=94\n").encode()
        cls.bank = recorded.recorded(data, recorded.model.script(data))
        cls.elements = list(tree.fromstring(picture.drawn(cls.bank)).iter())

    def of_class(self, *kinds):
        return [element for element in self.elements if element.get("class") in kinds]

    def test_the_columns_are_named_again_and_the_table_is_shown(self):
        self.assertGreaterEqual(len(self.bank.moments), 200)
        again = [element for element in self.of_class("again")]
        self.assertEqual(len(again), 16 * ((len(self.bank.moments) - picture.EVERY // 2 - 1) // picture.EVERY))
        heads = [element.text for element in self.of_class("head")]
        self.assertEqual(heads, [str(i) for i in range(16)] * (len(heads) // 16))
        self.assertEqual(len(heads), 16 + len(again))
        self.assertTrue(any("first=0,15,14" in (element.text or "") and "watch=sender" in element.text for element in self.elements))

    def test_a_take_says_which_packet_it_takes(self):
        texts = [element.text or "" for element in self.elements]
        taken = [flight for flight in self.bank.flights if flight.end == "taken"]
        self.assertGreater(len(taken), 20)
        for flight in taken:
            self.assertIn(picture.shortened(f"{flight.sender} to {flight.to}: {flight.kind} {flight.number}"), texts)

    def test_no_text_is_over_a_line(self):
        lines = [element for element in self.elements if element.tag.endswith("line")]
        texts = [element for element in self.elements if element.tag.endswith("text") and element.get("class") not in ("number", "head")]
        self.assertGreater(len(texts), 300)
        for element in texts:
            box = box_of(element)
            self.assertEqual([line.attrib for line in lines if crosses(line, box)], [], element.text)
