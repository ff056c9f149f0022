"""How long the sentences of the documents are: their mean and the longest of each document are printed, and have a limit."""
import glob
import os
import unittest

from helpers.sentences import lengths, sentences
from repository import ROOT, read

MEAN, LONGEST = 22, 45


def documents():
    """The documents by their paths."""
    paths = ["README.md", "CONTRIBUTING.md", "tests/mutants/README.md", *(os.path.relpath(path, ROOT) for path in sorted(glob.glob(os.path.join(ROOT, "docs", "*.md"))))]
    return {path: read(path) for path in paths}


class Sentences(unittest.TestCase):
    def test_sentences_are_short(self):
        found = {path: lengths(text) for path, text in documents().items() if sentences(text)}
        self.assertGreater(len(found), 12)
        for path, (mean, longest, _) in found.items():
            print(f"{path}: mean {mean:.1f}, longest {longest}")
        for path, (mean, longest, words) in found.items():
            self.assertLessEqual(mean, MEAN, path)
            self.assertLessEqual(longest, LONGEST, f"{path}: {words}")

    def test_a_long_sentence_is_seen(self):
        text = "# A heading\n\nOne two three. `a b` is four, five.\n\n- six seven\n  eight nine. Ten.\n\n| not | this |\n\n```\nnor this\n```\n"
        self.assertEqual([len(one) for one in sentences(text)], [3, 4, 4, 1])
        self.assertEqual(lengths(text), (3.0, 4, "CODE is four, five."))
