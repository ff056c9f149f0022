"""The places that docs/DESIGN-PASS.md counts: what the patterns of tools/design_places.py find in a small text, and that the page has what the command prints of its commit."""
import contextlib
import io
import re
import subprocess
import unittest

import design_places
import rattle_sources
from helpers.documents import rows
from repository import read

OLD = """pub enum Read {
    Is(u8),
    Unread,
}

pub struct Part {
    pub good: bool,
    pub read: Read,
}

const ORDERING: u8 = 0;

// 4 of a column that it has not; else 0.
fn column_refusal(columns: usize, i: usize) -> u8
    requires { (i < 16) × (columns ≤ 16) }
    ensures { result ≡ column_refusal columns i }
{
    if columns <= i {
        return 4;
    }
    0
}

fn flag(is: bool) -> u8 {
    if is { 1 } else { 0 }
}

fn put_all(out: &mut [u8], at: usize, bytes: &[u8]) -> usize
    requires { (at < 16) × (at ≤ length out.old) }
{
    let mut i: usize = 0;
    while i < bytes.len() {
        out[at + i] = bytes[i];
        i += 1;
    }
    at + i
}

fn put_some(buffer: &mut [u8], at: usize, text: &[u8]) -> usize
    requires { (at < 16) × (at ≤ length buffer.old) }
{
    let mut j: usize = 0;
    while j < text.len() {
        buffer[at + j] = text[j];
        j += 1;
    }
    at + j
}

fn step(x: Step, i: usize, columns: usize) -> u8 {
    match x {
        Step::Send(_) => send(i),
        Step::Ack(_) => ack(i),
    }
}

fn other(i: usize, columns: usize) -> bool
    requires { i < 16 }
{
    i < columns
}
"""
FOUND = {1: [1, 6, 11, 14], 2: [28, 39], 3: [32, 43], 4: [24, 32, 43], 5: [14, 14], 6: [28, 39], 7: [50]}


def printed(show, *given):
    with contextlib.redirect_stdout(io.StringIO()) as said:
        show(*given)
    return said.getvalue()


class Design(unittest.TestCase):
    def test_each_pattern_finds_its_places(self):
        code = rattle_sources.Code({"crates/small/src/text.rt": OLD})
        for point, lines in FOUND.items():
            found = [item.line for _, item, _ in design_places.places(code, point)]
            self.assertEqual(sorted(found), lines, point)

    def test_a_text_without_old_forms_has_no_places(self):
        code = rattle_sources.Code({"crates/small/src/text.rt": "pub fn sum<F: Fn(u8) -> u64>(bytes: &[u8], of: F) -> u64\n    ensures { result ≡ total bytes.now }\n{\n    bytes.iter().map(|b| of(*b)).sum()\n}\n"})
        self.assertEqual(code.functions[0].parameters, [("bytes", "&[u8]"), ("of", "F")])
        for point in design_places.POINTS:
            self.assertEqual(list(design_places.places(code, point)), [], point)

    def test_answers_and_repeated_blocks_are_counted(self):
        block = "\n".join(f"line {at}" for at in range(6))
        texts = {"crates/small/proofs/text/f/Answers.antt": f"pub returns : goal.returns\nreturns c = search rules\n\npub other : goal.other\nother c =\n    rw c.f.ensures\n\n{block}\n",
                 "crates/small/proofs/laws/Laws.antt": f"{block}\n"}
        self.assertEqual(design_places.proof_counts(texts), (1, 0, 13, 1, 2, 1, 2))

    def test_the_page_has_what_the_command_prints_of_its_commit(self):
        page = read("docs", "DESIGN-PASS.md")
        commit = page.split("\n")[0]
        self.assertRegex(commit, r"\A[0-9a-f]{40}\Z")
        # A source archive, and a clone without the past, have no such commit.
        try:
            code, proofs = rattle_sources.Code(rattle_sources.texts_of(commit, "src")), rattle_sources.texts_of(commit, "proofs")
        except subprocess.CalledProcessError:
            print("NOT RUN: the commit of docs/DESIGN-PASS.md is not here, so that its places were not counted")
            return
        for point in design_places.POINTS:
            self.assertIn(printed(design_places.show_point, code, point), page)
        self.assertIn(printed(design_places.show_proofs, proofs), page)

    def test_the_page_ends_with_a_row_for_each_point(self):
        table = [row for row in rows(read("docs", "DESIGN-PASS.md").partition("## What changed")[2]) if re.fullmatch(r"\d", row[0])]
        self.assertEqual([int(row[0]) for row in table[:8]], list(range(1, 9)))
