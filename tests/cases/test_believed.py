"""What must be believed is apart from what is proved.

The files of `crates/*/specs` hold the definitions and statements that public contracts and the statements rest on, and nothing else; in three folders beside
them are `inner`, definitions that private contracts cite, `laws`, theorems, and `examples`, what is computed.

A declaration is a definition where it is a record or a data type, or is marked `abbrev` or `unfoldable`, itself or by its mutual block, and its type
does not end in a proposition; every other one is a theorem. A type ends in a proposition where what it gives is an equation, a comparison, an
exactly-where, a pair or sum of such, an absurdity, or an instance of a definition that is one: a record with a field of this kind, or a definition that
gives a `Type` and whose own text has such a sign. So statements, which are such records and definitions, may be in `specs`, and no instance of one."""
import re
import unittest

from reading_paths import FOLDERS, Specifications, believed, contracts, declarations, table, totals
from repository import read

SIGN = re.compile(r"(?<!\S)(≡|≤|<|↔|⊎|⊥)(?!\S)")
GROUP = re.compile(r"[Dd]ocument 0[12]|[Pp]oint \d|[Dd]emand 3|the report|Figure 3\.2|[Nn]o paper")


def typed(declaration):
    """The type of a declaration, on one line."""
    return " ".join(" ".join(declaration.type_lines()).split()).partition(" : ")[2]


def given(type_text):
    """What a type gives, past its last arrow outside of brackets."""
    depth, start = 0, 0
    for at, sign in enumerate(type_text):
        depth += (sign in "({") - (sign in ")}")
        if sign == "→" and depth == 0:
            start = at + 1
    return type_text[start:].strip()


def says(declaration, named, propositions):
    """Whether a definition is a statement: one that gives a `Type`, or a record, with a sign of a proposition or another statement in its text."""
    text = "\n".join(re.sub(r"(?<!\S)--.*", "", line) for line in declaration.lines)
    gives_type = declaration.kind == "record" or declaration.kind == "definition" and given(typed(declaration)).startswith("Type")
    return gives_type and bool(SIGN.search(text) or any(one in propositions and one is not declaration for one in named(declaration, text)))


def statements(found, named):
    """Those of the declarations that are statements."""
    known, more = set(), True
    while more:
        more = {one for one in found if says(one, named, known)} - known
        known |= more
    return known


def is_theorem(declaration, named, propositions):
    if declaration.kind in ("record", "data", "mutual"):
        return False
    gives = given(typed(declaration))
    return declaration.kind == "theorem" or bool(SIGN.search(gives)) or any(one in propositions for one in named(declaration, gives.split(" ")[0]))


class Believed(unittest.TestCase):
    @classmethod
    def setUpClass(cls):
        cls.specs = Specifications()
        cls.top = {place: found for place, found in cls.specs.files.items() if place.count("/") == 1}
        cls.inner = {place: found for place, found in cls.specs.files.items() if place.split("/")[1] == "inner"}
        cls.propositions = statements([one for found in [*cls.top.values(), *cls.inner.values()] for one in found], cls.named)

    @classmethod
    def named(cls, declaration, text):
        """What a part of a declaration's text names."""
        return cls.specs.named([text], *cls.specs.uses[declaration.place], declaration.place)

    def test_only_the_three_folders_are_beside_what_is_believed(self):
        self.assertEqual({place.split("/")[1] for place in self.specs.files if place.count("/") > 1}, set(FOLDERS))

    def test_no_theorem_is_believed(self):
        self.assertGreater(len(self.top), 40)
        for place, found in [*self.top.items(), *self.inner.items()]:
            for one in found:
                self.assertFalse(is_theorem(one, self.named, self.propositions), f"{place}: {one.names}")

    def test_what_is_believed_rests_on_nothing_that_is_proved(self):
        for place in [*self.top, *self.inner]:
            allowed = FOLDERS[:1] if place in self.inner else ()
            names, aliases = self.specs.uses[place]
            for cited in [*(cited for cited, _ in names.values()), *aliases.values()]:
                self.assertIn(cited.split("/")[1], [*allowed, cited.split("/")[-1]], f"{place}: {cited}")
            self.assertNotRegex(self.specs.texts[place], r"(?m)^use \S+\.proofs\.")

    def test_a_public_contract_cites_what_is_believed_and_a_private_one_no_law(self):
        for public, folders in ((True, 1), (False, 2)):
            for module, text, uses in contracts(public):
                for one in self.specs.named(text.splitlines(), *uses):
                    self.assertIn(one.place.split("/")[1], ["inner", one.place.split("/")[-1]][-folders:], f"{module}: {one.names} of {one.place}")

    def test_nothing_is_believed_that_no_contract_and_no_statement_rests_on(self):
        reached = {id(one) for one in believed(self.specs)}
        self.assertEqual([(place, one.names) for place, found in self.top.items() for one in found if id(one) not in reached], [])
        self.assertEqual([one.place for one in believed(self.specs) if one.place not in self.top], [])

    def test_every_file_that_is_believed_opens_with_what_it_renders(self):
        for place in self.top:
            opening = "\n".join(re.match(r"(--.*\n)+", self.specs.texts[place])[0].splitlines())
            self.assertRegex(opening, GROUP, place)

    def test_the_reading_paths_are_those_of_the_documents(self):
        self.assertTrue(table(self.specs) in read("docs", "PROOFS.md"), "tools/reading_paths.py prints another table than docs/PROOFS.md has")
        for document in ("README.md", "docs/PROOFS.md", "docs/SPECIFICATION.md"):
            self.assertTrue(totals(self.specs) in " ".join(read(document).split()), f"{document}: not {totals(self.specs)}")

    def test_a_theorem_is_known_from_a_definition(self):
        theorems = ("pub zero-none : (n : ℕ) → n ≡ n\nzero-none n = refl", "abbrev pub sum : (a b : ℕ) → a ≤ a + b\nsum a b = omega arith",
                    "module _ (n : ℕ) where\n  pub less : n < n + 1\n  less = omega arith", "abbrev pub proof : Agrees\nproof = agreement",
                    "abbrev pub pair : (k : ℕ) × (k ≡ 0)\npair = (0, refl)", "two : ℕ\ntwo = 2")
        definitions = ("abbrev pub Agrees : Type 0\nAgrees = (n : ℕ) → n ≡ n", "pub record Is (t : ℕ) : Type 0 where\n  pub some : 1 ≤ t",
                       "unfoldable pub every : (ℕ → Bool) → ℕ → Bool\nevery f zero = true", "abbrev pub choose : ((n : ℕ) → n < 2 → Bool) → Bool\nchoose f = true",
                       "unfoldable mutual\n  pub even : ℕ → Bool\n  even zero = true\n\n  pub odd : ℕ → Bool\n  odd zero = false", "pub data Kind : Type 0 where\n  one : Kind")
        agrees = self.specs.owners["agreement/Agreement", "Agrees"]
        self.assertIn(agrees, self.propositions)
        for wrong, texts in ((True, theorems), (False, definitions)):
            for text in texts:
                found = [is_theorem(one, lambda _, words: [agrees] if words == "Agrees" else [], {agrees}) for one in declarations("column/Example", text)]
                self.assertEqual(found, [wrong], text)
