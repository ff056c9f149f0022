"""The built program beside the independent model of tools/model."""
import pathlib
import random
import unittest

import model
from generators import counters, random_scripts, script_texts
from repository import ROOT
from wrong_models import script_mutants

CROWDED = pathlib.Path(ROOT, "examples", "sender-crowded.script")


class Random(unittest.TestCase):
    def test_random_scripts_print_what_the_model_prints(self):
        self.assertEqual(random_scripts.seeds_part(random_scripts.GATE), 0)

    def test_every_small_table_and_every_short_script(self):
        self.assertEqual(random_scripts.exhaustive_part(), 0)

    def test_the_fullest_network_that_is_known_where_senders_are_watched(self):
        count, data = counters.Counters(), CROWDED.read_bytes()
        self.assertEqual(count.script(data), random_scripts.program(data))
        self.assertEqual(count.most_packets[16, "sender"], 420)
        self.assertTrue(count.agreed and count.bounded)

    def test_wrong_programs_pass_one_bound_each(self):
        wrong = {module.__name__: module for module, _ in script_mutants.modules()}
        for name, passed in (("who is sent to stays", (True, False)), ("nobody is struck out", (False, True))):
            count = counters.Counters(wrong[name])
            count.script(CROWDED.read_bytes())
            packets, steps = count.most_packets[16, "sender"], count.most_steps[16, "sender"]
            self.assertEqual((packets > counters.packet_bound(16), steps > counters.step_bound(16)), passed, name)
            self.assertFalse(count.bounded, name)

    def test_every_near_form_is_refused(self):
        rng = random.Random(1)
        for name, *templates in script_texts.FORMS * 20:
            for template in templates:
                line = script_texts.near(rng, template)
                self.assertEqual(model.script(f"columns=1\nroot=0\nup=0\nfirst=0\nwatch=root\n{line}\n".encode("latin-1")), "table=ok\nrefused=13\nrest=yes\n", name)
        for name, *templates in script_texts.TABLE_FORMS * 20:
            for template in templates:
                self.assertEqual(model.script(script_texts.malformed_table(rng, template).encode()), "refused=1\n", name)
