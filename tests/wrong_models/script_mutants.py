"""Wrong programs, each an edit of a source of tools/model: a name, the text that it has once, and the one in its place. Those of TOLD
must print something else than the program for some script. Those of EQUAL print what the model prints, whatever the script, for a reason that
is put to the test at every line of every script."""
import functools
import re

import model
from wrong_models import edited, script_run_mutants, script_step_mutants, script_text_mutants
from wrong_models.script_equals import EQUAL

# Those that only a long script tells are the last: the next ones would begin with it.
TOLD = script_text_mutants.TOLD + script_step_mutants.TOLD + script_run_mutants.TOLD


@functools.cache
def modules():
    """Each wrong program as a module: its name, and whether it is one of EQUAL."""
    assert len({row[0] for row in TOLD + EQUAL}) == len(TOLD + EQUAL), "a name is there twice"
    return [(edited.edited(model, name, (old, new)), bool(reason)) for name, old, new, *reason in TOLD + EQUAL]


def climb(up, c, parents):
    for _ in range(parents):
        c = up[c]
    return c


def reasoned(reached):
    """The model with the reason of every row of EQUAL put to the test before the line that it names; `reached` counts how often."""
    def hold(name, fact):
        assert fact, name
        reached[name] += 1

    def tested(name, line, fact):
        before = re.search(rf"^( *){re.escape(line)}.*$", edited.source_of(model), re.M)
        return before[0], f"{before[1]}hold({name!r}, {fact})\n{before[0]}"

    return edited.edited(model, "reasoned", *(tested(name, line, fact) for name, _, _, _, line, fact in EQUAL), hold=hold, climb=climb)
