#!/usr/bin/env python3
"""The C library on every machine of tools/targets, under qemu and node: the calls of its tests, recorded on x86-64 beside the model and replayed between guards,
every function and every refusal among them; the same with one instruction of the module changed, which must be seen; the example order.c; and where there
is Linux, the programs of tests/uses and banks of processes. The last line says how many machines ran.

status: 0 all that was asked for ran and is as on x86-64; 1 something differs; 2 a wrong call; 3 a machine was not run
"""
import os
import subprocess
import sys
import tempfile

sys.path.insert(0, os.path.dirname(os.path.dirname(os.path.abspath(__file__))))
import helpers
from machines import build, emulated, kit
from machines.table import LIBRARY, WASM
from replay import libraries, recording, trials
from repository import parser, positive

CALLS, BANKS = 60000, 50


def recorded(folder, calls):
    """Records the calls, and answers how many there are."""
    met = recording.recorded(os.path.join(folder, "input"), calls)
    lacking = recording.not_met(met)
    if lacking:
        raise trials.Differs(f"no recorded call meets {lacking}")
    functions = {name for name, _ in met}
    print(f"{sum(met.values())} calls recorded, of {len(functions)} functions, {len(met)} answers, each met {min(met.values())} times or more", flush=True)
    return sum(met.values())


def tried(name, modules, folder, calls, banks):
    """What each trial of a machine shows."""
    right, wrong = (libraries.made(each, name, os.path.join(folder, name, kind)) for kind, each in modules.items())
    yield trials.replayed(name, right, folder, calls)
    yield trials.replayed_wrong(name, wrong, folder, calls)
    if emulated.is_linux(name):
        yield trials.example(name, right, folder)
        yield trials.uses(name, right, folder)
        yield trials.banks(name, right, folder, banks)
    elif name != WASM.name:
        yield trials.outside(name, folder)


def run(asked, folder):
    """The machines that ran, those that differ, and those that were not run."""
    ran, differ, not_run = [], [], []
    each = build.controlled(LIBRARY, folder)
    modules = {"right": each, "wrong": libraries.changed(each)}
    trials.write_parts(folder)
    calls = recorded(folder, asked.calls)
    for name in asked.machines or emulated.EMULATED:
        lacking = emulated.missing(name)
        if lacking:
            not_run.append(name)
            print(f"{name}: NOT RUN, {' and '.join(lacking)} not found: apt-get install {emulated.EMULATED[name].packages}", flush=True)
            continue
        try:
            print(f"{name}: {'; '.join(tried(name, modules, folder, calls, asked.banks))}", flush=True)
            ran.append(name)
        except (trials.Differs, RuntimeError, subprocess.CalledProcessError) as seen:
            differ.append(name)
            print(f"{name}: DIFFERS: {seen}", flush=True)
    return ran, differ, not_run


def main():
    words = parser(__doc__)
    words.add_argument("--calls", type=positive, default=CALLS, help=f"how many random calls, {CALLS} without it")
    words.add_argument("--banks", type=positive, default=BANKS, help=f"how many banks of processes, {BANKS} without it")
    words.add_argument("machines", metavar="MACHINE", nargs="*", help=f"of {', '.join(emulated.EMULATED)}; all without it")
    asked = words.parse_args()
    if set(asked.machines) - set(emulated.EMULATED):
        words.error(f"no such machine: {', '.join(sorted(set(asked.machines) - set(emulated.EMULATED)))}")
    with tempfile.TemporaryDirectory() as folder:
        try:
            ran, differ, not_run = run(asked, folder)
        except (trials.Differs, kit.Failed) as failed:
            print(f"nothing was run: {failed}")
            return 1
    print(f"{len(ran)} machines as on x86-64, {len(differ)} differ, {len(not_run)} not run")
    return 1 if differ else 3 if not_run else 0


if __name__ == "__main__":
    sys.exit(main())
