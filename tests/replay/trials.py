"""What a machine is tried with: the recorded calls, with the library and with a wrong one, the examples, wrong uses, and banks of processes. Each trial answers
what it has shown, in words; one that fails is a Differs."""
import glob
import json
import os
import re
import subprocess
import tarfile

from cases.test_firmware_uses import BANK, FITTER, PRINTED
from helpers.firmware import EXAMPLES, use
from machines import emulated
from machines.table import WASM
from replay import dispatch
from repository import ROOT, read

REPLAY = os.path.join(ROOT, "tests", "replay")


class Differs(Exception):
    """What was seen, and what was not."""


def write_parts(folder):
    """The parts of a replay that are made from the exports."""
    with open(os.path.join(folder, "calls.h"), "w", encoding="utf8") as file:
        file.write(dispatch.header())
    with open(os.path.join(folder, "calls.json"), "w", encoding="utf8") as file:
        json.dump(dispatch.table(), file)


def replay(name, library, folder):
    """How many recorded calls were made, and how many of them answered or left something else."""
    recording = os.path.join(folder, "input")
    if name == WASM.name:
        done = emulated.ran(name, os.path.join(REPLAY, "replay.js"), library, os.path.join(folder, "calls.json"), recording)
    else:
        program = emulated.compiled(name, library, os.path.join(folder, f"replay_{name}"), os.path.join(REPLAY, "replay.c"))
        done = emulated.ran(name, program, given=recording)
    counted = re.search(r"^(\d+) calls, (\d+) differ\n\Z", done.stdout, re.M)
    if not counted:
        raise Differs(f"the replay ended with status {done.returncode}: {done.stdout[-300:]}{done.stderr[-300:]}")
    calls, differ = map(int, counted.groups())
    if (done.returncode == 0) != (differ == 0):
        raise Differs(f"{differ} calls differ and the status is {done.returncode}")
    return calls, differ


def replayed(name, library, folder, recorded):
    calls, differ = replay(name, library, folder)
    if (calls, differ) != (recorded, 0):
        raise Differs(f"{calls} of {recorded} calls, {differ} differ")
    return f"{calls} calls, 0 differ"


def replayed_wrong(name, library, folder, recorded):
    calls, differ = replay(name, library, folder)
    if calls != recorded or differ == 0:
        raise Differs(f"with an instruction changed {calls} of {recorded} calls were made, and {differ} differ")
    return f"with an instruction changed {differ} differ"


def as_shown(done):
    """The example prints what docs/FIRMWARE.md shows."""
    if done.returncode or not done.stdout or f"```\n{done.stdout}```\n" not in read("docs", "FIRMWARE.md"):
        raise Differs(f"order.c, status {done.returncode}: {done.stdout}{done.stderr}")
    return "order.c as on x86-64"


def example(name, library, folder):
    program = emulated.compiled(name, library, os.path.join(folder, f"order_{name}"), os.path.join(EXAMPLES, "order.c"), options=("-Os",))
    return as_shown(emulated.ran(name, program))


def outside(name, folder):
    """The example of a board, built outside of the repository from what `make dist` writes."""
    subprocess.run(["make", "-s", "-C", ROOT, "dist", f"TARGET={name}"], check=True, capture_output=True)
    packed, = glob.glob(os.path.join(ROOT, "target", f"mudasgup-*-{name}.tar.gz"))
    with tarfile.open(packed) as file:
        file.extractall(folder)
    bare, = glob.glob(os.path.join(folder, f"mudasgup-*-{name}", "examples", "bare"))
    subprocess.run(["make", "-s", "-C", bare, f"TARGET={name}", "order.elf"], check=True, capture_output=True)
    done = subprocess.run(["make", "-s", "-C", bare, f"TARGET={name}", "run"], stdin=subprocess.DEVNULL, capture_output=True, text=True)
    return f"{as_shown(done)}, from make dist"


def uses(name, library, folder):
    """The programs of tests/uses print there what they print on x86-64."""
    for each, lines in PRINTED.items():
        program = emulated.compiled(name, library, os.path.join(folder, f"{each}_{name}"), use(f"{each}.c"), options=("-O2", "-Wno-unused-function"))
        done = emulated.ran(name, program)
        if (done.returncode, done.stdout) != (0, "".join(lines)):
            raise Differs(f"tests/uses/{each}.c, status {done.returncode}: {done.stdout}{done.stderr}")
    return f"{len(PRINTED)} uses as on x86-64"


def banks(name, library, folder, count):
    """Banks of processes agree."""
    program = emulated.compiled(name, library, os.path.join(folder, f"bank_{name}"), *(os.path.join(EXAMPLES, source) for source in BANK), options=("-O2",))
    done = emulated.ran(name, program, "1", str(count), FITTER)
    agree = done.stdout.count(" agree\n")
    if done.returncode or agree != count or done.stderr:
        raise Differs(f"{agree} of {count} banks agree, status {done.returncode}: {done.stdout[-300:]}{done.stderr[-300:]}")
    return f"{agree} banks agree"
