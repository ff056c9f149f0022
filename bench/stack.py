"""The least stack in which a program runs."""
import bisect
import resource
import subprocess

ROUNDS = 30
# The system begins the stack of a process lower by up to so many bytes, differently from run to run.
SHIFT = 8192


def runs_in(program, given, kilobytes, environment, *words):
    """Whether a run ends well in a stack of this size, which the environment is part of."""
    size = kilobytes * 1024
    done = subprocess.run([program, *words], input=given, capture_output=True, text=True, env=environment,
                          preexec_fn=lambda: resource.setrlimit(resource.RLIMIT_STACK, (size, size)))
    return done.returncode == 0


def always_runs_in(program, given, kilobytes, *words):
    """Whether every run does, with no environment: where one run does though its environment takes as much as the stack is ever lowered by."""
    return any(runs_in(program, given, kilobytes, {"SHIFT": "x" * SHIFT}, *words) for _ in range(ROUNDS))


def least_stack(program, inputs, *words):
    """In kilobytes, by pages, for every one of the inputs; no less than twice what it may be lowered by."""
    sizes = range(2 * SHIFT // 1024, 1024, 4)
    return sizes[bisect.bisect_left(sizes, True, key=lambda size: all(always_runs_in(program, given, size, *words) for given in inputs))]
