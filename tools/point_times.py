#!/usr/bin/env python3
"""How long the check of the proofs takes before and after the landing of each Point of document 02: `rt prove`, every crate from nothing, at the commit of the landing
and at the one before it, each in a clean clone. Prints a table for docs/CHANGES.md.

    tools/point_times.py --results ../point-times.json          all thirteen
    tools/point_times.py --results ../point-times.json 1 4      Points 1 and 4
    tools/point_times.py --list                                 the commits, and which of them have the same sources

What is measured is kept in the results file, commit by commit; a run that was stopped goes on where it ended. Commits that have the same crates are measured once. The `rt` that is found
has to be that of the kit which those commits were written for: today's knows no `rt prove`, and not their language. Nothing else should run on the machine."""
import json
import os
import resource
import subprocess
import sys
import tempfile
import time

from repository import ROOT, parser

# The commit before a Point's landing and that of its landing: the first whose docs/CHANGES.md has an entry of this Point. Point 12 landed in two commits, the first of which gave
# each column its two registers.
POINTS = {
    1: ("c24053f", "11c12d0", "a strip of columns halts in one step"),
    2: ("3a2babf", "78b3dd8", "a dispatcher brings a bank to rest"),
    3: ("78b3dd8", "01a0aa9", "the network never fills"),
    4: ("01a0aa9", "2d492ec", "parents are tested before any climb"),
    5: ("2d492ec", "5b8771f", "packets are joined in a frame"),
    6: ("253e085", "fe2e036", "children in the owner's sequence"),
    7: ("539bdc5", "0802916", "a halted column comes back"),
    8: ("0802916", "5525e04", "fastest trees"),
    9: ("0c2adae", "e89d0f9", "columns may watch their sender"),
    10: ("e89d0f9", "45c214b", "order numbers of 32 bits"),
    11: ("53e205c", "5703a19", "two journals compared"),
    12: ("5703a19", "f4a12eb", "a register page for each column"),
    13: ("f4a12eb", "a0d9bf0", "halts that lose the order counted"),
}
MINUTE = 60


def git(*words):
    return subprocess.run(["git", *words], cwd=ROOT, capture_output=True, text=True, check=True).stdout.strip()


def sources(commit):
    """What is proved at a commit: the names that git gives its crates and their list."""
    return git("rev-parse", f"{commit}:crates", f"{commit}:crates.txt").replace("\n", " ")


def proved(commit):
    """The seconds of `rt prove` in a clean clone, of the clock and of the processors, and its last line."""
    with tempfile.TemporaryDirectory() as folder:
        clone = os.path.join(folder, "clone")
        git("clone", "--quiet", "--no-checkout", ROOT, clone)
        git("-C", clone, "checkout", "--quiet", commit)
        before, began = resource.getrusage(resource.RUSAGE_CHILDREN), time.monotonic()
        done = subprocess.run(["rt", "prove"], cwd=clone, stdin=subprocess.DEVNULL, stdout=subprocess.PIPE, stderr=subprocess.STDOUT, text=True)
        took, after = time.monotonic() - began, resource.getrusage(resource.RUSAGE_CHILDREN)
    used = after.ru_utime - before.ru_utime + after.ru_stime - before.ru_stime
    last = (done.stdout.strip().splitlines() or [""])[-1]
    if done.returncode:
        sys.exit(f"rt prove at {commit} ended with status {done.returncode}: {last}")
    return {"seconds": round(took), "processor": round(used), "said": last, "load": round(os.getloadavg()[2], 2)}


def kept(path):
    """What was measured before, by sources."""
    if path is None or not os.path.exists(path):
        return {}
    with open(path, encoding="utf8") as file:
        return json.load(file)


def keep(path, found):
    """Writes what was measured, where it is asked for."""
    if path:
        with open(path, "w", encoding="utf8") as file:
            json.dump(found, file, indent=1)


def measured(commits, path):
    """What is known of each commit, measured where it was not; each is kept at once."""
    found = kept(path)
    for commit in commits:
        key = sources(commit)
        if key not in found:
            print(f"rt prove at {commit}", file=sys.stderr, flush=True)
            found[key] = proved(commit)
            keep(path, found)
    return {commit: found[sources(commit)] for commit in commits}


def minutes(seconds):
    return f"{seconds // MINUTE} min {seconds % MINUTE:02} s"


def cell(one):
    return f"{minutes(one['seconds'])} ({minutes(one['processor'])})"


def show(points, found):
    print("`rt prove` from nothing, by the clock and, in brackets, by the processors:\n")
    print("| Point | What landed | commit before | time before | commit of the landing | time after |\n|---|---|---|---|---|---|")
    for point in points:
        before, after, words = POINTS[point]
        print(f"| {point} | {words} | `{before}` | {cell(found[before])} | `{after}` | {cell(found[after])} |")
    loads = [one["load"] for one in found.values()]
    print(f"\nOn {os.cpu_count()} processors, with a load over 15 minutes of {min(loads):g} to {max(loads):g} at the end of each.")


def show_list(points):
    for point in points:
        before, after, words = POINTS[point]
        same = "the same sources" if sources(before) == sources(after) else ""
        shared = [f"{other} {'after' if commit == POINTS[other][1] else 'before'}" for other in POINTS for commit in POINTS[other][:2]
                  if other != point and sources(commit) == sources(before)]
        print(f"{point}: {before} {after} {words}{'; ' + same if same else ''}{'; before as ' + ', '.join(shared) if shared else ''}")


def main():
    words = parser(__doc__)
    words.add_argument("points", metavar="POINT", nargs="*", type=int, help="1 to 13, all without it")
    words.add_argument("--results", metavar="FILE", help="where what is measured is kept")
    words.add_argument("--list", action="store_true", help="prints the commits and measures nothing")
    asked = words.parse_args()
    unknown = [point for point in asked.points if point not in POINTS]
    if unknown:
        words.error(f"document 02 has no Point {unknown[0]}")
    points = asked.points or list(POINTS)
    if asked.list:
        show_list(points)
    else:
        show(points, measured(list(dict.fromkeys(commit for point in points for commit in POINTS[point][:2])), asked.results))


if __name__ == "__main__":
    main()
