#!/usr/bin/env python3
"""Runs `rt ci` and then prints what it cost: for each crate the processor seconds of its proof, of its tests' proofs and of
its must-fail edits, dearest first, and how long the run took. What an earlier run on this machine kept costs nothing; for
the costs from nothing give `--anew`.

usage: tools/gate_costs.py [--anew]          (at the top of the repository)
"""
import os
import subprocess
import sys
import time

TICKS = os.sysconf("SC_CLK_TCK")


def is_below(pid, top):
    """Whether the process was started, by way of others, by the process `top`."""
    while pid > 1 and pid != top:
        with open(f"/proc/{pid}/stat") as file:
            pid = int(file.read().rsplit(")", 1)[1].split()[1])
    return pid == top


def check_of(pid, top):
    """The crate and the kind of the check that a process of the run does, with its start and its processor seconds; None for
    others."""
    try:
        with open(f"/proc/{pid}/cmdline", "rb") as file:
            words = file.read().decode(errors="replace").split("\0")
        if "--crate-name" not in words or not is_below(int(pid), top):
            return None
        with open(f"/proc/{pid}/stat") as file:
            fields = file.read().rsplit(")", 1)[1].split()
        folder = os.readlink(f"/proc/{pid}/cwd")
    except (OSError, IndexError):
        return None
    crate = words[words.index("--crate-name") + 1]
    kind = "edits" if "/rt-edit-" in folder else "tests" if "--test" in words else "proof"
    return crate, kind, fields[19], (int(fields[11]) + int(fields[12])) / TICKS


def costs_of(run):
    """The processor seconds of each crate and kind, until the run ends."""
    most = {}
    while run.poll() is None:
        for pid in filter(str.isdigit, os.listdir("/proc")):
            found = check_of(pid, run.pid)
            if found:
                crate, kind, start, seconds = found
                most[pid, start, crate, kind] = max(seconds, most.get((pid, start, crate, kind), 0))
        time.sleep(0.3)
    costs = {}
    for (_, _, crate, kind), seconds in most.items():
        own = costs.setdefault(crate, {"proof": 0, "tests": 0, "edits": 0})
        own[kind] += seconds
    return costs


def main():
    began = time.time()
    run = subprocess.Popen(["rt", "ci", *sys.argv[1:]])
    costs = costs_of(run)
    print(f"{'crate':20} {'proof':>7} {'tests':>7} {'edits':>7} {'all':>7}   processor seconds")
    for crate, own in sorted(costs.items(), key=lambda it: -sum(it[1].values())):
        print(f"{crate:20} {own['proof']:7.0f} {own['tests']:7.0f} {own['edits']:7.0f} {sum(own.values()):7.0f}")
    sums = {kind: sum(own[kind] for own in costs.values()) for kind in ("proof", "tests", "edits")}
    print(f"{'all':20} {sums['proof']:7.0f} {sums['tests']:7.0f} {sums['edits']:7.0f} {sum(sums.values()):7.0f}")
    print(f"{(time.time() - began) / 60:.0f} minutes, {sum(sums.values()) / 60:.0f} of a processor")
    return run.returncode


if __name__ == "__main__":
    sys.exit(main())
