#!/usr/bin/env python3
"""Measures a gate by its processes: watch.py PID OUT, where PID is that of a running `rt ci`, looks at each process that it starts every half second until it ends.

OUT gets a line a crate: the processor's minutes of its proof, of its tests and what is built of it, and of its edits with the checks that they begin and end with, and the largest
memory of one process in GB; then the sums, with `rt` itself. What a process takes in its last half second is not seen, and where the kit keeps what earlier runs passed, that takes
nothing: then it is the gate from nothing on a machine that kept nothing. Not part of the gate.
"""
import collections
import os
import sys
import time

TICK = os.sysconf("SC_CLK_TCK") * 60


def read(path):
    try:
        with open(path, "rb") as it:
            return it.read()
    except OSError:
        return b""


def stat(pid):
    """Returns the parent and the ticks of a process with those of its children that ended, or None where it is gone."""
    text = read(f"/proc/{pid}/stat").rsplit(b")", 1)
    if len(text) < 2:
        return None
    fields = text[1].split()
    return int(fields[1]), sum(int(it) for it in fields[11:15])


def kind(pid, words):
    """Says which column a process of the checker belongs to: an edit is tried in a folder of its own."""
    try:
        words = words + [os.readlink(f"/proc/{pid}/cwd")]
    except OSError:
        pass
    if any("rt-edit" in it for it in words):
        return "edits"
    if "--test" in words or "--crate-checked" in words:
        return "built"
    # (a process that is not the checker yet is `sh` with its words)
    return "proof" if "build" in words or "check" in words else "built"


def memory(pid):
    for line in read(f"/proc/{pid}/status").splitlines():
        if line.startswith(b"VmHWM:"):
            return int(line.split()[1]) / 1e6
    return 0.0


def look(root, ticks, crates, largest):
    """Takes what every process that `root` started has used so far."""
    for name in os.listdir("/proc"):
        if not name.isdigit():
            continue
        now = stat(name)
        if now is None or now[0] != root:
            continue
        if name not in crates:
            words = read(f"/proc/{name}/cmdline").decode(errors="replace").split("\0")
            crate = words[words.index("--crate-name") + 1] if "--crate-name" in words else "other"
            crates[name] = (crate, kind(name, words) if crate != "other" else "built")
        ticks[name] = max(ticks.get(name, 0), now[1])
        crate = crates[name][0]
        largest[crate] = max(largest.get(crate, 0.0), memory(name))


def main():
    root, out = int(sys.argv[1]), sys.argv[2]
    ticks, crates, largest, own = {}, {}, {}, 0
    while (now := stat(root)) is not None:
        own = sum(int(it) for it in read(f"/proc/{root}/stat").rsplit(b")", 1)[-1].split()[11:13] or [0])
        look(root, ticks, crates, largest)
        time.sleep(0.5)
    table = collections.defaultdict(lambda: collections.Counter())
    for pid, (crate, column) in crates.items():
        table[crate][column] += ticks[pid] / TICK
    with open(out, "w") as it:
        for crate, row in sorted(table.items(), key=lambda item: -sum(item[1].values())):
            it.write(f"| {crate} | {row['proof']:.1f} | {row['built']:.1f} | {row['edits']:.1f} | {largest.get(crate, 0):.1f} GB |\n")
        sums = [sum(row[column] for row in table.values()) for column in ("proof", "built", "edits")]
        it.write(f"all: {sum(sums):.1f}: {sums[0]:.1f} proofs, {sums[1]:.1f} tests and what is built, {sums[2]:.1f} edits; rt itself {own / TICK:.1f}\n")


main()
