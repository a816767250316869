#!/usr/bin/env python3
"""Tells how many machine instructions run for each portable step: ratio.py LIGHTNING, where LIGHTNING is the built program.

It runs each text of examples/ with its words (examples.tsv) in the modes `run`, on the three targets, and `mean`, all with `--stats`, and prints a line a text: the
steps of its meaning, the instructions for each on the three targets, and the bytes of code for each node. The last line has the geometric means over the texts of 100
steps or more. Not part of the gate.
"""
import math
import pathlib
import re
import subprocess
import sys

TARGETS = ("x86_64", "aarch64", "riscv64")
STATISTICS = re.compile(rb"^bytes (\d+) nodes (\d+) spills (\d+) steps (\d+)$", re.M)

examples = pathlib.Path(__file__).resolve().parents[2] / "examples"


def statistics(program, mode, target, words):
    """Returns the bytes, the nodes and the steps of a run; the arguments of a text may begin with a hyphen."""
    name, *arguments = words
    line = [program, "--mode", mode, "--target", target, "--stats", "--", f"{name}.tst", *arguments]
    run = subprocess.run(line, cwd=examples, stdin=subprocess.DEVNULL, capture_output=True)
    found = STATISTICS.search(run.stderr)
    if found is None:
        sys.exit(f"{name} in the mode {mode} on {target}: {run.stderr.decode(errors='replace').strip()}")
    size, nodes, _, steps = (int(it) for it in found.groups())
    return size, nodes, steps


def mean(numbers):
    return math.exp(sum(math.log(it) for it in numbers) / len(numbers))


def main():
    if len(sys.argv) != 2:
        sys.exit(__doc__.splitlines()[0])
    program = str(pathlib.Path(sys.argv[1]).resolve())
    ratios = {target: [] for target in TARGETS}
    sizes = {target: [] for target in TARGETS}
    print("text\tsteps\t" + "\t".join(TARGETS) + "\tbytes a node")
    for line in (examples / "examples.tsv").read_text().splitlines():
        words = line.split("\t")
        steps = statistics(program, "mean", TARGETS[0], words)[2]
        runs = [statistics(program, "run", target, words) for target in TARGETS]
        shown = [run[2] / steps for run in runs]
        print(f"{words[0]}\t{steps}\t" + "\t".join(f"{it:.2f}" for it in shown) + "\t" + " ".join(f"{run[0] / run[1]:.1f}" for run in runs))
        if steps >= 100:
            for target, run in zip(TARGETS, runs):
                ratios[target].append(run[2] / steps)
                sizes[target].append(run[0] / run[1])
    print(f"mean of {len(ratios[TARGETS[0]])}\t\t" + "\t".join(f"{mean(ratios[target]):.2f}" for target in TARGETS)
          + "\t" + " ".join(f"{mean(sizes[target]):.1f}" for target in TARGETS))


if __name__ == "__main__":
    main()
