#!/usr/bin/env python3
"""Compares the generator's texts of many seeds: compare.py LIGHTNING FIRST LAST, where LIGHTNING is the built program.

For each seed from FIRST to LAST it makes the text of its own, by the table of docs/LANGUAGE.md, and asks that the mode `gen` on the three targets, the mode `run` on that text on
the three, and the mode `mean` write the same line and end with status 0; and that the mode `back` reads each listing of the text to the bytes that it spells. Prints a line for each
seed that differs, and how many did not. Not part of the gate.
"""
import pathlib
import subprocess
import sys
import tempfile

TARGETS = ("x86_64", "aarch64", "riscv64")
MASK = 2**64 - 1


class Draws:
    """The draws of a seed."""

    def __init__(self, seed):
        self.state = seed

    def next(self):
        self.state = (self.state * 6364136223846793005 + 1442695040888963407) & MASK
        return self.state >> 33


def piece(draws):
    kind = draws.next() % 8
    if kind == 4:
        return f"rshi_u %r0 %v0 {draws.next() % 63 + 1} xorr %v0 %v0 %r0"
    if kind == 5:
        return f"addi %v1 %v1 {draws.next()}"
    return {
        0: "addr %v0 %v0 %v1",
        1: "subr %v1 %v0 %v1",
        2: "xorr %v0 %v1 %v0",
        3: "mulr %v1 %v1 %v0",
        6: "ori %r1 %v1 1 remr_u %r2 %v0 %r1 addr %v0 %v0 %r2",
        7: "ltr_u %r0 %v0 %v1 addr %v1 %v1 %r0",
    }[kind]


def text_of(seed):
    draws = Draws(seed)
    lines = [".data 16", 'fmt: .c "sum %lx\\n"', ".code", "jmpi main"]
    for k in range(18):
        lines += [f"f{k}:", "prolog", "arg $a", "getarg %v0 $a", f"movi %v1 {draws.next()}", "movi %v2 8", f"l{k}:"]
        lines += [piece(draws) for _ in range(64)]
        lines += ["subi %v2 %v2 1", f"bgti l{k} %v2 0", "retr %v0", "epilog"]
    lines += ["main:", "prolog", "movi %v0 1", "movi %v1 10", "again:"]
    lines += [f"prepare pushargr %v0 finishi f{k} retval %v0" for k in range(18)]
    lines += ["subi %v1 %v1 1", "bgti again %v1 0", "prepare pushargi fmt ellipsis pushargr %v0 finishi @printf", "ret", "epilog"]
    return "\n".join(lines) + "\n"


def call(program, *words):
    run = subprocess.run([program, *words], stdin=subprocess.DEVNULL, capture_output=True)
    return run.returncode, run.stdout, run.stderr


def spelled(listing):
    """The bytes that a listing spells."""
    words = [line.split()[1].decode() for line in listing.splitlines() if not line.startswith(b";")]
    return bytes.fromhex("".join(word for word in words if not word.endswith(":")))


def read_back(program, folder, listing):
    (folder / "back.lst").write_bytes(listing)
    return call(program, "--mode", "back", str(folder / "back.lst"))


def differs(program, folder, seed):
    """Says what differs at a seed, or nothing."""
    file = folder / "made.tst"
    file.write_text(text_of(seed))
    calls = [(target, mode) for target in TARGETS for mode in ("gen", "run")] + [("x86_64", "mean")]
    answers = {call(program, "--target", target, "--mode", mode, "--seed", str(seed), str(file)) for target, mode in calls}
    if len(answers) != 1 or {status for status, _, _ in answers} != {0}:
        return f"the answers {sorted(answers)}"
    for target in TARGETS:
        status, listing, _ = call(program, "--target", target, "--mode", "list", str(file))
        back = read_back(program, folder, listing)
        if (status, back) != (0, (0, spelled(listing), b"")):
            return f"the listing on {target}: {status}, {back[0]}, {back[2][:80]}"
    return None


def main():
    if len(sys.argv) != 4:
        sys.exit(__doc__.splitlines()[0])
    program, first, last = str(pathlib.Path(sys.argv[1]).resolve()), int(sys.argv[2]), int(sys.argv[3])
    same = 0
    with tempfile.TemporaryDirectory() as folder:
        for seed in range(first, last + 1):
            what = differs(program, pathlib.Path(folder), seed)
            if what:
                print(f"seed {seed}: {what}", flush=True)
            else:
                same += 1
    print(f"{same} of {last - first + 1} seeds are the same")
    sys.exit(0 if same == last - first + 1 else 1)


main()
