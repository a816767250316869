#!/usr/bin/env python3
"""Refuses memory to the program, one allocation at a time, fails each of its reads and writes in turn, and lets each move one byte alone.

Usage: python3 tools/edges/fail.py, at the top of the repository, where the program is built (`./lightning` builds it) and cc is on the machine.
Two texts, every mode, every target, and in the mode `explain` a third with a step that is undefined. A run without memory says so and has written nothing; one that cannot read or write says that, and has written the
beginning of what it would have written; a short read or write changes nothing. Prints a line for each text, mode and target.
"""
import os
import subprocess
import sys
import tempfile

PROGRAM = "crates/lightning_program/out/lightning_program"
PRESSURE = """.data 32 fmt: .c "%d %d %d %d %d %d %d %d %d %d\\n" .code prolog arg $argc getarg %r0 $argc addi %r1 %r0 1 addi %r2 %r0 2 addi %v0 %r0 3 addi %v1 %r0 4
addi %v2 %r0 46 prepare pushargi fmt ellipsis pushargi 10 pushargi 20 pushargi 30 pushargi 40 pushargi 50 remr %v2 %v2 %v1
pushargr %r0 pushargr %r1 pushargr %r2 pushargr %v0 pushargr %v2 finishi @printf ret epilog
"""

# a step that is undefined, so that the mode `explain` has lines to write
STUCK = """.code
    prolog
    movi %v0 7
    movr %v1 %r2
    ret
    epilog
"""


def run(words, **named):
    more = {name: str(value) for name, value in named.items()}
    return subprocess.run(words, capture_output=True, env={**os.environ, **more}, check=False)


def counted(words, preload, name, own, is_right):
    """Runs with the first call of a kind failing, then the second, and so on, until none is left that fails; returns how many did."""
    for number in range(1, 100_000):
        ran = run(words, LD_PRELOAD=preload, **{name: number})
        same = (ran.returncode, ran.stdout, ran.stderr) == (own.returncode, own.stdout, own.stderr)
        if name != "SHORT" and same:
            return number - 1
        if not (same if name == "SHORT" else is_right(ran)):
            sys.exit(f"{words}: {name} {number}: {ran}")
        if name == "SHORT" and number == 40:
            return number
    return None


def main():
    with tempfile.TemporaryDirectory() as room:
        preload, pressure, stuck = f"{room}/refuse.so", f"{room}/pressure.tst", f"{room}/stuck.tst"
        subprocess.run(["cc", "-O1", "-shared", "-fPIC", "-o", preload, "tools/edges/refuse.c", "-ldl"], check=True)
        with open(pressure, "w", encoding="utf-8") as file:
            file.write(PRESSURE)
        with open(stuck, "w", encoding="utf-8") as file:
            file.write(STUCK)
        for mode in ("run", "list", "mean", "gen", "back", "profile", "explain"):
            for text in ("examples/nfibs.tst", pressure) + ((stuck,) if mode == "explain" else ()):
                for target in ("x86_64", "aarch64", "riscv64"):
                    given = text
                    if mode == "back":
                        given = f"{room}/listing"
                        with open(given, "wb") as file:
                            file.write(run([PROGRAM, "--mode", "list", "--target", target, text]).stdout)
                    words = [PROGRAM, "--mode", mode, "--stats", "--target", target, given, "10"]
                    own = run(words)

                    def wants(ran):
                        return ran.returncode == 127 and ran.stdout == b"" and ran.stderr.endswith(b"lightning: out of memory\n")

                    def fails(ran):
                        return ran.returncode in (123, 124) and own.stdout.startswith(ran.stdout) and not (ran.returncode == 123 and ran.stdout)

                    memory = counted(words, preload, "ALLOC", own, wants)
                    files = counted(words, preload, "IO", own, fails)
                    short = counted(words, preload, "SHORT", own, None)
                    print(f"{mode} {os.path.basename(text)} {target}: {memory} allocations refused, {files} reads and writes failed, {short} cut short", flush=True)


if __name__ == "__main__":
    main()
