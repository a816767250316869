#!/usr/bin/env python3
"""Proves and builds the program `lightning` with the crates that it is made of, where no proved one of this very tree is kept, and runs it: prove.py [WORD]..

Where `rt` has kept work in the crates, as with whoever works on them, `rt run` proves what has changed, in place. Else it is the gate, `rt ci`, in a copy of those crates
without their wrong bodies: from nothing, as many crates at a time as there are processors and memory. The copy takes some 4 GB in TMPDIR, or else in /var/tmp, and is removed at
the end. A line says how long it takes, and then one for each crate that is proved. All that was said is in out/prove.log.
"""
import os
import pathlib
import re
import shutil
import signal
import subprocess
import sys
import tempfile
import time

from kept import TREE, Kept, found_kit, listed

CRATE = "lightning_program"
PROGRAM = TREE / "crates" / CRATE / "out" / CRATE
LOG = TREE / "out/prove.log"
ROW = re.compile(r"^\| (\w+) \| ([\d.]+) \| ([\d.]+|-) \|", re.M)
PROVED = re.compile(r"^rt: (\w+) proved$", re.M)
ERROR = re.compile(r"^(?:rt: |\S+:\d+:\d+: error).*", re.M)


def say(text):
    print(f"lightning: {text}", file=sys.stderr, flush=True)


def minutes(crates):
    """Returns about how many minutes these crates take here, by the figures of docs/FIGURES.md: at least their share of each processor, and their longest chain."""
    figures = {name: float(proof) + float(built.replace("-", "0")) for name, proof, built in ROW.findall((TREE / "docs/FIGURES.md").read_text())}
    uses, chain = listed(), {}
    for it in crates:
        chain[it] = figures.get(it, 2.0) + max((chain[below] for below in uses[it] if below in chain), default=0)
    whole = sum(figures.get(it, 2.0) for it in crates)
    return round(max(whole / len(os.sched_getaffinity(0)), *chain.values()) * 1.1)


def is_left_by_rt(kept):
    """Whether `rt` has left a program that is newer than all that it was made of, and whose crates' libraries are too."""
    if not PROGRAM.exists():
        return False
    for crate in kept.crates:
        library = TREE / f"crates/{crate}/out/rlib/{crate}.rlib"
        made = min(it.stat().st_mtime for it in (PROGRAM, library) if it.exists())
        if any(it.stat().st_mtime > made for it in kept.files(crate)):
            return False
    return True


def copy(crates, room):
    """Copies the crates into the folder room, as a tree of their own."""
    (room / "crates").mkdir()
    shutil.copy(TREE / "HANDLES", room)
    (room / "crates.txt").write_text("".join(f"{it}: {' '.join(listed()[it])}\n" for it in crates))
    for it in crates:
        shutil.copytree(TREE / "crates" / it, room / "crates" / it, ignore=shutil.ignore_patterns("out", "must-fail"))


def run(words, folder, proved, count):
    """Runs a command in a folder, says which crates are proved as `proved` lists them, and returns whether it ended well."""
    begun, told = time.time(), set()
    LOG.parent.mkdir(exist_ok=True)
    with LOG.open("w") as log, subprocess.Popen(words, cwd=folder, stdin=subprocess.DEVNULL, stdout=log, stderr=subprocess.STDOUT) as command:
        try:
            is_running = True
            while is_running:
                is_running = command.poll() is None
                for crate in (it for it in proved() if it not in told):
                    told.add(crate)
                    passed = round(time.time() - begun)
                    say(f"{crate} proved, {len(told)} of {count}, after {passed // 60}:{passed % 60:02}")
                time.sleep(is_running)
        except BaseException:
            command.terminate()
            raise
    return command.returncode == 0


def prove_in_place(crates):
    """Proves what has changed, by `rt run`."""
    begun = time.time()
    stamps = {it: TREE / f"crates/{it}/out/rlib/stamp" for it in crates}
    say(f"proving what has changed of {len(crates)} crates, and building the program: some minutes for each crate that has changed or uses one that has")
    proved = lambda: [it for it, stamp in stamps.items() if stamp.exists() and stamp.stat().st_mtime > begun]
    return run(["rt", "run", "--", "--target", "riscv64", "data/t.tst"], TREE / "crates" / CRATE, proved, len(crates))


def prove_in_a_copy(crates):
    """Proves all crates from nothing, by `rt ci`, and keeps the program."""
    processors = len(os.sched_getaffinity(0))
    say(f"proving {len(crates)} crates and building the program, once: about {minutes(crates)} minutes on {processors} processors; ./try runs a text after a minute or two, unproved")
    with tempfile.TemporaryDirectory(prefix="lightning-", dir=os.environ.get("TMPDIR", "/var/tmp")) as room:
        room = pathlib.Path(room)
        copy(crates, room)
        is_well = run(["rt", "ci"], room, lambda: PROVED.findall(LOG.read_text(errors="replace")), len(crates))
        if is_well:
            PROGRAM.parent.mkdir(exist_ok=True)
            part = PROGRAM.with_suffix(".part")
            shutil.copy(room / "crates" / CRATE / "out" / CRATE, part)
            part.replace(PROGRAM)
        return is_well


def kept_program():
    return Kept(PROGRAM, CRATE, ["src", "specs", "proofs"])


def is_kept(kept):
    """Whether a proved program of this very tree is there; one that `rt` has left is noted."""
    if kept.is_of_tree():
        return True
    sums = kept.sums()
    return is_left_by_rt(kept) and kept.note(sums)


def prove(kept):
    """Proves and builds the program and notes of what it was made; where that fails, the status is 1."""
    found_kit()
    sums = kept.sums()
    # (so that the copy and what runs in it are gone when this is stopped)
    for it in (signal.SIGTERM, signal.SIGHUP, signal.SIGINT):
        signal.signal(it, lambda number, _: sys.exit(128 + number))
    has_kept_work = any((TREE / f"crates/{it}/out/rlib/stamp").exists() for it in kept.crates)
    if not (prove_in_place if has_kept_work else prove_in_a_copy)(kept.crates):
        print(*ERROR.findall(LOG.read_text(errors="replace"))[-12:], sep="\n", file=sys.stderr)
        say(f"not proved, so nothing runs; all that was said is in {LOG}")
        sys.exit(1)
    if not kept.note(sums):
        say("a source has changed while it was proved, so nothing runs")
        sys.exit(1)


def main():
    kept = kept_program()
    if not is_kept(kept):
        prove(kept)
    # (Python ignores these two, and the program would too)
    for it in (signal.SIGPIPE, signal.SIGXFSZ):
        signal.signal(it, signal.SIG_DFL)
    os.execv(PROGRAM, [PROGRAM, *sys.argv[1:]])


if __name__ == "__main__":
    try:
        main()
    except OSError as error:
        sys.exit(f"lightning: {error}")
