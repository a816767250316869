#!/usr/bin/env python3
"""Whether docs/EMBEDDING.md holds: the commands and the programs of its first half make crates that compile and print what the page says, and the pieces of code
of its second half are in the crates that they are of.

A block ```sh has the commands that make the crate `demo`, ```rust NAME the program of a crate NAME, ```out NAME what it prints; ```rust of PATH a piece of that file,
without its margin, and ```text the text that crates/languages_program runs. The crates are made in a copy of crates/ and crates.txt, in a folder of its own, and run by
`rt try`. With --pieces only the pieces are compared.
"""
import pathlib
import re
import shutil
import subprocess
import sys
import tempfile

root = pathlib.Path(__file__).resolve().parents[2]
page = (root / "docs" / "EMBEDDING.md").read_text()
blocks = re.findall(r"^```(.+)\n((?:.*\n)*?)```$", page, re.M)
wrong = 0


def one(head):
    return next(text for h, text in blocks if h == head)


def without_margin(lines):
    margin = min((len(l) - len(l.lstrip()) for l in lines if l.strip()), default=0)
    return [l[margin:] for l in lines]


def stands_in(piece, path):
    lines = (root / path).read_text().split("\n")
    count = len(piece)
    return any(without_margin(lines[i : i + count]) == piece for i in range(len(lines) - count + 1))


for head, text in blocks:
    if head.startswith("rust of "):
        path = head.removeprefix("rust of ")
        if not stands_in(text.rstrip("\n").split("\n"), path):
            wrong += 1
            print(f"{path}: not there: {text.splitlines()[0]}")
if one("text") != (root / "crates" / "languages_program" / "data" / "program.txt").read_text():
    wrong += 1
    print("the text is another one")

if "--pieces" not in sys.argv:
    with tempfile.TemporaryDirectory() as folder:
        copy = pathlib.Path(folder)
        names = [head.removeprefix("out ") for head, _ in blocks if head.startswith("out ")]
        shutil.copytree(root / "crates", copy / "crates", ignore=shutil.ignore_patterns("out", *names))
        listed = [l for l in (root / "crates.txt").read_text().splitlines(True) if l.split(":")[0] not in names]
        (copy / "crates.txt").write_text("".join(listed))
        for name in names:
            subprocess.run(["sh", "-e", "-c", re.sub(r"\bdemo\b", name, one("sh"))], cwd=copy, check=True, stdout=subprocess.DEVNULL)
            crate = copy / "crates" / name
            (crate / "src" / "main.rt").write_text(one(f"rust {name}"))
            ran = subprocess.run(["rt", "try", "--seconds", "600"], cwd=crate, capture_output=True, text=True)
            if ran.returncode != 0 or ran.stdout != one(f"out {name}"):
                wrong += 1
                print(ran.stdout, ran.stderr, sep="")

print(f"wrong={wrong}")
sys.exit(1 if wrong else 0)
