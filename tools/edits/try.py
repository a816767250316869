#!/usr/bin/env python3
"""Tries the wrong bodies that the gate leaves out: each crates/CRATE/must-fail/NAME.md, in a copy of the repository.

try.py [CRATE..] copies the tree to a new folder, gives each NAME.md of these crates (without names: of all) the ending .edit, and runs `rt must-fail` on each of
the crates, which proves it first. It prints what `rt must-fail` prints of each edit, and ends with 1 where one was not refused. Not part of the gate.
"""
import pathlib
import shutil
import subprocess
import sys
import tempfile

root = pathlib.Path(__file__).resolve().parents[2]
names = sys.argv[1:] or sorted({edit.parts[-3] for edit in root.glob("crates/*/must-fail/*.md")})
copy = pathlib.Path(tempfile.mkdtemp(prefix="edits-")) / "copy"
shutil.copytree(root, copy, ignore=shutil.ignore_patterns("out", ".git"))
subprocess.run(["git", "init", "-q"], cwd=copy, check=True)
failed = []
for name in names:
    edits = sorted((copy / "crates" / name / "must-fail").glob("*.md"))
    for edit in edits:
        edit.rename(edit.with_suffix(".edit"))
    print(f"{name}: {len(edits)} edits that the gate leaves out", flush=True)
    if edits and subprocess.run(["rt", "must-fail", name], cwd=copy).returncode != 0:
        failed.append(name)
print("not as it must be: " + " ".join(failed) if failed else "each was refused")
shutil.rmtree(copy.parent)
sys.exit(1 if failed else 0)
