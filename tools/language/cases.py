#!/usr/bin/env python3
"""The examples of docs/LANGUAGE.md as cases of lg_test_calls. Says whether crates/lg_test_calls/data/cases/language.txt has exactly them; with --write, writes it.

A block ```tst NAME WORDS is a text, run with these words of the command; ```out NAME STATUS what it writes (without the last line feed where its head says so), and
```err NAME STATUS the line on the standard error; a status that is not said is 0. A row of a table of instructions has an example that is put into the block ```frame,
and what is printed of it; a row of the table of undefined steps a text and the steps before; a row of the table of refusals a text that is refused at line 1.
A case is a line with its name, its status, how it is run and its words, with tabs between, and then the text, the output and the line, as
crates/lg_test_calls/src/cases/case.rt says. One that names no mode is run on the three targets and by its meaning, any other on the three targets.
"""
import pathlib
import re
import sys

root = pathlib.Path(__file__).resolve().parents[2]
page = (root / "docs" / "LANGUAGE.md").read_text()
data = root / "crates" / "lg_test_calls" / "data" / "cases" / "language.txt"

blocks = re.findall(r"^```(tst|out|err|frame) ?(.*)\n((?:.*\n)*?)```$", page, re.M)
outputs, lines, statuses = {}, {}, {}
for kind, head, text in blocks:
    name, *rest = head.split() or [""]
    if kind in ("out", "err"):
        if rest and rest[0].isdigit():
            statuses[name] = rest[0]
        if "without" in rest:
            text = text.rstrip("\n")
        (outputs if kind == "out" else lines)[name] = text

cases = []


def add(name, text, output="", status="0", words="", line=""):
    ways = "targets" if "--mode" in words else "all"
    first = "\t".join([f"{name}.tst", status, ways, f"{words} {name}.tst".strip()])
    cases.append(f"====\n{first}\n{text}\n----\n{output}\n----\n{line}\n")


texts = [(head.split(), text) for kind, head, text in blocks if kind == "tst"]
for (name, *words), text in texts:
    add(name, text, outputs.pop(name, ""), statuses.get(name, "0"), " ".join(words), lines.pop(name, ""))
assert not outputs and not lines, f"of no text: {outputs} {lines}"
frame = next(text for kind, head, text in blocks if kind == "frame")
for names, example, value in re.findall(r"^\| (`.*?) \|.*\| `([^`|]*)` \| (-?\d+) \|$", page, re.M):
    name = re.sub(r"\W+", "_", names.replace("`", "")).strip("_")
    add(f"instruction_{name}", frame.replace("EXAMPLE", example), f"{value}\n")
for number, text, steps in re.findall(r"^\| (\d+) \|.*\| `([^`|]*)` \| (\d+) \|$", page, re.M):
    add(f"undefined_{number}", text + "\n", "", "120", "--mode mean", f"lightning: undefined at line 1 after {steps}\n")
for number, kind, text in re.findall(r"^\| (\d+) \| (\w+) \| `(.*?)` \|", page, re.M):
    add(f"refused_{number}", text + "\n", "", "121", "", f"lightning: refused_{number}.tst:1: refused {number} {kind}\n")

wanted = "".join(cases)
if "--write" in sys.argv:
    data.write_text(wanted)
same = data.read_text() == wanted
print(f"{len(cases)} examples, {'the same' if same else 'others'} in the data")
sys.exit(0 if same else 1)
