"""Runs a text in the modes of `lightning` and reads the lines that these write.

A listing becomes nodes, the instructions of the text that are left, each with its machine instructions. A profile becomes the steps of each line and the instructions
that ran of it. The lines of `explain` become what is at fault.
"""
import collections
import dataclasses
import re
import subprocess
import sys
import tempfile

# the lines of a listing, and the address to which an instruction leads
NODE = re.compile(r"; (\d+)(?:\.\d+)? (\S+)(.*)")
LABEL = re.compile(r"([0-9a-f]{8}) (\S.*):")
CODE = re.compile(r"([0-9a-f]{8})  ([0-9a-f]+)  (.*)")
LEADS = re.compile(r"\b0x([0-9a-f]{8})$")
CALLS = re.compile(r"call|bl |jal x1,")
# the lines of the standard error
ROW = re.compile(r"line (\d+) steps (\d+) instructions (\d+)")
STATISTICS = re.compile(r"bytes (\d+) nodes (\d+) spills (\d+) steps (\d+)")
REFUSED = re.compile(r"lightning: .*:(\d+): refused (\d+) (\w+)")
UNDEFINED = re.compile(r"lightning: undefined at line (\d+) after (\d+)")
STOPPED = re.compile(r"lightning: (steps out after \d+|fault .*|out of memory|read fault|write fault|usage: .*)")
EXPLAINED = re.compile(r".*?:\d+: (.*)")
# what a launcher says that first builds the program
BUILDING = re.compile(r"try: building .*|lightning: (?:proving|\w+ proved,) .*")
UNPROVED = "try: what runs is not proved"

Code = collections.namedtuple("Code", "at bytes text")
Label = collections.namedtuple("Label", "at word")
Run = collections.namedtuple("Run", "status out said")
Statistics = collections.namedtuple("Statistics", "bytes nodes spills steps")
Fault = collections.namedtuple("Fault", "line title sentences is_refusal")


@dataclasses.dataclass
class Node:
    """An instruction of the text that is left after the rewrites: its line, its name, what a listing says of its operands, the labels before it, and its code."""

    line: int
    name: str
    operands: str
    labels: list
    code: list


def ran(program, words, is_shown=False):
    """Runs the program with these words: its status, its output, and the lines of its standard error. What a launcher says is passed on where it is to be shown."""
    said = []
    with tempfile.TemporaryFile() as out, subprocess.Popen([program, *words], stdin=subprocess.DEVNULL, stdout=out, stderr=subprocess.PIPE) as run:
        for line in run.stderr:
            said.append(line.decode(errors="replace").rstrip("\n"))
            if is_shown and BUILDING.fullmatch(said[-1]):
                print(said[-1], file=sys.stderr)
        run.wait()
        out.seek(0)
        return Run(run.returncode, out.read(), said)


def first(pattern, lines):
    return next((found for found in map(pattern.fullmatch, lines) if found), None)


def stopped_in(said):
    """Returns why a run stopped before its end, or None."""
    found = first(STOPPED, said)
    return found[1] if found else None


def fault_in(said):
    """Returns what the mode `explain` says of a text that is refused or of a step that is undefined, or None."""
    for at, line in enumerate(said):
        # (the line of the text comes first, and then the sentences)
        sentences = [found[1] for found in map(EXPLAINED.fullmatch, said[at + 1 :]) if found][1:]
        if found := REFUSED.fullmatch(line):
            return Fault(int(found[1]), f"refused: {found[2]} {found[3]}", sentences, True)
        if found := UNDEFINED.fullmatch(line):
            return Fault(int(found[1]), f"undefined after {int(found[2]):,} steps of the meaning", sentences, False)
    return None


def profile_in(said):
    """Returns the steps of the meaning by line, and the instructions that ran by line."""
    rows = [tuple(map(int, found.groups())) for found in map(ROW.fullmatch, said) if found]
    return {line: steps for line, steps, _ in rows}, {line: run for line, _, run in rows}


def statistics_in(said):
    found = first(STATISTICS, said)
    return Statistics(*map(int, found.groups())) if found else Statistics(0, 0, 0, 0)


def nodes_in(listed):
    """Returns the nodes of a listing in the order of the code, and the labels after the last."""
    nodes, labels = [], []
    for row in listed.split("\n"):
        if found := CODE.fullmatch(row):
            nodes[-1].code.append(Code(int(found[1], 16), found[2], found[3]))
        elif found := NODE.fullmatch(row):
            nodes.append(Node(int(found[1]), found[2], found[3].strip(), labels, []))
            labels = []
        elif found := LABEL.fullmatch(row):
            labels.append(Label(int(found[1], 16), found[2]))
    return nodes, labels


def leads_to(code):
    """Returns the address that ends the text of an instruction, or None."""
    found = LEADS.search(code.text)
    return int(found[1], 16) if found else None


def is_call(code):
    return CALLS.match(code.text) is not None
