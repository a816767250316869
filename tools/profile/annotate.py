#!/usr/bin/env python3
"""Prints a text with the numbers of a profile beside each line.

    annotate.py TEXT TABLE

TEXT is the text, and TABLE what `lightning --mode profile TEXT` wrote to the standard error: lines `line L steps S instructions I`, and others, which
are passed over. Each line of the text is printed after the steps of the meaning that have its number, their share of all in percent, the instructions and
host steps of the code that count for it, and their share. A line with a tenth of all instructions or more is marked with `*`, and the hottest with `**`.
The last line has the sums. Lines of the table that the text does not have are reported, with status 1.
"""
import re
import sys

ROW = re.compile(r"line (\d+) steps (\d+) instructions (\d+)")
MARKED = 0.1


def read_table(lines):
    """The numbers of a table, steps and instructions by line."""
    rows = {}
    for line in lines:
        row = ROW.fullmatch(line.rstrip("\n"))
        if row:
            number, steps, instructions = map(int, row.groups())
            rows[number] = (steps, instructions)
    return rows


def share(part, whole):
    """A part in percent of the whole, with one digit after the point, and nothing where there is none."""
    return f"{100 * part / whole:5.1f}%" if part else " " * 6


def mark(instructions, most, whole):
    """The mark of a line."""
    if instructions == 0:
        return "  "
    if instructions == most:
        return "**"
    return "* " if instructions >= MARKED * whole else "  "


def annotate(text, rows):
    """The lines of a text with their numbers."""
    all_steps = sum(steps for steps, _ in rows.values())
    whole = sum(instructions for _, instructions in rows.values())
    most = max((instructions for _, instructions in rows.values()), default=0)
    width = max(len(str(all_steps)), len(str(whole)), len("instructions"))
    yield f"   {'steps':>{width}} {'':6}  {'instructions':>{width}} {'':6}  line"
    for number, line in enumerate(text, start=1):
        steps, instructions = rows.get(number, (0, 0))
        left = f"{steps or '':>{width}} {share(steps, all_steps)}"
        right = f"{instructions or '':>{width}} {share(instructions, whole)}"
        yield f"{mark(instructions, most, whole)} {left}  {right}  {number:4} {line}".rstrip()
    yield f"   {all_steps:>{width}} {'':6}  {whole:>{width}}"


def main():
    if len(sys.argv) != 3:
        sys.exit("annotate.py TEXT TABLE")
    with open(sys.argv[1], encoding="utf-8", errors="replace") as file:
        text = file.read().split("\n")
    if text and text[-1] == "":
        text.pop()
    with open(sys.argv[2], encoding="utf-8", errors="replace") as file:
        rows = read_table(file)
    for line in annotate(text, rows):
        print(line)
    strange = sorted(number for number in rows if number < 1 or number > len(text))
    if strange:
        sys.exit(f"annotate.py: the text has no line {strange[0]}")


if __name__ == "__main__":
    main()
