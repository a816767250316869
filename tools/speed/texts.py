#!/usr/bin/env python3
"""Prints a text to time `lightning` by: texts.py KIND [SIZE], where SIZE is a number of lines or, of the first three kinds, of bytes, which the text has or some less.

The first three are for the preprocessor: their first line is refused after it, so that nothing else is done with them. What `--mode list` writes of `swaps`, which
is much code of few instructions on RV64, is read back by `--mode back`. Not part of the gate.

    plain     instructions, in which no macro is named
    calls     calls of a macro with two parameters, whose body names another
    macros    macros, each in a line of its own, after which it is named
    adds      a function of as many additions of 1 to a register
    far       a function with a branch over as many additions of a wide number, and two calls of it after them
    swaps     as many instructions that turn the bytes of a word
    short     a loop without an end of four instructions
    loop      one over immediates, memory and flags: carries, comparisons, loads and stores of several widths
"""
import sys

REFUSED = "refused\n"
MACROS = "#define INTO(r) %r0 r\n#define ADD(r, n) addi INTO(r) n\n"
FAR = """jmpi main f: prolog arg $a getarg %v0 $a blei out %v0 0
{}out: retr %v0 epilog main: prolog
prepare pushargi 0 finishi f
prepare pushargi 5 finishi f ret epilog
"""
SHORT = """prolog movi %v0 0 movi %v1 0 movi %v2 0
again: addi %v0 %v0 1 addr %v1 %v1 %v0 xorr %v2 %v2 %v1 bnei again %v2 0
ret epilog
"""
LOOP = """.data 64 words: .l 7 11 .size 32 .code prolog movi %v0 words movi %v1 0
again: ldr %r0 %v0 addci %r0 %r0 1234567 addxi %v1 %v1 0 str %v0 %r0 ldxi_uc %r1 %v0 9 andi %r2 %r0 24
addr %r2 %r2 %v0 ldxi_i %r2 %r2 4 stxi_s 40 %v0 %r2 xorr %v1 %v1 %r1 lti_u %r1 %v1 1000 subi %v2 %v1 77
bgti again %v2 -5 orr %v1 %v1 %r1 jmpi again epilog
"""


def repeated(front, line, size):
    """The text of a front and as many equal lines after it as a size has room for."""
    return front + line * ((size - len(front)) // len(line))


def macros(size):
    """Macros, each in a line of its own, after which it is named."""
    lines, length = [REFUSED], len(REFUSED)
    while size - length >= 64:
        number = len(lines) - 1
        lines.append(f"#define m{number} {number}\nm{number}\n")
        length += len(lines[-1])
    return "".join(lines)


KINDS = {
    "plain": lambda size: repeated(REFUSED, "addi %r0 %r1 12345\n", size),
    "calls": lambda size: repeated(REFUSED + MACROS, "ADD(%r1, 12345)\n", size),
    "macros": macros,
    "adds": lambda lines: "prolog movi %r0 0 more:\n" + "addi %r0 %r0 1\n" * lines + "retr %r0 epilog\n",
    "far": lambda lines: FAR.format("addi %v0 %v0 99999\n" * lines),
    "swaps": lambda lines: "prolog arg $a getarg %r0 $a\n" + "htonr_ul %r0 %r0\n" * lines + "retr %r0 epilog\n",
    "short": lambda _: SHORT,
    "loop": lambda _: LOOP,
}


def main():
    if len(sys.argv) not in (2, 3) or sys.argv[1] not in KINDS:
        sys.exit(__doc__)
    sys.stdout.write(KINDS[sys.argv[1]](int(sys.argv[2]) if len(sys.argv) == 3 else 0))


main()
