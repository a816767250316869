#!/usr/bin/env python3
"""Compares listings with GNU objdump: python3 compare.py LISTING ..

Each LISTING is a file that `lightning --mode list` has written. Its bytes are given to objdump as they are; where each instruction begins, how many bytes it has
and which operation it is has to be the same. A target whose objdump is not on the machine is left out, with a line that says so (Debian: binutils,
binutils-aarch64-linux-gnu, binutils-riscv64-linux-gnu). The last line counts; the status is 1 where a line differs.
"""
import re
import shutil
import subprocess
import sys
import tempfile

BASE = 0x10000000
TOOLS = {
    "x86_64": ["objdump", "-m", "i386:x86-64", "-M", "intel"],
    "aarch64": ["aarch64-linux-gnu-objdump", "-m", "aarch64", "-M", "no-aliases"],
    "riscv64": ["riscv64-linux-gnu-objdump", "-m", "riscv:rv64", "-M", "no-aliases"],
}
# Our names are those of the encodings' rows. What objdump calls them, where that is another name.
X86_64 = {
    "mov": "mov st8 st16 st32 st64 ld32u ld64 ext32u movi32 movs32",
    "movsxd": "ld32s ext32s",
    "movzx": "ld8u ld16u ext8u ext16u",
    "movsx": "ld8s ld16s ext8s ext16s",
    "lea": "lea2",
    "movabs": "movi64",
    "imul": "imul1",
    "jmp": "jmp8 jmp32 jmpr",
    "call": "call32 callr",
}
X86_64 = {ours: theirs for theirs, names in X86_64.items() for ours in names.split()}
AARCH64 = {
    "addi": "add", "addsi": "adds", "subi": "sub", "subsi": "subs",
    "ldr64": "ldr", "ldr32": "ldr", "ldr16": "ldrh", "ldr8": "ldrb", "ldrs32": "ldrsw", "ldrs16": "ldrsh", "ldrs8": "ldrsb", "ldrx": "ldr",
    "str64": "str", "str32": "str", "str16": "strh", "str8": "strb",
}


def name_of(target, ours):
    """Returns what objdump calls an operation of ours."""
    if target == "x86_64":
        if ours in X86_64:
            return X86_64[ours]
        if re.fullmatch(r"j[a-z]+(8|32)", ours):
            return re.sub(r"\d+$", "", ours)
        return ours[:-1] if ours in ("addi", "ori", "adci", "sbbi", "andi", "subi", "xori", "cmpi", "shli", "shri", "sari") else ours
    return AARCH64.get(ours, ours) if target == "aarch64" else ours


def same(target, ours, theirs):
    wanted = name_of(target, ours)
    return wanted == theirs or (target == "aarch64" and wanted in ("lslv", "lsrv", "asrv") and wanted[:-1] == theirs)


def read(path):
    """Returns the target of a listing, its instructions as (address, bytes, operation), and its bytes."""
    with open(path, encoding="utf-8") as text:
        first, *lines = text.read().splitlines()
    target, count = re.fullmatch(r"; (\w+) (\d+)", first).groups()
    found, code = [], b""
    for line in lines:
        row = re.fullmatch(r"([0-9a-f]{8})  ([0-9a-f]+)  (\S+)(?: .*)?", line)
        if row:
            found.append((int(row[1], 16), bytes.fromhex(row[2]), row[3]))
            code += found[-1][1]
    assert len(code) == int(count), f"{path}: {count} bytes are announced, and {len(code)} listed"
    return target, found, code


def disassembled(tool, code):
    """Returns objdump's instructions as (address, number of bytes, operation)."""
    with tempfile.NamedTemporaryFile() as raw:
        raw.write(code)
        raw.flush()
        words = [*tool, "-D", "-z", "-w", "-b", "binary", f"--adjust-vma={BASE:#x}", raw.name]
        text = subprocess.run(words, capture_output=True, text=True, check=True).stdout
    rows = re.findall(r"^\s*([0-9a-f]+):\t([0-9a-f ]+?)\s*\t(?:rex(?:\.\w+)? |data16 )*(\S+)", text, re.M)
    return [(int(at, 16), len(shown.replace(" ", "")) // 2, name) for at, shown, name in rows]


def main():
    lines = differ = 0
    for path in sys.argv[1:]:
        target, ours, code = read(path)
        tool = TOOLS[target]
        if not shutil.which(tool[0]):
            print(f"{path}: left out: {tool[0]} is not on this machine")
            continue
        theirs = {at: (count, name) for at, count, name in disassembled(tool, code)}
        for at, spelled, name in ours:
            lines += 1
            found = theirs.get(at)
            if not found or found[0] != len(spelled) or not same(target, name, found[1]):
                differ += 1
                print(f"{path}: {at:08x} {spelled.hex()} {name}: objdump has {found}")
        if len(theirs) != len(ours):
            differ += 1
            print(f"{path}: {len(ours)} instructions, and objdump has {len(theirs)}")
    print(f"{lines} instructions compared, {differ} differ")
    return 1 if differ else 0


if __name__ == "__main__":
    sys.exit(main())
