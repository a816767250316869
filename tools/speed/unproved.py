#!/usr/bin/env python3
"""Builds a program of this tree optimised and unproved, to measure a change before it is proved: unproved.py CRATE OUT.

`rt try` makes one LLVM module of a program, with a check for each clause. This script takes the checks, the traps that they end in and the fills of fresh memory out of
that module, gives functions the hints to inline that their sources have, and compiles it by the kit's clang at -O3 to OUT/CRATE; OUT/module.ll stays. Some three minutes.
Its instructions (`valgrind --tool=callgrind`) are within 3 of a hundred of the proved program's in most code. Steps of processors count 8 to 38 of a hundred
fewer, since every hint is followed here, and the kit drops those that would grow a function very much. Where a clause does not hold its behaviour is undefined.
Not part of the gate.
"""
import collections
import os
import pathlib
import re
import shutil
import subprocess
import sys

TREE = pathlib.Path(__file__).resolve().parents[2]
FLAGS = ["--target=x86_64-unknown-linux-gnu", "--no-default-config", "-Wno-override-module"]
FAST = ["-march=x86-64-v2", "-ffunction-sections", "-fdata-sections", "-no-canonical-prefixes", "-fintegrated-cc1"]
NOISE = re.compile(r'^  call void @(llvm\.memset\.p0\.i64\(ptr %r\d+, i8 -86,|llvm\.trap\(\)|"rattle-llvm-checks::)')
HINT = re.compile(r"#\[(inline(?:\((?:always|never)\))?|cold)\]\s*(?:#\[[^\n]*\]\s*)*(?:pub(?:\([a-z]+\))?\s+)?(?:const\s+)?(?:unsafe\s+)?fn\s+(\w+)")
WORDS = {"inline(always)": "alwaysinline", "inline": "inlinehint", "inline(never)": "noinline", "cold": "cold"}


def kit_beside(out, kit):
    """Makes a kit in OUT/kit whose clang keeps the module that it is to compile with checks, and gives up."""
    room = out / "kit"
    shutil.rmtree(room, ignore_errors=True)
    (room / "bin").mkdir(parents=True)
    (room / "toolchain/bin").mkdir(parents=True)
    for it in kit.iterdir():
        if it.name not in ("bin", "toolchain"):
            (room / it.name).symlink_to(it)
    for it in (kit / "bin").iterdir():
        if it.name in ("rt", "rtlib.py"):
            shutil.copy(it, room / "bin" / it.name)
        else:
            (room / "bin" / it.name).symlink_to(it)
    for part in (kit / "toolchain", kit / "toolchain/bin"):
        for it in part.iterdir():
            if it.name not in ("bin", "clang"):
                (room / part.relative_to(kit) / it.name).symlink_to(it)
    clang = room / "toolchain/bin/clang"
    clang.write_text(f'#!/bin/sh\ncase " $* " in *" -fsanitize=address "*) cp module.bc {out}/module.bc; exit 1;; esac\nexec {kit}/toolchain/bin/clang "$@"\n')
    clang.chmod(0o755)
    return room


def copied(out):
    """Copies what is compiled into OUT/tree, so that the tree keeps its own `out` folders."""
    room = out / "tree"
    shutil.rmtree(room, ignore_errors=True)
    for crate in (TREE / "crates").iterdir():
        for part in ("src", "specs", "proofs"):
            if (crate / part).is_dir():
                shutil.copytree(crate / part, room / "crates" / crate.name / part)
    for name in ("crates.txt", "HANDLES"):
        shutil.copy(TREE / name, room / name)
    return room


def hints_of(crates):
    """Returns the hints of functions by crate, first module and name, and by crate and name where the crate has one function of the name: an `impl` may be in another
    module than its type."""
    hints, alone = {}, {}
    for crate in crates:
        texts = {source.relative_to(crate / "src").parts[0].removesuffix(".rt"): "" for source in (crate / "src").rglob("*.rt")}
        for source in sorted((crate / "src").rglob("*.rt")):
            texts[source.relative_to(crate / "src").parts[0].removesuffix(".rt")] += source.read_text()
        names = collections.Counter(re.findall(r"\bfn\s+(\w+)", "".join(texts.values())))
        for module, text in texts.items():
            for found in HINT.finditer(text):
                hints[crate.name, "" if module == "lib" else module, found[2]] = WORDS[found[1]]
                if names[found[2]] == 1:
                    alone[crate.name, "", found[2]] = WORDS[found[1]]
    return alone | hints


def stripped(line, hints):
    """Returns a line of the module without what only checks need."""
    if line.startswith("attributes #7"):
        return "attributes #7 = { nounwind }\n"
    if line.startswith("attributes"):
        line = line.replace(" sanitize_address", "" if "nounwind" in line else " nounwind").replace('"frame-pointer"="all"', "")
        return line.replace('"probe-stack"="inline-asm" "stack-probe-size"="3072"', "").replace('"target-cpu"="x86-64"', "")
    found = re.match(r'define .*?@"?([^"(]+)"?\(', line)
    if found is None:
        return line
    parts = re.sub(r"::<.*$", "", found[1]).split("::")
    hint = hints.get((parts[0], parts[1] if len(parts) > 2 else "", parts[-1])) or hints.get((parts[0], "", parts[-1]))
    return line.replace(" #0 {", f" {hint} #0 {{") if hint else line


def main():
    name, out = sys.argv[1], pathlib.Path(sys.argv[2]).resolve()
    out.mkdir(parents=True, exist_ok=True)
    kit = pathlib.Path(shutil.which("rt")).resolve().parents[1]
    tree = copied(out)
    (out / "module.bc").unlink(missing_ok=True)
    tried = subprocess.run([kit_beside(out, kit) / "bin/rt", "try"], cwd=tree / "crates" / name, capture_output=True, text=True)
    if not (out / "module.bc").exists():
        sys.exit(tried.stderr[-3000:])
    clang, module = kit / "toolchain/bin/clang", out / "module.ll"
    subprocess.check_call([clang, *FLAGS, "-S", "-emit-llvm", "-O0", "-Xclang", "-disable-llvm-passes", "-x", "ir", out / "module.bc", "-o", out / "checked.ll"])
    hints = hints_of([*(tree / "crates").iterdir(), *(it for it in (kit / "rattle").iterdir() if (it / "src").is_dir())])
    with open(out / "checked.ll") as checked, open(module, "w") as it:
        it.writelines(stripped(line, hints) for line in checked if not NOISE.match(line))
    subprocess.check_call([clang, *FLAGS, *FAST, "-O3", "-fPIE", "-c", "-x", "ir", module, "-o", out / "module.o"])
    libraries = [kit / "c/libos_c.a", kit / "c/liblibc_c.a", "-lm", "-lpthread"]
    subprocess.check_call(["gcc", "-pie", "-Wl,--gc-sections", out / "module.o", *libraries, "-o", out / name])


main()
