#!/usr/bin/env python3
"""Times assembling beside other assemblers, in one run: peers.py LIGHTNING LG_BENCH, which are the built programs.

Each peer that the machine has makes code of 65,000 instructions that add 1 to a register, 16 times: GNU as for RV64, alone and after the preprocessor cpp, tcc and fasm, from a
file each, with a start for each time; asmjit (Debian's libasmjit-dev, compiled by g++ -O2) from calls in memory, by its Assembler and by its Compiler, which chooses registers;
`lightning` from a file, with its preprocessor, a run of the code and a start for each time; and lg_bench for each target, from a text and from nodes in memory. All are
run in turn, seven times; a line each has the least time of the processor in seconds, and how many millions of instructions, which are lines, a second that is. Not part of the
gate.
"""
import os
import pathlib
import resource
import shutil
import subprocess
import sys
import tempfile

COUNT, TIMES, ROUNDS = 65_000, 16, 7
ASMJIT = r"""
#include <asmjit/asmjit.h>
#include <cstdio>
#include <cstring>
using namespace asmjit;
int main(int argc, char **argv) {
    bool chooses = !strcmp(argv[1], "compiler");
    size_t sum = 0;
    for (int time = 0; time < TIMES; time++) {
        JitRuntime runtime;
        CodeHolder code;
        code.init(runtime.environment());
        if (chooses) {
            x86::Compiler it(&code);
            it.addFunc(FuncSignatureT<long>(CallConvId::kHost));
            x86::Gp sum = it.newInt64();
            it.mov(sum, 0);
            for (int i = 0; i < COUNT; i++) it.add(sum, 1);
            it.ret(sum);
            it.endFunc();
            it.finalize();
        } else {
            x86::Assembler it(&code);
            for (int i = 0; i < COUNT; i++) it.add(x86::rax, 1);
            it.ret();
        }
        sum += code.codeSize();
    }
    printf("%zu\n", sum);
}
"""


def seconds(command, folder, times):
    """The processor's time of a command that is run some times."""
    before = resource.getrusage(resource.RUSAGE_CHILDREN)
    for _ in range(times):
        subprocess.run(command, cwd=folder, check=True, stdout=subprocess.DEVNULL, stderr=subprocess.DEVNULL)
    after = resource.getrusage(resource.RUSAGE_CHILDREN)
    return after.ru_utime + after.ru_stime - before.ru_utime - before.ru_stime


def peers(lightning, bench, folder):
    """What can be run here: a name, a command, and how often it is run for the whole work."""
    (folder / "riscv.s").write_text("addi t0, t0, 1\n" * COUNT)
    (folder / "adds.tst").write_text("prolog movi %r0 0 more:\n" + "addi %r0 %r0 1\n" * COUNT + "retr %r0 epilog\n")
    (folder / "tcc.s").write_text("addq $1, %rax\n" * COUNT)
    (folder / "fasm.asm").write_text("use64\n" + "add rax, 1\n" * COUNT)
    (folder / "asmjit.cc").write_text(ASMJIT.replace("COUNT", str(COUNT)).replace("TIMES", str(TIMES)))
    found = []
    for name, command in [
        ("GNU as, RV64", ["riscv64-linux-gnu-as", "-o", "riscv.o", "riscv.s"]),
        ("cpp and GNU as, RV64", ["sh", "-c", "cpp -P riscv.s | riscv64-linux-gnu-as -o riscv.o -"]),
        ("tcc, x86-64", ["tcc", "-c", "-o", "tcc.o", "tcc.s"]),
        ("fasm, x86-64", ["fasm", "-m", "524288", "fasm.asm", "fasm.bin"]),
    ]:
        if shutil.which(command[0]) and (command[0] != "sh" or shutil.which("riscv64-linux-gnu-as") and shutil.which("cpp")):
            found.append((name, command, TIMES))
    if shutil.which("g++"):
        built = subprocess.run(["g++", "-O2", "-o", "asmjit", "asmjit.cc", "-lasmjit"], cwd=folder, capture_output=True)
        if built.returncode == 0:
            found += [(f"asmjit's {word.capitalize()}, x86-64", ["./asmjit", word], 1) for word in ("assembler", "compiler")]
    for target in ("riscv64", "aarch64", "x86_64"):
        found.append((f"lightning, {target}", [lightning, "--target", target, "--code", "16777216", "adds.tst"], TIMES))
    for target in ("rv64", "aarch64", "x86_64"):
        for word in ("code", "assemble"):
            found.append((f"lg_bench {word}, {target}", [bench, word, str(COUNT), str(TIMES), target], 1))
    return found


def main():
    if len(sys.argv) != 3:
        sys.exit(__doc__.splitlines()[0])
    lightning, bench = map(os.path.abspath, sys.argv[1:])
    with tempfile.TemporaryDirectory() as folder:
        found = peers(lightning, bench, pathlib.Path(folder))
        least = {name: float("inf") for name, _, _ in found}
        for _ in range(ROUNDS):
            for name, command, times in found:
                least[name] = min(least[name], seconds(command, folder, times))
    for name, time in least.items():
        print(f"{name}: {time:.2f} s, {COUNT * TIMES / time / 1e6:.2f} million instructions a second")


main()
