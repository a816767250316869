"""Times the models of the processors beside the plain C interpreters of this folder, on the code of a text of `tools/speed/texts.py`, a loop without an end.

Usage: python3 tools/interpreters/measure.py LIGHTNING [RUNS], at the top of the repository, where LIGHTNING is the built program, after
    for t in riscv64 aarch64 x86_64; do gcc -O2 -o /tmp/$t tools/interpreters/$t.c; done
Prints the least time of interleaved runs, as instructions a second, and the ratio."""

import resource
import subprocess
import sys

STEPS = "20000000"
TEXT, LISTING = "/tmp/short.tst", "/tmp/short.lst"
TARGETS = ("riscv64", "aarch64", "x86_64")


def output(command):
    return subprocess.run(command, stdout=subprocess.PIPE, check=True).stdout


def write_code(lightning, target):
    """Writes the code of the text for a target, in hexadecimal digits."""
    with open(LISTING, "wb") as file:
        file.write(output([lightning, "--mode", "list", "--target", target, TEXT]))
    with open(f"/tmp/{target}.hex", "w") as file:
        file.write(output([lightning, "--mode", "back", LISTING]).hex())


def seconds(command):
    before = resource.getrusage(resource.RUSAGE_CHILDREN).ru_utime
    subprocess.run(command, stdout=subprocess.DEVNULL, stderr=subprocess.DEVNULL)
    return resource.getrusage(resource.RUSAGE_CHILDREN).ru_utime - before


def main():
    lightning = sys.argv[1]
    runs = int(sys.argv[2]) if len(sys.argv) > 2 else 12
    with open(TEXT, "wb") as file:
        file.write(output([sys.executable, "tools/speed/texts.py", "short"]))
    for target in TARGETS:
        write_code(lightning, target)
    least = {}
    for _ in range(runs):
        for target in TARGETS:
            model = [lightning, "--target", target, "--steps", STEPS, TEXT]
            for who, command in (("C", [f"/tmp/{target}", f"/tmp/{target}.hex", STEPS]), ("model", model)):
                time = seconds(command)
                least[target, who] = min(least.get((target, who), time), time)
    for target in TARGETS:
        plain, model = least[target, "C"], least[target, "model"]
        million = int(STEPS) / 1e6
        print(f"{target}: C {million / plain:.0f}, model {million / model:.0f} million instructions a second, ratio {plain / model:.2f}")


main()
