#!/usr/bin/env python3
"""Writes one HTML file that shows a text beside its code on the three targets, line by line.

    view.py [-o OUT] [--program LIGHTNING] [--steps N] TEXT [ARG..]

TEXT is run with its words in the modes `list` and `profile` on each target, and once in the mode `explain`, by LIGHTNING. Without that option it is the proved program
where one of this very tree is kept, and else `./try`, which runs one without proofs; then the page says so. N is the most steps of each run, 20,000,000 by default. OUT is
TEXT with the ending `.html` by default. The page needs nothing else: no network, no library, and no JavaScript, which only highlights what belongs together. Of a text that
is refused it shows the line, the word and the sentence, and of an undefined step the line, the reason and the registers. The status is 0 where the page was written, and
else 1, with a line on the standard error.

docs/collatz.png shows the top of the page of examples/collatz.tst: `chromium --headless --hide-scrollbars --window-size=1400,1000 --screenshot=PNG PAGE`, and then
`pngquant --nofs --output docs/collatz.png 160 PNG`.
"""
import argparse
import concurrent.futures
import gc
import pathlib
import sys

import modes
from page import TARGETS, Listing, Page, Text

TREE = pathlib.Path(__file__).resolve().parents[2]


def found_program():
    """Returns the proved program where it is kept, and else `./try`."""
    sys.path.insert(0, str(TREE / "tools/launch"))
    import prove

    return str(prove.PROGRAM if prove.is_kept(prove.kept_program()) else TREE / "try")


def words_of(asked, mode, target):
    return ["--mode", mode, "--stats", "--target", target, "--steps", str(asked.steps), "--", asked.text, *asked.words]


def listings_of(asked, text):
    """Returns the listing of the text on each target with its profile, and these runs."""
    with concurrent.futures.ThreadPoolExecutor() as pool:
        listed = {it: pool.submit(modes.ran, asked.program, words_of(asked, "list", it)) for it in TARGETS}
        profiled = {it: pool.submit(modes.ran, asked.program, words_of(asked, "profile", it)) for it in TARGETS}
        runs = {it: run.result() for it, run in profiled.items()}
        return [Listing(it, listed[it].result().out.decode(errors="replace"), runs[it], text) for it in TARGETS], runs


def parsed():
    parser = argparse.ArgumentParser(usage="view.py [-o OUT] [--program LIGHTNING] [--steps N] TEXT [ARG..]")
    parser.add_argument("-o", dest="out")
    parser.add_argument("--program")
    parser.add_argument("--steps", type=int, default=20_000_000)
    parser.add_argument("text")
    parser.add_argument("words", nargs=argparse.REMAINDER)
    asked = parser.parse_args()
    asked.program = asked.program or found_program()
    return asked


def main():
    # (a long text makes a million small values, which all live to the end)
    gc.disable()
    asked = parsed()
    path = pathlib.Path(asked.text)
    text = Text(path.read_bytes())
    meaning = modes.ran(asked.program, words_of(asked, "explain", "x86_64"), is_shown=True)
    fault = modes.fault_in(meaning.said)
    if not fault and not modes.first(modes.STATISTICS, meaning.said):
        sys.exit("\n".join([*meaning.said[-12:], f"view.py: {asked.program} did not run the text: status {meaning.status}"]))
    listings, runs = ([], {}) if fault and fault.is_refusal else listings_of(asked, text)
    out = pathlib.Path(asked.out) if asked.out else path.with_suffix(".html")
    out.write_text(Page(path.name, asked, text, listings, runs, meaning, fault).html(), encoding="utf-8")
    print(out)


if __name__ == "__main__":
    try:
        main()
    except OSError as error:
        sys.exit(f"view.py: {error.filename}: {error.strerror}")
