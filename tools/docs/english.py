#!/usr/bin/env python3
"""Lists house words and long sentences in pages and comments: english.py [--list WORD] [PATH..].

For each word of the table below it prints how often it is used in pages (*.md) and in comments (*.rt, *.antt), beside the English word, and last how many sentences
of the pages have more than 35 words. Names between backquotes and names of files do not count. With --list WORD it prints each line with that word, with --list long the long sentences;
with PATH only these files are read. The counts may only fall.
"""
import pathlib
import re
import subprocess
import sys

ROOT = pathlib.Path(__file__).resolve().parents[2]
WORDS = {
    r"behind": "after (of order), above or below (of places)",
    r"stands? (?:at|in|on|as|for|there|beside)": "is, is in, is defined in, corresponds to",
    r"tells?|told": "reports, says",
    r"so many": "n, this many",
    r"(?<!none )(?<!each )of which (?:there|the|none|each|some|one|it|so|at|as|not|only|most|something|all|this|two|few|a|an|node)": "none of which, whose (English order)",
    r"wanted|want of memory": "requested, out of memory",
    r"comes? to": "results in, reaches",
    r"lets? go|let go": "drops, frees",
    r"hands? on|handed|is handed": "passes, receives",
    r"worked out": "computed",
    r"nobody": "unused, no code",
    r"\bkin\b": "related",
    r"leaps?": "jumps",
}
MOST = 35


def comment_lines(path, text):
    """The comment lines of a file of code, and all lines of a page that are in no block of code."""
    if path.suffix == ".md":
        inside = False
        for number, line in enumerate(text.splitlines(), 1):
            if line.startswith("```"):
                inside = not inside
            elif not inside and not line.startswith("    "):
                yield number, line
        return
    mark = "//" if path.suffix == ".rt" else "--"
    for number, line in enumerate(text.splitlines(), 1):
        if line.lstrip().startswith(mark):
            yield number, line.lstrip().lstrip("/-! ")


def sentences(text):
    """The sentences of a page, without its tables, headings and blocks of code."""
    lines = [line for _, line in comment_lines(pathlib.Path("page.md"), text)]
    prose = "\n".join("" if line.lstrip().startswith(("|", "#", "!")) else line for line in lines)
    for paragraph in re.split(r"\n\s*\n|\n(?=\s*(?:[-*]|\d+\.) )", prose):
        yield from re.split(r"(?<=[.!?:])\s+(?=[A-Z*`(])", " ".join(paragraph.split()))


def main():
    words = sys.argv[1:]
    wanted = words.pop(words.index("--list") + 1) if "--list" in words else None
    paths = [pathlib.Path(it).resolve() for it in words if it != "--list"]
    if not paths:
        listed = subprocess.run(["git", "ls-files", "*.md", "*.rt", "*.antt"], cwd=ROOT, capture_output=True, text=True, check=True).stdout
        paths = [ROOT / it for it in listed.splitlines()]
    found, long = {word: [0, 0] for word in WORDS}, []
    for path in paths:
        text = path.read_text()
        is_code = path.suffix != ".md"
        for number, line in comment_lines(path, text):
            said = re.sub(r"`[^`]*`|[\w/]+\.(?:antt|rt)\b", "``", line)
            for word in WORDS:
                for _ in re.finditer(rf"\b(?:{word})\b", said, re.I):
                    found[word][is_code] += 1
                    if wanted and (wanted == word or wanted in word or re.fullmatch(word, wanted, re.I)):
                        print(f"{path.relative_to(ROOT)}:{number}: {line.strip()}")
        if not is_code:
            long += [(path, it) for it in sentences(text) if len(it.split()) > MOST]
    if wanted == "long":
        for path, it in long:
            print(f"{path.relative_to(ROOT)}: {it}")
    if wanted is None:
        print(f"{'pages':>6} {'code':>6}")
        for word, (pages, code) in found.items():
            plain = "of which" if "of which" in word else re.sub(r"\\b|\(\?:|[()?]", "", word)
            print(f"{pages:6} {code:6}  {plain}: {WORDS[word]}")
        print(f"{sum(it[0] for it in found.values()):6} {sum(it[1] for it in found.values()):6}  in all")
        print(f"{len(long):6}         sentences of more than {MOST} words in pages")


main()
