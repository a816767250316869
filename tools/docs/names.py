#!/usr/bin/env python3
"""Finds names in the pages that the tree does not have: names.py [PAGE..], by default README.md, docs/, examples/ and each crate's README.md and AUDIT.md.

A name is what is between backquotes and is spelled as names are. A path, with a `/` or an ending, has to end the path of a file or folder; of any other name each
part between `::` has to be a word of the sources, the data or the tools. In a table of rules and definitions each name of the second column has to be in the file
that is named before it. In a crate's pages and after a crate's name a path has to be one of that crate. It prints PAGE:LINE: NAME for each that is not found, and
ends with 1 where there is one. Not part of the gate.
"""
import pathlib
import re
import subprocess
import sys

root = pathlib.Path(__file__).resolve().parents[2]
listed = subprocess.run(["git", "ls-files", "-co", "--exclude-standard"], cwd=root, capture_output=True, text=True, check=True).stdout.split("\n")
files = [name for name in listed if name and (root / name).is_file()]
paths = set(files)
for name in files:
    parts = name.split("/")
    for end in range(1, len(parts)):
        paths.add("/".join(parts[:end]))
tails = set()
for name in paths:
    parts = name.split("/")
    for start in range(len(parts)):
        tails.add("/".join(parts[start:]))
        tails.add("/".join(parts[start:]).removesuffix(".antt"))
words = set()
for name in files:
    if name.endswith((".md", ".bin")):
        continue
    try:
        text = (root / name).read_text()
    except UnicodeDecodeError:
        continue
    words.update(re.findall(r"[A-Za-z0-9]+(?:[_'-][A-Za-z0-9]+)*|[A-Za-z0-9_]+", text))
    words.update(re.findall(r"[A-Za-z0-9_]+", text))
words.update(pathlib.Path(name).stem for name in files)

# names of the kit, goals that it makes, words that a text is refused for, and what is in place of a target's letters in docs/EXTENDING.md
known = {"ValuesPass", "HasDefaults", "returns-then-low-le32768", "returns-in-267386992", "va_push", "va_start_l", "lg_T"}


def is_path(name):
    return bool(re.fullmatch(r"[\w.\-/]+", name)) and not name.startswith((".o", ".s", ".t")) and ".." not in name and ("/" in name or re.search(r"\.(rt|antt|md|txt|py|tsv|edit|tst|out|status)$", name))


def is_name(name):
    """Whether it is spelled as names of the tree are: with `_`, `-` or `::` within it, or with capitals; not a word of a text, nor a pattern for many names."""
    if not re.fullmatch(r"[A-Za-z][\w'\-]*(?:(?:::|\.)[A-Za-z][\w'\-]*)*", name) or ".." in name or name.endswith(("_", "-")) or re.search(r"lg_(carry_|sel)?T\b|selT_", name):
        return False
    return "_" in name or "::" in name or bool(re.search(r"[a-z]-[a-z]", name)) or bool(re.search(r"[a-z][A-Z]", name))


def has(name):
    if is_path(name):
        bare = name.removeprefix("./").rstrip("/")
        return not bare.strip("/") or any(mark in bare for mark in ("NAME", "CRATE", "_T", "selT", "FILE", "/m.rt", "/m/f/", "/F", "/out/", "/demo/")) or bare in tails
    if not is_name(name):
        return True
    return all(part in words or part in known or all(it in words for it in re.split(r"[-']", part)) for part in re.split(r"::|\.", name))


def words_of(path):
    text = path.read_text()
    return set(re.findall(r"\w+", text)) | set(re.findall(r"[A-Za-z0-9]+(?:[_'-][A-Za-z0-9]+)*", text))


def file_of(name, crate):
    """The file of a name in a row of rules: `Words`, `lg_base/Words`, `word.rt`, `lg_base/word.rt`."""
    found = re.match(r"(lg_\w+|\w+_program)/(.*)", name)
    crate, rest = found.groups() if found else (crate, name)
    return root / "crates" / crate / ("src/" + rest if rest.endswith(".rt") else f"specs/{rest}.antt")


def lost_of_rule(cell, crate):
    """The files and names of a second column that are not there."""
    for part in cell.split("; "):
        found = re.search(r"((?:[\w/]+(?:\.rt)?, )*[\w/]+(?:\.rt)?): ([^:]*)$", part)
        if not found:
            continue
        paths = [file_of(name.split()[-1], crate) for name in found.group(1).split(", ")]
        yield from (str(path.relative_to(root)) for path in paths if not path.is_file())
        known_here = set().union(*(words_of(path) for path in paths if path.is_file()))
        listed_names = re.sub(r"\([^)]*\)|, and one for each row that stands alone| to (?=row_)", " ", found.group(2))
        yield from (name for name in re.findall(r"\w+", listed_names) if name not in known_here)
        inner = ", ".join(re.findall(r"\(([^)]*)\)", found.group(2))).split(", ")
        yield from (name for name in inner if re.fullmatch(r"\w+", name) and name not in known_here)


def lost_paths(line, crate):
    """The paths of a line that begin with a folder of a crate and are not there."""
    for name in re.findall(r"(?<![\w/.])((?:(?:lg_\w+|\w+_program)/)?(?:specs|src|proofs|must-fail)/[\w+./]+)", line):
        inside = name.startswith(("specs", "src", "proofs", "must-fail"))
        path = root / "crates" / (f"{crate}/{name}" if inside else name).rstrip("./")
        if (crate or not inside) and "NAME" not in name and "selT" not in name and not path.exists() and not list(path.parent.glob(path.name + ".*")):
            yield name


pages = [pathlib.Path(it) for it in sys.argv[1:]] or [root / it for it in files if it == "README.md" or it.startswith(("docs/", "examples/")) and it.endswith(".md") or re.fullmatch(r"crates/\w+/(README|AUDIT|ROWS).md", it)]
lost = 0
for page in pages:
    of_crate = page.parent.name if page.parent.parent.name == "crates" else None
    is_rule = False
    for number, line in enumerate(page.read_text().split("\n"), 1):
        missing = [name for name in re.findall(r"`([^`]+)`", line) if not has(name)] + list(lost_paths(line, of_crate))
        is_rule = line.startswith("| ") and (is_rule or line == "| Rule | Definition |") or is_rule and line.startswith("|--")
        if is_rule and not line.startswith("| Rule |") and line.startswith("| "):
            missing += lost_of_rule(line[2:-2].rsplit(" | ", 1)[1], of_crate or "")
        for name in missing:
            lost += 1
            print(f"{page}:{number}: {name}")
sys.exit(1 if lost else 0)
