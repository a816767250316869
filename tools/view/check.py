#!/usr/bin/env python3
"""Checks that the numbers of the pages that view.py writes are those of the modes' own lines: check.py [--program LIGHTNING] [TEXT [ARG]..].

Without TEXT it takes each text of examples/ with its words (examples.tsv), and the one that is refused. It reads the page as a browser does, runs the modes itself, and compares the totals, the heads of
the columns, the hottest lines, the output, each line's steps, shares and instructions, and each row of code with its address, bytes, text and node. It prints a line for each
text, and one for each difference; the status is 0 where there is none. Not part of the gate.
"""
import argparse
import collections
import html.parser
import pathlib
import re
import subprocess
import sys
import tempfile

HERE = pathlib.Path(__file__).resolve().parent
TREE = HERE.parents[1]
TARGETS = ("x86_64", "aarch64", "riscv64")
VOID = ("meta", "input", "br", "link")


class Element:
    """An element of a page: its tag, attributes, children (elements and texts)."""

    def __init__(self, tag, attributes):
        self.tag, self.attributes, self.children = tag, dict(attributes), []

    def all(self, tag=None, kind=None):
        """Returns the elements within this one with a tag and a class, in order."""
        for it in self.children:
            if isinstance(it, Element):
                if tag in (None, it.tag) and (kind is None or kind in it.attributes.get("class", "").split()):
                    yield it
                yield from it.all(tag, kind)

    def one(self, tag=None, kind=None):
        return next(self.all(tag, kind), Element("", ()))

    def text(self):
        return "".join(it if isinstance(it, str) else it.text() for it in self.children)


class Reader(html.parser.HTMLParser):
    """Reads a page into elements, and notes each tag that is not closed in its place."""

    def __init__(self, page):
        super().__init__()
        self.open, self.wrong = [Element("page", ())], []
        self.feed(page)
        self.wrong += [f"{it.tag} is not closed" for it in self.open[1:]]

    def handle_starttag(self, tag, attributes):
        it = Element(tag, attributes)
        self.open[-1].children.append(it)
        if tag not in VOID:
            self.open.append(it)

    def handle_endtag(self, tag):
        if self.open[-1].tag != tag:
            self.wrong.append(f"{tag} is closed in {self.open[-1].tag}")
        else:
            self.open.pop()

    def handle_data(self, data):
        self.open[-1].children.append(data)


class Told:
    """What the modes say of a text on a target: statistics, the profile, and the rows of the listing by line."""

    def __init__(self, call, target):
        profiled, listed = call("profile", target), call("list", target)
        said = profiled.stderr.decode(errors="replace")
        self.out, self.status = profiled.stdout, profiled.returncode
        self.bytes, self.nodes, self.spills, self.run = map(int, re.search(r"^bytes (\d+) nodes (\d+) spills (\d+) steps (\d+)$", said, re.M).groups())
        rows = [tuple(map(int, it)) for it in re.findall(r"^line (\d+) steps (\d+) instructions (\d+)$", said, re.M)]
        self.steps, self.spent = {it[0]: it[1] for it in rows}, {it[0]: it[2] for it in rows}
        stopped = re.search(r"^lightning: (fault .*|steps out .*)$", said, re.M)
        self.ended = stopped[1] if stopped else str(self.status)
        self.rows, line = collections.defaultdict(list), 0
        for it in listed.stdout.decode(errors="replace").splitlines()[1:]:
            if found := re.fullmatch(r"; (\d+) (\S+)", it):
                line = int(found[1])
                self.rows[line].append(("node", found[2]))
            elif found := re.fullmatch(r"([0-9a-f]{8})  ([0-9a-f]+)  (.*)", it):
                self.rows[line].append((int(found[1], 16), found[2], found[3]))

    def instructions(self):
        return sum(it[0] != "node" for rows in self.rows.values() for it in rows)


def number(text):
    return int(text.replace(",", "") or 0)


def percent(part, whole):
    return f"{100 * part / whole:.1f}%" if part and whole else ""


def code_of(row):
    """Returns address, bytes and text of a row of code as the page shows it, with addresses in the place of links."""
    link, rest = row.one("a"), "".join(it for it in row.children if isinstance(it, str))
    at = f"0x{link.attributes['href'].rpartition('-')[2]}" if link.tag else ""
    name = row.one("span", "m").text()
    return int(row.one("span", "a").text(), 16) + 0x10000000, row.one("span", "b").text(), f"{name} {(rest.strip() + ' ' + at).strip()}".strip()


def rows_of(cell):
    """Returns the rows of a cell of code: nodes, and instructions."""
    rows = [it for it in cell.all("div", "i") if "sum" not in it.attributes["class"].split()]
    return [("node", it.text()) if "node" in it.attributes["class"].split() else code_of(it) for it in rows if not it.one("span", "label").tag]


class Check:
    """The comparison of a page with what the modes say."""

    def __init__(self, page, told, meaning):
        self.page, self.told, self.meaning, self.wrong, self.compared = page, told, meaning, [], 0
        self.steps = collections.Counter()
        for it in told.values():
            self.steps |= collections.Counter(it.steps)
        self.whole = sum(self.steps.values())

    def same(self, what, shown, wanted):
        self.compared += 1
        if shown != wanted:
            self.wrong.append(f"{what}: the page has {shown!r}, and the modes say {wanted!r}")

    def totals(self):
        rows = [[it.text() for it in row.children] for row in self.page.one("table").all("tr")][1:]
        for target, row in zip(TARGETS, rows):
            it = self.told[target]
            wanted = [it.nodes, it.bytes, f"{it.bytes / it.nodes:.1f}", it.instructions(), it.spills, it.run, f"{it.run / max(self.whole, 1):.2f}", it.ended]
            self.same(f"totals of {target}", [part.replace(",", "") for part in row[1:]], [str(part) for part in wanted])
            head = self.page.one("div", f"k-{target}").one("span").text()
            self.same(f"head of {target}", head, f"{it.bytes:,} bytes, {it.spills:,} spills, {it.run:,} run, {it.run / max(self.whole, 1):.2f} a step")
        self.same("head of the text", self.page.one("div", "head").one("span").text(), f"{self.whole:,} steps of the meaning")

    def hottest(self):
        tables = list(self.page.all("table"))[1:]
        shown = [[it.text() for it in row.children if it.tag != "code"] for table in tables for row in table.all("tr")][1:]
        wanted = sorted((line for line in self.steps if self.steps[line]), key=lambda line: (-self.steps[line], line))[:5]
        self.same("hottest lines", [int(row[0]) for row in shown], wanted)
        for row, line in zip(shown, wanted):
            shares = [percent(it.spent.get(line, 0), sum(it.spent.values())) for it in self.told.values()]
            self.same(f"shares of line {line}", row[2:], [percent(self.steps[line], self.whole), *shares])

    def output(self):
        self.same("status", self.page.one("summary").text().split(",")[1].split()[1], str(self.meaning.returncode))
        self.same("output", self.page.one("pre").text(), self.meaning.stdout[:20_000].decode(errors="replace") or " ")
        same = all((it.out, it.status) == (self.meaning.stdout, self.meaning.returncode) for it in self.told.values())
        self.same("whether it is the same", self.page.one("p").text().startswith("The same"), same)

    def texts(self):
        cells = [it for it in self.page.all("div", "t") if "data-l" in it.attributes]
        self.same("lines", [int(it.one("a", "l").text()) for it in cells], list(range(1, len(cells) + 1)))
        self.same("lines with steps", {line for line in self.steps if self.steps[line]} <= set(range(1, len(cells) + 1)), True)
        for line, it in enumerate(cells, start=1):
            self.same(f"steps of line {line}", number(it.one("b", "c").text()), self.steps.get(line, 0))
            self.same(f"share of line {line}", it.one("span", "p").text(), percent(self.steps.get(line, 0), self.whole))

    def codes(self, target):
        told, whole, seen = self.told[target], sum(self.told[target].spent.values()), set()
        for it in self.page.all("div", f"k-{target}"):
            if "head" in it.attributes["class"].split():
                continue
            line, shown = int(it.attributes["data-l"]), rows_of(it)
            rows, spent = told.rows.get(line, []), told.spent.get(line, 0)
            seen.add(line)
            # (a line with one instruction has no row for it)
            has_nodes = any(row[0] == "node" for row in shown)
            self.same(f"code of line {line} on {target}", shown, rows if has_nodes or len([row for row in rows if row[0] == "node"]) > 1 else [row for row in rows if row[0] != "node"])
            self.same(f"instructions of line {line} on {target}", number(it.one("b", "c").text()), spent)
            if spent:
                steps = self.steps.get(line, 0)
                title = f"{spent:,} of {whole:,} instructions, {percent(spent, whole)}" + (f"; {spent / steps:.2f} a step" if steps else "")
                self.same(f"title of line {line} on {target}", it.one("b", "c").attributes.get("title"), title)
            for folded in it.all("div", "sum"):
                nodes = sum(row[0] == "node" for row in rows)
                self.same(f"sum of line {line} on {target}", folded.text(), f"{nodes} nodes, {len(rows) - nodes} instructions")
        wanted = {line for line, rows in told.rows.items() if any(row[0] != "node" for row in rows)} | {line for line, spent in told.spent.items() if spent}
        self.same(f"lines with code on {target}", wanted - seen, set())

    def links(self):
        names = {it.attributes["id"] for it in self.page.all() if "id" in it.attributes}
        self.same("lost links", {it.attributes["href"] for it in self.page.all("a") if it.attributes["href"][1:] not in names}, set())


def check(program, text, words, room):
    """Checks the page of a text, and prints what differs. Returns whether nothing does."""
    out = pathlib.Path(room) / "page.html"
    view = [sys.executable, str(HERE / "view.py"), "-o", str(out), "--program", program, str(text), *words]
    subprocess.run(view, check=True, stdout=subprocess.DEVNULL)
    reader = Reader(out.read_text())

    def call(mode, target):
        options = ["--mode", mode, "--stats", "--target", target, "--steps", "20000000", "--", str(text), *words]
        return subprocess.run([program, *options], stdin=subprocess.DEVNULL, capture_output=True)

    meaning = call("explain", "x86_64")
    refused = re.search(rb"^lightning: .*:(\d+): refused (\d+) (\w+)$", meaning.stderr, re.M)
    it = Check(reader.open[0], {} if refused else {target: Told(call, target) for target in TARGETS}, meaning)
    it.wrong += reader.wrong
    it.links()
    if refused:
        line, kind, name = (part.decode() for part in refused.groups())
        at = f"line {line}: " if line != "0" else ""
        it.same("refusal", it.page.one("p", "fault").text().startswith(f"{at}refused: {kind} {name}"), True)
        said = [row.split(": ", 1)[1] for row in meaning.stderr.decode(errors="replace").splitlines() if row.startswith(f"{text}:{line}: ")][1:]
        it.same("sentences", [row for row in said if row not in it.page.one("p", "fault").text()], [])
    else:
        for part in (it.totals, it.hottest, it.output, it.texts, *(lambda target=target: it.codes(target) for target in TARGETS)):
            part()
    print(f"{pathlib.Path(text).name}: {it.compared} compared, {len(it.wrong)} different", *it.wrong[:20], sep="\n    ")
    return not it.wrong


def main():
    parser = argparse.ArgumentParser(usage="check.py [--program LIGHTNING] [TEXT [ARG]..]")
    parser.add_argument("--program", default=str(TREE / "try"))
    parser.add_argument("text", nargs="?")
    parser.add_argument("words", nargs=argparse.REMAINDER)
    asked = parser.parse_args()
    rows = [line.split("\t") for line in (TREE / "examples/examples.tsv").read_text().splitlines()]
    cases = [(asked.text, asked.words)] if asked.text else [(TREE / f"examples/{name}.tst", words) for name, *words in [*rows, ["misspelt"]]]
    with tempfile.TemporaryDirectory() as room:
        sys.exit(0 if all([check(asked.program, text, words, room) for text, words in cases]) else 1)


if __name__ == "__main__":
    main()
