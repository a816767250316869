"""The page of a text: what it shows, as HTML."""
import collections
import html
import pathlib
import re

import modes
from modes import Code, Label, Node

HERE = pathlib.Path(__file__).resolve().parent
TARGETS = {"x86_64": "x86-64", "aarch64": "AArch64", "riscv64": "RV64IM"}
# where code begins: addresses are shown from there on
CODE_AT = 0x10000000
# how many lanes of jumps there are beside the code of a target, and how many rows one may pass
LANES = 6
REACH = 60
# a line with more nodes than this is folded at first
MANY = 8
# how many bytes of output are shown
OUTPUT = 20_000

# the tokens of a text, for colours and links
TOKEN = re.compile(
    r"""(?P<comment>//[^\n]*|/\*.*?(?:\*/|\Z)) | (?P<string>"(?:\\.|[^"\\\n])*"|'(?:\\.|[^'\\\n])+') | (?P<directive>(?:(?<=\n)|\A)[ \t]*\#[ \t]*[a-z]*)
      | (?P<register>%\w+) | (?P<name>[$@][A-Za-z_]\w*) | (?P<part>\.[A-Za-z]\w*) | (?P<label>[A-Za-z_]\w*:) | (?P<word>[A-Za-z_]\w*)
      | (?P<number>[-+]?\d\w*) | (?P<other>[ \t]+|.)""",
    re.S | re.X,
)
WORD = re.compile(r"[A-Za-z_]\w*")
# the part that follows the word of a statement that there is not
PART = re.compile(r", in the (?:code|data) part$")
# an operand that a sentence of `explain` names, and the tokens that can be one
OPERAND = re.compile(r"operand (\d+) of (\w+)")
OPERANDS = re.compile(r"\$\([^()]*(?:\([^()]*\)[^()]*)*\)|\"(?:\\.|[^\"\\])*\"|'(?:\\.|[^'\\])+'|[%$@]?[-+]?\w+")


class Text:
    """The text: its lines, the HTML of each, and the lines of its labels."""

    def __init__(self, data):
        source = data.decode(errors="replace").replace("\r\n", "\n")
        self.lines = source.removesuffix("\n").split("\n") if source else []
        tokens = [(found.lastgroup, found[0]) for found in TOKEN.finditer(source)]
        self.labels, line = {}, 1
        for kind, token in tokens:
            if kind == "label":
                self.labels.setdefault(token[:-1], line)
            line += token.count("\n")
        self.shown = "".join(self.spelled(*token) for token in tokens).split("\n")

    def spelled(self, kind, token):
        if kind == "other":
            return html.escape(token)
        if kind == "word":
            line = self.labels.get(token)
            return f'<a href="#L{line}">{token}</a>' if line else token
        return "\n".join(f'<span class="{kind}">{html.escape(part)}</span>' if part else "" for part in token.split("\n"))

    def line(self, number):
        return self.lines[number - 1] if 1 <= number <= len(self.lines) else ""


class Listing:
    """The code of a target: the nodes and the rows of each line of the text, what a run took there, and the lanes of jumps that pass."""

    def __init__(self, target, listed, run, text):
        self.target, self.run = target, run
        self.statistics = modes.statistics_in(run.said)
        self.steps, self.spent = modes.profile_in(run.said)
        self.all_steps, self.all_spent = sum(self.steps.values()), sum(self.spent.values())
        self.most = max(self.spent.values(), default=0)
        self.nodes, self.rows = collections.defaultdict(list), collections.defaultdict(list)
        self.read(*modes.nodes_in(listed), text)
        codes = [row for rows in self.rows.values() for row in rows if isinstance(row, Code)]
        self.instructions, self.digits = len(codes), max((len(it.bytes) for it in codes), default=0)
        self.columns = max((self.length(row) for rows in self.rows.values() for row in rows), default=0)
        self.marks, self.width = collections.defaultdict(list), 0
        self.draw()

    def read(self, nodes, last, text):
        for node in nodes:
            self.nodes[node.line].append(node)
        self.names = {it.at: it.word for node in nodes for it in node.labels} | {it.at: it.word for it in last}
        self.line_of = {code.at: node.line for node in nodes for code in node.code}
        before = 0
        for node in nodes:
            for label in node.labels:
                # (the line where the text has it, if that is between the nodes around it)
                line = text.labels.get(label.word, node.line)
                self.rows[line if before <= line <= node.line else node.line].append(label)
            before = node.line
            self.rows[node.line] += ([] if self.is_plain(node.line, text) else [node]) + node.code
        self.rows[before] += last

    def is_plain(self, line, text):
        """Whether a line has one instruction, which has only become code."""
        return len(self.nodes[line]) == 1 and self.nodes[line][0].name in text.line(line)

    def length(self, row):
        """Returns how many columns a row of code takes without its address and its bytes."""
        if isinstance(row, Label):
            return len(row.word) + 1 - self.digits
        if isinstance(row, Node):
            return len(f"{row.name} {row.operands}") - self.digits - 6
        name, _, rest = row.text.partition(" ")
        to = self.leads_to(row)
        return max(len(name), 7) + 1 + (len(rest) if to is None else len(modes.LEADS.sub("", rest)) + len(self.names.get(to, "0x00000000")) + 2)

    def leads_to(self, code):
        """Returns the address of the code to which an instruction leads, or None."""
        at = modes.leads_to(code)
        return at if at in self.line_of else None

    def draw(self):
        """Gives the jumps ahead and those back to each place a lane, the shortest next to the code; a call and a jump within a node have none."""
        order = [(line, at) for line in sorted(self.rows) for at, row in enumerate(self.rows[line]) if isinstance(row, Code)]
        index = {self.rows[line][at].at: number for number, (line, at) in enumerate(order)}
        jumps = collections.defaultdict(list)
        for number, (line, at) in enumerate(order):
            code = self.rows[line][at]
            to = self.leads_to(code)
            if to is not None and not modes.is_call(code) and (to in self.names or self.line_of[to] != line):
                jumps[index[to], index[to] <= number].append(number)
        taken = [[] for _ in range(LANES)]
        for low, high, to, is_back in sorted(((min(to, *froms), max(to, *froms), to, is_back) for (to, is_back), froms in jumps.items()), key=lambda it: it[1] - it[0]):
            lane = next((it for it, spans in enumerate(taken) if all(high < a or b < low for a, b in spans)), None)
            if lane is not None and high - low <= REACH:
                taken[lane].append((low, high))
                self.width = max(self.width, lane + 1)
                self.mark("back" if is_back else "ahead", lane, order[low], order[high], order[to], [order[it] for it in jumps[to, is_back]])

    def mark(self, kind, lane, low, high, to, froms):
        """Notes at each line that a lane passes from which of its rows to which it goes, and where it turns to the code."""
        for line in range(low[0], high[0] + 1):
            begins = f";--y:{low[1]}\" data-b" if line == low[0] else '"'
            ends = f";--e:{high[1]}{begins} data-e" if line == high[0] else begins
            self.marks[line].append(f'<i class="w {kind}" style="--k:{lane}{ends}></i>')
        self.marks[to[0]].append(f'<i class="u to {kind}" style="--k:{lane};--y:{to[1]}"></i>')
        for line, at in froms:
            self.marks[line].append(f'<i class="u {kind}" style="--k:{lane};--y:{at}"></i>')


def share(part, whole):
    return f"{100 * part / whole:.1f}%" if part and whole else ""


def ratio(part, whole):
    return f"{part / whole:.2f}" if whole else "0.00"


def count(part, most, title):
    """A number with its heat, by its share of the greatest of the column."""
    heat = f' style="--s:{(part / most) ** 0.5:.2f}"' if part and most else ""
    return f'<b class="c"{heat} title="{title}">{part:,}</b>' if part else '<b class="c"></b>'


def marked_in(line, shown, sentences):
    """Returns the HTML of a line with what the sentences blame marked: a word at the end of one, or an operand of an instruction; else the whole line."""
    blamed = [PART.sub("", it.rpartition(": ")[2]) for it in sentences[:1] if ": " in it]
    for number, name in OPERAND.findall(" ".join(sentences)):
        _, found, rest = line.partition(name)
        blamed += [it for it in OPERANDS.findall(rest)[int(number) - 1 : int(number)] if found]
    for word in map(html.escape, blamed):
        marked, times = re.subn(rf"(?<![\w&]){re.escape(word)}(?!\w)(?![^<>]*>)", f"<mark>{word}</mark>", shown, count=1)
        if word and times:
            return marked
    return f"<mark>{shown}</mark>"


def row_of(listing, row):
    """A row of code: a label, a node, or an instruction, whose target is a link."""
    if isinstance(row, Label):
        return f'<div class="i"><span class="a">{row.at - CODE_AT:04x}</span><span class="label">{html.escape(row.word)}:</span></div>'
    if isinstance(row, Node):
        return f'<div class="i node">{html.escape(f"{row.name} {row.operands}".strip())}</div>'
    name, _, rest = row.text.partition(" ")
    to, rest = listing.leads_to(row), html.escape(rest)
    if to is not None:
        shown = html.escape(listing.names.get(to, f"0x{to:08x}"))
        kind, sign = ("call", "↗") if modes.is_call(row) else ("back", "↑") if to <= row.at else ("ahead", "↓")
        title = {"call": "a call", "back": "back", "ahead": "ahead"}[kind]
        rest = modes.LEADS.sub("", rest) + f'<a href="#{listing.target}-{to:08x}" title="{title}, to 0x{to:08x}">{shown}</a> <u class="{kind}">{sign}</u>'
    return (
        f'<div class="i" id="{listing.target}-{row.at:08x}"><span class="a">{row.at - CODE_AT:04x}</span><span class="b">{row.bytes}</span>'
        f'<span class="m">{name}</span>{rest}</div>'
    )


def table(heads, rows):
    """A table of HTML; each head is a word and what it means."""
    line = "".join(f'<th title="{title}">{word}</th>' for word, title in heads)
    return f'<div class="wide"><table><tr>{line}</tr>{"".join("<tr>" + "".join(row) + "</tr>" for row in rows)}</table></div>'


def choices():
    """What can be shown or not: the style sheet goes by these inputs, which come before the code."""
    kinds = [("radio", it, TARGETS.get(it, "all targets"), it == "all") for it in ("all", *TARGETS)]
    kinds += [("checkbox", it, it, True) for it in ("addresses", "bytes", "jumps")]
    named = {"radio": "target", "checkbox": "part"}
    return "".join(
        f'<input type="{kind}" name="{named[kind]}" id="o-{it}"{" checked" if on else ""}><label for="o-{it}">{shown}</label>' for kind, it, shown, on in kinds
    )


class Page:
    """A page of a text, by its listings on the targets, the runs of the profiles, and the run of its meaning."""

    def __init__(self, name, asked, text, listings, runs, meaning, fault):
        self.name, self.asked, self.text, self.listings, self.runs, self.meaning, self.fault = name, asked, text, listings, runs, meaning, fault
        # (where a run ends early on one target, the steps of another go further)
        self.steps = collections.Counter()
        for it in listings:
            self.steps |= collections.Counter(it.steps)
        self.all_steps, self.most = sum(self.steps.values()), max(self.steps.values(), default=0)
        lines = sorted({line for it in listings for line in it.nodes})
        # (neighbours are far from one another on the circle of colours)
        self.hues = {line: f"--h:{round(number * 137.5) % 360}" for number, line in enumerate(lines)}

    def fault_part(self):
        sentences = "".join(f"<br>{html.escape(it)}" for it in self.fault.sentences)
        return f"<b>{html.escape(self.fault.title)}</b>{sentences}"

    def code_cell(self, listing, line, style):
        """The code of a line of the text, or nothing where there is none and no lane passes."""
        rows, marks = listing.rows.get(line, []), "".join(listing.marks.get(line, []))
        if not rows and not marks:
            return ""
        spent, steps = listing.spent.get(line, 0), self.steps.get(line, 0)
        codes = sum(isinstance(row, Code) for row in rows)
        title = f"{spent:,} of {listing.all_spent:,} instructions, {share(spent, listing.all_spent)}" + (f"; {ratio(spent, steps)} a step" if steps else "")
        kind = " e" if not rows else " cold" if listing.all_spent and not spent and codes else ""
        nodes = len(listing.nodes.get(line, []))
        folded = f'<div class="i sum">{nodes} nodes, {codes} instructions</div>' if nodes > MANY else ""
        shown = "".join(row_of(listing, row) for row in rows)
        return f'<div class="g k-{listing.target}{kind}" data-l="{line}" style="{style}">{count(spent, listing.most, title)}{folded}{shown}{marks}</div>'

    def text_cell(self, line, style, is_alone):
        """A line of the text with its steps; with the fault below it, if it is to blame."""
        shown, below = self.text.shown[line - 1] or " ", ""
        if self.fault and self.fault.line == line:
            shown = marked_in(self.text.line(line), shown, self.fault.sentences if self.fault.is_refusal else [])
            below = f'<div class="fault">{self.fault_part()}</div>'
        nodes = max((len(it.nodes.get(line, [])) for it in self.listings), default=0)
        unfold = f'<label class="unfold"><input type="checkbox">{nodes} nodes</label>' if nodes > MANY else ""
        own = self.steps.get(line, 0)
        kind = (" bad" if below else "") + (" all" if is_alone else "")
        return (
            f'<div class="t{kind}" id="L{line}" data-l="{line}" style="{style}"><a class="l" href="#L{line}">{line}</a>'
            f'{count(own, self.most, f"{own:,} of {self.all_steps:,} steps")}<span class="p">{share(own, self.all_steps)}</span><code>{shown}{unfold}</code>{below}</div>'
        )

    def line_part(self, line):
        """A line of the text, and beside it its code on the targets."""
        style = self.hues.get(line, "")
        beside = [cell for cell in (self.code_cell(it, line, style) for it in self.listings) if cell]
        is_many = any(len(it.nodes.get(line, [])) > MANY for it in self.listings)
        return f'<div class="line{" many" if is_many else ""}">{self.text_cell(line, style, not beside)}{"".join(beside)}</div>'

    def main_part(self):
        cells = [f'<div class="head t"><b>{html.escape(self.name)}</b> <span>{self.all_steps:,} steps of the meaning</span></div>'] if self.listings else []
        for it in self.listings:
            some = it.statistics
            told = f"{some.bytes:,} bytes, {some.spills:,} spills, {some.steps:,} run, {ratio(some.steps, self.all_steps)} a step"
            cells.append(f'<div class="head k-{it.target}"><b>{TARGETS[it.target]}</b> <span>{told}</span></div>')
        heads = [f'<div class="line heads">{"".join(cells)}</div>'] if cells else []
        return "\n".join(heads + [self.line_part(line) for line in range(1, len(self.text.lines) + 1)])

    def totals(self):
        heads = [("target", ""), ("nodes", "instructions of the text that are left after the rewrites"), ("bytes", "of code"), ("bytes a node", "")]
        heads += [("instructions", "of the code"), ("spills", "registers saved since no temporary was free"), ("run", "instructions that ran, and steps of the host")]
        heads += [("a step", "instructions that ran for each step of the meaning"), ("ended", "with this status, or stopped")]
        rows = []
        for it in self.listings:
            some = it.statistics
            numbers = [f"{some.nodes:,}", f"{some.bytes:,}", f"{some.bytes / max(some.nodes, 1):.1f}", f"{it.instructions:,}", f"{some.spills:,}", f"{some.steps:,}"]
            numbers += [ratio(some.steps, self.all_steps), html.escape(modes.stopped_in(it.run.said) or str(it.run.status))]
            rows.append([f"<th>{TARGETS[it.target]}</th>", *(f"<td>{number}</td>" for number in numbers)])
        return table(heads, rows)

    def hottest(self):
        """The five lines with the most steps, with their shares."""
        rows = []
        for line in sorted((it for it in self.steps if self.steps[it]), key=lambda it: (-self.steps[it], it))[:5]:
            shares = [share(self.steps[line], self.all_steps), *(share(it.spent.get(line, 0), it.all_spent) for it in self.listings)]
            named = f'<th><a href="#L{line}">{line}</a></th><td class="s"><code>{html.escape(self.text.line(line).strip())}</code></td>'
            rows.append([named, *(f"<td>{it}</td>" for it in shares)])
        heads = [("line", ""), ("hottest lines", ""), ("steps", "of the meaning"), *((TARGETS[it.target], "instructions that ran") for it in self.listings)]
        return table(heads, rows) if rows else ""

    def output(self):
        """What the text wrote by its meaning, and whether that is the same on each target."""
        out, status = self.meaning.out, self.meaning.status
        same = len({(it.status, it.out) for it in (self.meaning, *self.runs.values())}) == 1
        said = "" if self.fault else "The same on each target." if same else "Not the same on each target, or cut off at another place."
        cut = f", the first {OUTPUT:,} of {len(out):,} bytes" if len(out) > OUTPUT else ""
        return f"<details open><summary>output, status {status}{cut}</summary><pre>{html.escape(out[:OUTPUT].decode(errors='replace')) or ' '}</pre><p>{said}</p></details>"

    def header(self):
        broken = ""
        if self.fault:
            line = self.fault.line
            at = f"<b>line {line}:</b> " if line else ""
            link = f' <a href="#L{line}">show</a>' if 1 <= line <= len(self.text.lines) else ""
            broken = f'<p class="fault">{at}{self.fault_part()}{link}</p>'
        parts = self.totals() + self.hottest() + self.output() if self.listings else ""
        return f'<header><h1>{html.escape(" ".join([self.name, *self.asked.words]))}</h1>{broken}<div class="parts">{parts}</div></header>'

    def footer(self):
        words = f"--mode list|profile|explain --stats --target T --steps {self.asked.steps} {self.name} {' '.join(self.asked.words)}"
        unproved = " <b>What ran is not proved.</b>" if modes.UNPROVED in self.meaning.said else ""
        return (
            f"<footer>Made by <code>{html.escape(f'{self.asked.program} {words}'.strip())}</code>.{unproved} Beside a line of the text are the steps of its meaning, and beside"
            " its code the instructions that ran on the processor's model; a step of the host counts for the code before it. A stronger tint is a greater share, and code"
            " that did not run is pale. Addresses are counted from 0x10000000. Labels and targets are links: <u class=ahead>↓</u> ahead, <u class=back>↑</u> back, <u class=call>↗</u> a call.</footer>"
        )

    def html(self):
        sizes = "".join(
            f".k-{it.target}{{--w:{it.width}}}.k-{it.target} .b{{width:{it.digits}ch}}"
            f"main{{--{it.target}:calc(var(--j)*{it.width * 7}px + 14px + var(--a)*5.5ch + var(--b)*{it.digits + 1}ch + {it.columns + 8}ch)}}"
            for it in self.listings
        )
        return f"""<!doctype html>
<html lang="en">
<head><meta charset="utf-8"><meta name="viewport" content="width=device-width, initial-scale=1"><title>{html.escape(self.name)}</title>
<style>
{(HERE / "page.css").read_text()}{sizes}</style></head>
<body{"" if self.listings else ' class="alone"'}>
{self.header()}
{choices() if self.listings else ""}
<main>
{self.main_part()}
</main>
{self.footer()}
<script>
{(HERE / "page.js").read_text()}</script>
</body>
</html>
"""
