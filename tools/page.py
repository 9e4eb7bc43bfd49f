"""The page of a report: one HTML file without anything from outside, in light and in dark."""
import re
from html import escape
from typing import Dict, List, Optional, Tuple

from calls import drawing
from reasons import LONG, accesses_in_words, clauses_in_words, in_words
from written import Loop, Program, Statement, is_title, obstacles, references

STYLE = """
:root { color-scheme: light dark; --text: #1d2330; --soft: #5d6675; --ground: #ffffff; --card: #f5f6f8; --line: #d9dde3;
  --yes: #1f7a4d; --yes-ground: #e3f4ea; --no: #b3441e; --no-ground: #fbeae2; --link: #1f5fae; }
@media (prefers-color-scheme: dark) { :root { --text: #e3e7ee; --soft: #9aa4b4; --ground: #14181f; --card: #1d232c; --line: #333b47;
  --yes: #62c793; --yes-ground: #17301f; --no: #f0936a; --no-ground: #3a2218; --link: #7fb2f0; } }
* { box-sizing: border-box; }
body { margin: 0 auto; padding: 24px; max-width: 1240px; font: 16px/1.5 system-ui, sans-serif; color: var(--text); background: var(--ground); }
h1 { font-size: 26px; margin: 0 0 4px; } h2 { font-size: 22px; margin: 40px 0 8px; border-top: 1px solid var(--line); padding-top: 24px; }
h3 { font-size: 17px; margin: 24px 0 8px; } p { margin: 4px 0 12px; max-width: 80ch; } a { color: var(--link); }
code, .code { font-family: ui-monospace, "DejaVu Sans Mono", Menlo, Consolas, monospace; font-size: 14px; }
.soft { color: var(--soft); }
.numbers { display: flex; flex-wrap: wrap; gap: 12px; margin: 12px 0; }
.numbers div { background: var(--card); border: 1px solid var(--line); border-radius: 8px; padding: 8px 16px; }
.numbers b { display: block; font-size: 22px; line-height: 1.2; }
.figure { overflow-x: auto; background: var(--card); border: 1px solid var(--line); border-radius: 8px; padding: 12px; }
svg.calls { max-width: 100%; height: auto; display: block; }
.calls .call { fill: none; stroke: var(--soft); stroke-width: 1.4; } .calls .head { fill: var(--soft); }
.calls .box { fill: var(--ground); stroke: var(--soft); } .calls a:hover .box { stroke: var(--link); stroke-width: 2; }
.calls text { text-anchor: middle; fill: var(--text); } .calls .name { font: 600 14px ui-monospace, "DejaVu Sans Mono", monospace; }
.calls .about { font: 12px system-ui, sans-serif; fill: var(--soft); }
.source { border: 1px solid var(--line); border-radius: 8px; padding: 8px 0; overflow-x: auto; }
.row, summary { display: flex; align-items: baseline; padding: 0 12px; min-height: 22px; line-height: 22px; }
summary { list-style: none; cursor: pointer; } summary::-webkit-details-marker { display: none; }
summary:hover { background: var(--card); }
.fold { width: 16px; flex: none; color: var(--soft); } summary .fold::before { content: "\\25B8"; } details[open] summary .fold::before { content: "\\25BE"; }
.number { width: 5ch; flex: none; text-align: right; color: var(--soft); margin-right: 10px; text-decoration: none; }
.bars { display: flex; flex: none; align-self: stretch; margin-right: 10px; } .bars i { width: 5px; margin-right: 3px; }
.bars .yes { background: var(--yes); } .bars .no { background: var(--no); } .bars .first { margin-top: 4px; }
.text { white-space: pre; flex: 1 1 auto; } .comment .text { color: var(--soft); }
.loop.yes { background: var(--yes-ground); } .loop.no { background: var(--no-ground); }
.mark { flex: 0 1 auto; overflow-wrap: anywhere; font: 13px/20px system-ui, sans-serif; border-radius: 10px; padding: 0 10px; margin-left: 12px; color: var(--ground); }
.mark.yes { background: var(--yes); } .mark.no { background: var(--no); }
.mark.check { background: var(--soft); }
.mark a { color: inherit; }
.said { margin: 4px 12px 12px 76px; padding: 8px 14px; border-left: 3px solid var(--line); background: var(--card); }
.said table { border-collapse: collapse; } .said td { vertical-align: top; padding: 1px 18px 1px 0; } .said td:first-child { white-space: nowrap; }
.said td:first-child code { white-space: normal; } .said code { overflow-wrap: anywhere; }
dt { font-weight: 600; margin-top: 12px; } dd { margin: 2px 0 0; max-width: 80ch; }
"""

# How a claim begins, in words: of a statement, and of a SUBROUTINE or a FUNCTION.
KINDS = {'READ': 'reads', 'WRITE': 'writes', 'IN': 'reads before it writes', 'OUT': 'writes, and may be read later'}
AMOUNTS = {'EXACT': 'all of these', 'MAY': 'no others'}
REGION = re.compile(r'C> (READ|WRITE|IN|OUT) (\S+) (\{.*\}) (EXACT|MAY)( WEAK)?')
CHECKS = {'SAFE': 'stays inside its array', 'CHECK': 'perhaps outside its array'}
SCALARS = re.compile(r'C> (P|T)(?: ([^{]*))? (\{.*\})( WEAK)?')


def shown(text: str) -> str:
    """A line of a source, a character for each byte, for HTML: as UTF-8 where it is that."""
    return escape(text.encode('latin-1').decode('utf-8', 'replace'))


def named(program: Program) -> str:
    """The name of a file for HTML, which need not be text."""
    return escape(program.name.encode('utf-8', 'replace').decode('utf-8'))


# ---- what is said of a statement

def rows_in_words(kind: str, rows: str) -> str:
    """A system, in the type of code. One without rows says nothing, and one that has no point, that no run comes here."""
    if rows == '{FALSE}':
        return 'no run comes here before a fault'
    if rows == '{}':
        return 'nothing is known' if kind == 'P' else 'without a condition'
    return f'<code>{escape(rows[1:-1])}</code>'


def claim_row(line: str, at_entry: bool) -> Optional[str]:
    """A line of claims as a row of a table. None for another line."""
    region, scalars = REGION.fullmatch(line), SCALARS.fullmatch(line)
    if region:
        kind, name, rows, amount, weak = region.groups()
        what, more = f'{KINDS[kind]} <code>{escape(name)}</code>', AMOUNTS[amount]
    elif scalars:
        kind, names, rows, weak = scalars.groups()
        more = ''
        if kind == 'P':
            what = 'holds at each entry' if at_entry else 'holds each time it begins'
        else:
            what = f'may change <code>{escape(names or "")}</code>' if names else 'changes no analysed scalar'
    else:
        return None
    more = ', '.join(filter(None, [more, weak and 'rows were dropped']))
    return f'<tr><td>{what}</td><td class="rows">{rows_in_words(kind, rows)}</td><td class="soft">{more}</td></tr>'


def check_rows(statement: Statement) -> List[str]:
    """The lines on references as rows of a table."""
    lists = {word: statement.references(word) for word in CHECKS}
    return [f'<tr><td>{CHECKS[word]}</td><td class="rows"><code>{escape(", ".join(found))}</code></td><td></td></tr>' for word, found in lists.items() if found]


def mark_in_words(loop: Loop) -> str:
    """Why a loop is parallel or serial, with a link to what the reason means."""
    if loop.private is not None:
        copies = f', each with its own <code>{escape(loop.private)}</code>' if loop.private else ''
        reduced = f' Copies are combined: {escape(clauses_in_words(loop.reductions))}.' if loop.reductions else ''
        return f'<p>Parallel: its iterations may run in any order{copies}.{reduced}</p>'
    accesses = accesses_in_words(loop.obstacle)
    more = f' ({accesses})' if accesses else ''
    return f'<p>Serial: {escape(in_words(loop.obstacle))}{more}. <a href="#why-{loop.reason}">What {loop.reason} means</a></p>'


def said_of(statements: List[Statement], loop: Optional[Loop]) -> str:
    """All that is said of the statements that begin in a line, or nothing."""
    rows = [claim_row(line, is_title(statement.text)) for statement in statements for line in statement.said]
    table = ''.join([row for row in rows if row] + [row for statement in statements for row in check_rows(statement)])
    return (mark_in_words(loop) if loop else '') + (f'<table>{table}</table>' if table else '')


# ---- the source

def badge(loop: Loop) -> str:
    """The mark of a loop at the end of its line."""
    if loop.private is not None:
        own = [f'own {escape(loop.private)}'] if loop.private else []
        reduced = [f'{escape(word)} of {escape(name)}' for word, name in loop.reductions]
        return f'<span class="mark yes">{", ".join(["parallel", *own, *reduced])}</span>'
    name = loop.obstacle.split()[0]
    of = f' of {escape(name)}' if name != loop.reason else ''
    return f'<span class="mark no">serial: <a href="#why-{loop.reason}">{loop.reason}</a>{of}</span>'


def check_badge(statements: List[Statement]) -> str:
    """The references that may leave their array, at the end of the line of their statement."""
    found = [reference for statement in statements for reference in statement.references('CHECK')]
    return f'<span class="mark check">check {escape(", ".join(found))}</span>' if found else ''


def bars(number: int, loops: List[Loop], depth: int) -> str:
    """A bar for each loop that a line is in, the outermost first."""
    around = {loop.depth: loop for loop in loops if loop.statement.first <= number <= loop.last}
    return '<span class="bars">' + ''.join(bar(number, around.get(level)) for level in range(depth)) + '</span>'


def bar(number: int, loop: Optional[Loop]) -> str:
    """The part of a bar at one line, which begins a little lower at the DO."""
    if loop is None:
        return '<i></i>'
    return f'<i class="{colour_of(loop)}{" first" if loop.statement.first == number else ""}"></i>'


def colour_of(loop: Loop) -> str:
    return 'no' if loop.private is None else 'yes'


class Listing:
    """The source of one program as rows of HTML. Its anchors begin with a word of its own."""

    def __init__(self, program: Program, word: str):
        self.program, self.word = program, word
        self.depth = max((loop.depth + 1 for loop in program.loops), default=0)
        self.loops: Dict[int, Loop] = {loop.statement.first: loop for loop in program.loops}
        self.statements: Dict[int, List[Statement]] = {}
        for module in program.modules:
            for statement in module.statements:
                self.statements.setdefault(statement.first, []).append(statement)

    def anchor(self, number: int) -> str:
        return f'{self.word}-{number}'

    def line(self, number: int, text: str) -> str:
        """What every row has: number, bars, text, and of a DO its mark."""
        loop = self.loops.get(number)
        return (f'<span class="fold"></span><a class="number code" id="{self.anchor(number)}" href="#{self.anchor(number)}">{number}</a>'
                f'{bars(number, self.program.loops, self.depth)}<span class="text code">{shown(text)}</span>{badge(loop) if loop else ""}{check_badge(self.statements.get(number, []))}')

    def row(self, number: int, text: str) -> str:
        """A line, folded where something is said of its statement."""
        loop, here = self.loops.get(number), self.statements.get(number, [])
        said = said_of(here, loop)
        kind = f' loop {colour_of(loop)}' if loop else ''
        if said:
            return f'<details><summary class="row{kind}">{self.line(number, text)}</summary><div class="said">{said}</div></details>'
        return f'<div class="row{"" if here else " comment" if text[:1] in "Cc*!" else ""}">{self.line(number, text)}</div>'

    def html(self) -> str:
        return '<div class="source">' + ''.join(self.row(number, text) for number, text in enumerate(self.program.lines, 1)) + '</div>'


# ---- the page

def numbers(program: Program) -> str:
    """The counts of a program, serial loops by their obstacle."""
    serial = obstacles(program)
    parallel = len(program.loops) - sum(serial.values())
    counts: List[Tuple[int, str]] = [(len(program.modules), 'modules'), (len(program.loops), 'loops'), (parallel, 'parallel'), (sum(serial.values()), 'serial')]
    counts += [(number, f'<a href="#why-{reason}">{reason}</a>') for reason, number in serial.items()]
    counts += [(number, f'references {what}') for number, what in ((references(program, 'SAFE'), 'safe'), (references(program, 'CHECK'), 'to check')) if number]
    return '<div class="numbers">' + ''.join(f'<div><b>{number}</b>{what}</div>' for number, what in counts) + '</div>'


def section(program: Program, word: str) -> str:
    """All that the page has of one program."""
    listing = Listing(program, word)
    anchors = {module.name: listing.anchor(module.statements[0].first) for module in program.modules}
    return (f'<h2>{named(program)}</h2>{numbers(program)}'
            f'<h3>Calls</h3><div class="figure">{drawing(program.modules, anchors, word)}</div>'
            f'<h3>Source</h3><p class="soft">Open a statement to see what is known of it. Green and red bars are the parallel and the serial loops that a line is in.</p>'
            f'{listing.html()}')


def explanations() -> str:
    """What each reason for a serial loop means."""
    return '<h2>Why a loop is serial</h2><dl>' + ''.join(f'<dt id="why-{reason}">{reason}</dt><dd>{escape(text)}</dd>' for reason, text in LONG.items()) + '</dl>'


CLAIMS = """<h2>How to read what is said</h2>
<p>A condition is a list of constraints, of which all hold. <code>I'</code> is the value of <code>I</code> at the end of the statement, <code>I</code> the one where it
begins. In a region <code>PHI1</code>, <code>PHI2</code> are the subscripts of an element, of a COMMON block the number of the unit. "All of these" says that each element
that satisfies the constraints is accessed at a normal end; "no others" that no other one is, and perhaps not each. Every claim is about the program as it is written, one
iteration after another, up to the first fault of a run; "may be read later" is about runs without a fault. The analyses are cautious: a serial loop may be parallel in truth.</p>
<p>"Stays inside its array" holds whenever a reference is evaluated, in every run. A reference that is perhaps outside may be inside in truth: the analysis does not see why.</p>
<p>Storage that has several names is told under the one by which it was reached. Temporaries and locals of called modules have no lines, and neither has the statement
inside a logical IF.</p>
"""


def page_of(programs: List[Program]) -> str:
    """The whole page."""
    title = ', '.join(map(named, programs))
    body = ''.join(section(program, f'p{place}') for place, program in enumerate(programs))
    return (f'<!DOCTYPE html>\n<html lang="en"><head><meta charset="utf-8"><meta name="viewport" content="width=device-width"><title>pips: {title}</title>'
            f'<style>{STYLE}</style></head><body><h1>What is known of {"this program" if len(programs) == 1 else "these programs"}</h1>'
            f'<p class="soft">Written by <code>tools/report.py</code> from what <code>pips --show all</code> says.</p>{body}{explanations()}{CLAIMS}</body></html>\n')
