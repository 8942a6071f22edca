"""A page with the verdict of each table and a map of who gets its rows. It needs no other file, and no network."""

import datetime
import os
from collections.abc import Iterator, Mapping, Sequence
from html import escape

from pgshard_tools.judging import report, verdicts, writing
from pgshard_tools.judging.database import FOLDER
from pgshard_tools.judging.pictures import Cell, Map
from pgshard_tools.judging.repairing import Repair, lines_of
from pgshard_tools.judging.report import Report
from pgshard_tools.judging.verdicts import Verdict

# Colours that can be distinguished by people who do not see red or green. None is the red of what reaches nobody.
COLOURS = ["#0072b2", "#e69f00", "#009e73", "#cc79a7", "#56b4e9", "#b8a800", "#7a5cc9", "#8c6d5a"]
MARKS = {verdicts.SOUND: "✓", verdicts.NOT_SOUND: "✕", verdicts.REFUSED: "!", verdicts.NOT_DECIDED: "?",
         verdicts.NOT_READ: "?"}
WRITTEN = {verdicts.NOT_SOUND: "NOT SOUND", verdicts.REFUSED: "REFUSED"}


def write(path: str, answer: Report, purposes: Mapping[str, str], repairs: Sequence[Repair]) -> None:
    """Writes the page to a file, either completely or not at all."""
    writing.write(path, Page(answer, purposes, {it.table: it for it in repairs}).text())


class Page:
    """The page of a report."""

    def __init__(self, answer: Report, purposes: Mapping[str, str], repairs: Mapping[str, Repair]) -> None:
        self.answer = answer
        self.purposes = purposes
        self.repairs = repairs
        self.colours = {it.name: COLOURS[place % len(COLOURS)] for place, it in enumerate(answer.subscribers)}

    def text(self) -> str:
        """Returns the whole page."""
        with open(os.path.join(FOLDER, "page.css"), encoding="utf-8") as file:
            style = file.read()
        name = escape(self.answer.database.name)
        return "\n".join([
            "<!DOCTYPE html>", '<html lang="en">', "<head>", '<meta charset="utf-8">',
            '<meta name="viewport" content="width=device-width, initial-scale=1">', '<link rel="icon" href="data:,">',
            f"<title>pgshard judge: {name}</title>", f"<style>\n{style}</style>", "</head>", "<body>",
            *self.head(name), *(line for it in self.answer.verdicts for line in self.section(it)), "</body>", "</html>",
            ""])

    def head(self, name: str) -> Iterator[str]:
        """Yields the head of the page: what is judged, and what the colours mean."""
        now = datetime.datetime.now(datetime.timezone.utc)
        yield f"<header>\n<h1>What {name} publishes</h1>"
        yield f"<p>{escape(report.counts(self.answer, False))}</p>"
        if self.answer.how:
            yield f'<p class="muted">{escape(self.answer.how)}</p>'
        yield f'<p class="muted">judged by pgshard at {now:%Y-%m-%d %H:%M} UTC</p>'
        if self.answer.database.note:
            yield f"<p>{escape(self.answer.database.note)}</p>"
        yield from (f"<p>{escape(it)}</p>" for it in (*self.answer.findings, *self.answer.skipped))
        yield '<ul class="legend" aria-label="legend">'
        yield from (self.legend(it.name) for it in self.answer.subscribers)
        yield '<li class="cell nobody fault"><span class="who">nobody gets these rows</span></li>'
        colours = [*self.colours.values(), *COLOURS]
        yield (f'<li class="cell several fault" style="--c: {colours[0]}; --d: {colours[1]}">'
               '<span class="who">several get these rows</span></li>')
        yield '<li class="cell none"><span class="who">the table has no such row</span></li>'
        yield "</ul>\n</header>"

    def legend(self, name: str) -> str:
        return f'<li class="cell" style="--c: {self.colours[name]}"><span class="who">{escape(name)}</span></li>'

    def section(self, verdict: Verdict) -> Iterator[str]:
        """Yields the section of a table."""
        answer = WRITTEN.get(verdict.answer, verdict.answer)
        name = escape(verdict.table)
        yield f'<section>\n<div class="title"><h2>{name}</h2>'
        yield (f'<span class="badge {verdict.answer.replace(" ", "-")}">{MARKS[verdict.answer]} {escape(answer)}</span>'
               "</div>")
        lines = escape("\n".join(report.lines_of(verdict)))
        yield f"<pre>{lines}</pre>"
        if verdict.map is not None:
            yield "<h3>Who gets which rows</h3>"
            yield from self.map(verdict, verdict.map)
        elif verdict.answer != verdicts.SOUND:
            yield '<p class="muted">Who gets which rows is not known.</p>'
        yield from self.numbers(verdict)
        yield from self.repair(verdict)
        yield "</section>"

    def map(self, verdict: Verdict, found: Map) -> Iterator[str]:
        """Yields a line, a grid or a list."""
        cells = [self.cell(verdict, it) for it in found.cells]
        if len(found.sides) == 2:
            yield from self.grid(found, cells)
            return
        kind = "line" if len(found.sides) == 1 or not found.cells[1:] else "list"
        yield f'<ol class="{kind}">'
        last = kind == "line" and found.sides and found.sides[0].parts[-1].endswith("IS NULL")
        for place, cell in enumerate(cells):
            attributes = cell[0].replace("cell", "cell null", 1) if last and place == len(cells) - 1 else cell[0]
            yield f"<li {attributes}>{cell[1]}</li>"
        yield "</ol>"
        if found.more:
            yield f'<p class="muted">and {found.more:,} more regions</p>'

    def grid(self, found: Map, cells: Sequence[tuple[str, str]]) -> Iterator[str]:
        """Yields an HTML table with the parts of one term on the left, and those of the other at the top."""
        rows, columns = found.sides
        yield '<div class="wide"><table class="grid">'
        heads = "".join(f'<th scope="col">{escape(it)}</th>' for it in columns.parts)
        corner = f'<th scope="col">{escape(rows.term)} \\ {escape(columns.term)}</th>'
        yield f"<thead><tr>{corner}{heads}</tr></thead>\n<tbody>"
        for place, part in enumerate(rows.parts):
            its = cells[place * len(columns.parts):(place + 1) * len(columns.parts)]
            listed = "".join(f"<td><div {attributes}>{inner}</div></td>" for attributes, inner in its)
            yield f'<tr><th scope="row">{escape(part)}</th>{listed}</tr>'
        yield "</tbody></table></div>"

    def cell(self, verdict: Verdict, cell: Cell) -> tuple[str, str]:
        """Returns the attributes of a cell, and its content."""
        takers = [it for it in self.colours if it in cell.takers] if cell.takers is not None else None
        kinds, who = self.kind_of(verdict, takers)
        colours = [self.colours[it] for it in takers or ()] if kinds != ["each"] else []
        style = f"--c: {colours[0]}" + (f"; --d: {colours[1]}" if colours[1:] else "") if colours else ""
        counted = verdict.counts.where.get(cell.condition) if verdict.counts is not None else None
        count = f'<span class="count">{report.rows_text(counted)}</span>' if counted is not None else ""
        attributes = f'class="{" ".join(["cell", *kinds])}"' + (f' style="{style}"' if style else "")
        where = f'<span class="where">{escape(cell.condition)}</span>'
        return attributes, f'{where}<span class="who">{escape(who)}</span>{count}'

    def kind_of(self, verdict: Verdict, takers: Sequence[str] | None) -> tuple[list[str], str]:
        """Returns what a cell shows, and who gets its rows, in words."""
        if takers is None:
            return ["none"], "no such row"
        purpose = self.purposes.get(verdict.table)
        if not takers:
            is_meant = purpose == "partial"
            return ["nobody", "meant" if is_meant else "fault"], "nobody, on purpose" if is_meant else "nobody"
        words = " and ".join(takers)
        lacking = [it.name for it in self.answer.subscribers if it.name not in takers]
        if purpose == "copied" and not lacking:
            return ["each"], "each subscriber"
        if purpose == "copied":
            return [*(["several"] if len(takers) > 1 else []), "fault"], f"{words}, not {' and '.join(lacking)}"
        return (["several", "fault"] if len(takers) > 1 else []), words

    def numbers(self, verdict: Verdict) -> Iterator[str]:
        """Yields how many rows there are."""
        counts = verdict.counts
        if counts is None or counts.why_none is not None:
            return
        listed = [("rows", counts.rows), *((f"to {name}", count) for name, count in counts.each.items()),
                  ("to nobody", counts.nobody), ("to several", counts.several)]
        yield "<h3>How many rows</h3>"
        parts = "".join(f"<li>{escape(name)}: <b>{count:,}</b></li>" for name, count in listed)
        yield f'<ul class="numbers">{parts}</ul>'

    def repair(self, verdict: Verdict) -> Iterator[str]:
        """Yields the statements of the repair, if requested."""
        repair = self.repairs.get(verdict.table)
        if repair is not None:
            yield f'<h3>Repair</h3>\n<pre>{escape(chr(10).join(lines_of(repair)))}</pre>'
        elif verdict.answer == verdicts.NOT_SOUND:
            yield (f'<p class="muted">With <code>--repair {escape(verdict.table)}</code> this page has statements that '
                   "mend it.</p>")
