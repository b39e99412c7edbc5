"""A verdict in words, and as a dictionary for JSON: the same for every command that judges a sheet."""

from revosti import meaning

from .edges import RULES, edge, edge_count
from .fault import detail
from .nest import nest
from .parts import LINE, Beside
from .phrases import say
from .tsplib import kind_of
from .verdict import counted_marks
from .words import are, counted
from .write import record_rows

AROUND = 3  # rows shown before and after the record at fault


def explain(sheet, verdict):
    """Board, strikes, verdict and fault, as text."""
    blocks = [board_block(sheet.parts, verdict), struck_block(sheet.parts, verdict),
              verdict_block(sheet.parts, verdict), fault_block(sheet, verdict)]
    return joined(blocks)


def told(sheet, verdict):
    """Verdict and fault alone, as text."""
    return joined([verdict_block(sheet.parts, verdict), fault_block(sheet, verdict) if verdict.refusal else []])


def joined(blocks):
    """Blocks of lines with a blank line between."""
    return "\n\n".join("\n".join(block) for block in blocks if block)


def board_block(parts, verdict):
    """The size of the board."""
    if verdict.lengths is None:
        return []
    n = verdict.lengths.n
    kind = kind_of(parts.text) if isinstance(parts, Beside) else say("by_rule", rule=parts.rule, name=RULES.get(parts.rule, "unknown"))
    return [say("board", points=counted(n, "point"), edges=counted(edge_count(n), "edge"), kind=kind,
                records=counted(len(parts.records), "record"))]


def struck_block(parts, verdict):
    """One sentence for each edge that the sheet strikes."""
    if verdict.lengths is None:
        return []
    lines = striking_lines(parts)
    return [struck_sentence(a, b, lines.get((a, b))) for a, b in verdict.changed()]


def striking_lines(parts):
    """For each edge, the first line that strikes it."""
    found = {}
    for number, place in nest(parts.records).items():
        record = parts.records[number - 1]
        if place.depth == 0 and record.kind == LINE:
            found.setdefault(edge(record.a, record.b), number)
    return found


def struck_sentence(a, b, number):
    """What one struck line means."""
    source = say("of_record", record=number) if number else ""
    return say("edge_struck", edge=f"{a}-{b}", a=a, b=b, source=source)


def verdict_block(parts, verdict):
    """The verdict, its meaning and what stays."""
    if verdict.refusal == 0:
        return [say("accepted", lines=counted(verdict.lines, "line")), marks_sentence(verdict)]
    lines = [say("refused", number=verdict.refusal, words=meaning(verdict.refusal))]
    more = detail(parts, verdict).words
    lines += [more] if more else []
    if verdict.lengths is None:
        return lines + [say("nothing_marked")]
    return lines + [kept(verdict.lines), marks_sentence(verdict)]


def kept(count):
    """What a refusal leaves of the lines before it, so many of them accepted."""
    if count == 0:
        return say("none_accepted")
    return say("some_accepted", lines=counted(count, "line"), are=are(count))


def marks_sentence(verdict):
    """How many edges of the set that is left have each mark."""
    return counts(verdict.left, verdict.lengths.n)


def counts(marks, n):
    """How many edges of a packed set have each mark."""
    return say("marks", **{name: counted(count, "edge") for name, count in counted_marks(marks, n).items()})


def fault_block(sheet, verdict):
    """The record at fault among its neighbours in the text form."""
    if verdict.refusal == 0:
        return []
    if verdict.record == 0:
        return [say("no_fault")]
    rows = record_rows(sheet.parts.records)
    at = next((i for i, row in enumerate(rows) if row.first <= verdict.record <= row.last), len(rows))
    line = text_line(sheet, verdict)
    source = within(rows[at:at + 1], verdict.record) + (say("text_line", line=line) if line else "")
    start = max(0, at - AROUND)
    return [say("at_fault", record=verdict.record, source=source)] + [
        shown(row, verdict.record) for row in rows[start:at + AROUND + 1]]


def within(rows, record):
    """Where a record stands that has no row of its own: in that of the new order that it is a point of."""
    return "".join(say("point_of_order", i=record - row.first, record=row.first) for row in rows if row.first < record)


def text_line(sheet, verdict):
    """The line of the text that the record at fault stands on, or None."""
    return sheet.lines[verdict.record - 1] if 0 < verdict.record <= len(sheet.lines) else None


def shown(row, record):
    """A row with its number, and a marker at the record at fault."""
    marker = ">" if row.first <= record <= row.last else " "
    return f"{marker} {row.first:>5}  {row.text}"


def as_json(sheet, verdict):
    """The verdict as a dictionary."""
    known = detail(sheet.parts, verdict) if verdict.refusal else None
    found = {"refusal": verdict.refusal, "record": verdict.record, "lines": verdict.lines, "slip": verdict.slip}
    if verdict.refusal:
        found |= {"words": meaning(verdict.refusal), "detail": known.words, "due": known.due, "text_line": text_line(sheet, verdict)}
    if verdict.lengths is not None:
        n = verdict.lengths.n
        found |= {"points": n, "edges": edge_count(n), "changed": verdict.changed(), **counted_marks(verdict.left, n)}
    return found
