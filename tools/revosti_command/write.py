"""Pieces of a sheet to text (unpack)."""

from typing import NamedTuple

from .edges import RULES, path_name
from .nest import holds_chain, links, nest
from .parts import CROSSING, LINE, STRETCH, STRETCH_POINT, ZERO_IN, Record

STEP = "  "
BYTES_A_LINE = 16


class Row(NamedTuple):
    """A line of text and the numbers of the first and the last of its records, 0 if it has none."""

    text: str
    first: int = 0
    last: int = 0


def unpack(parts, numbers=False):
    """The text form. With `numbers`, each record's number is a comment."""
    rows = rows_of(parts)
    if numbers:
        return "".join(numbered(row) + "\n" for row in rows)
    return "".join(row.text + "\n" for row in rows)


def unpack_beside(parts):
    """The text form without the board."""
    return "".join(row.text + "\n" for row in record_rows(parts.records) + bytes_rows(parts.tail, ""))


def numbered(row):
    """A row's text, with its record numbers as a comment."""
    numbers = f"{row.first}" if row.first == row.last else f"{row.first} to {row.last}"
    return f"{row.text:<48}  # {numbers}" if row.first else row.text


def rows_of(parts):
    """All rows of the text form."""
    if parts.rule is None:
        return bytes_rows(parts.tail, "") or [Row("bytes")]
    head = [Row(rule_line(parts.rule)), Row(points_line(parts))]
    points = [Row(f"{STEP}{i}  {x} {y}") for i, (x, y) in enumerate(parts.points, 1)]
    indent = STEP if parts.cut else ""
    return head + points + record_rows(parts.records) + bytes_rows(parts.tail, indent)


def rule_line(rule):
    """The line of the rule; the name of one from 1 to 5 is a comment."""
    return f"rule {rule}" + (f"  # {RULES[rule]}" if rule in RULES else "")


def points_line(parts):
    """The line above the points."""
    return f"points {parts.n}" + (", cut" if parts.cut else "")


def bytes_rows(data, indent):
    """Bytes that make no whole number, point or record."""
    pieces = [data[i:i + BYTES_A_LINE] for i in range(0, len(data), BYTES_A_LINE)]
    return [Row(f"{indent}bytes {piece.hex(' ')}") for piece in pieces]


def record_rows(records):
    """One row a record, in the order of their numbers, but the points of a
    new order stand in its row if nothing is odd about them. A record outside
    the nesting is indented like the next one inside it."""
    places = nest(records)
    first, after = links(places)
    orders = plain_orders(records, places)
    within = {number + i for number, points in orders.items() for i in range(1, len(points) + 1)}
    rows, depth = [], 0
    for number in range(len(records), 0, -1):
        if number in within:
            continue
        record, place = records[number - 1], places.get(number)
        depth = place.depth if place else depth
        usual = first.get(number, 0), after.get(number, 0)
        text = record_text(record, place, usual, orders.get(number))
        rows.append(Row(STEP * depth + text, number, number + len(orders.get(number, ()))))
    return rows[::-1]


def plain_orders(records, places):
    """The points of each new order that fits one row: its records follow its
    own, one leads to the next, and the last to none."""
    chains = {number: [] for number, place in places.items() if place.shaped and records[number - 1].kind == STRETCH}
    for number, place in places.items():
        if place.owner in chains:
            chains[place.owner].append(number)
    return {owner: [records[number - 1].a for number in chain] for owner, chain in chains.items() if is_plain(records, owner, chain)}


def is_plain(records, owner, chain):
    """Whether the records of a chain of points are those that `pack` makes of
    a new order on one line."""
    last = owner + len(chain)
    usual = [Record(STRETCH_POINT, records[number - 1].a, 0, 0, 0, 0, 0, number + 1 if number < last else 0)
             for number in range(owner + 1, last + 1)]
    return chain == list(range(owner + 1, last + 1)) and records[owner:last] == usual


def record_text(record, place, usual, points):
    """The text of one record, without its indentation, with the points of its
    order if they stand in its row."""
    if place is None:
        return "unused " + " ".join(map(str, record))
    if not place.shaped:
        return "record " + " ".join(map(str, record))
    return closing_text(record, points) + odd_text(record, usual)


def closing_text(record, points):
    """The strike or pair with its closing, or the point."""
    kind, a, b, u, v, c, d, _ = record
    if kind == LINE:
        return f"strike {a}-{b}, split at {c}"
    if kind == CROSSING:
        return f"pair {a}-{b}: crossing {u}-{v}, centres {c} {d}"
    if kind == STRETCH:
        order = f"from {u} to {v}" if points is None else path_name([u, *points, v])
        return f"pair {a}-{b}: order {order}"
    return f"point {a}" if kind == STRETCH_POINT else f"pair {a}-{b}: split at {c}"


def odd_text(record, usual):
    """What differs from the usual: unused fields from 0, indexes from the nesting."""
    first, after = usual
    odd = [(word, getattr(record, word)) for word in ZERO_IN[record.kind] if getattr(record, word)]
    odd += [("first", record.d)] if holds_chain(record) and record.d != first else []
    odd += [("next", record.next)] if record.next != after else []
    return "".join(f", {word} {value}" for word, value in odd)
