"""The board as SVG: holes, open, pending and struck edges; a tour, one case of a sheet, or one reason of a told line, if
that is asked for.

The picture has a fixed width; the second coordinate grows upward. The edges
of one hole form one path, so that its fan does not darken around the hole.
"""

from html import escape
from typing import NamedTuple

from .case import Case
from .edges import edge, path_name
from .labels import fitting, place_labels
from .marks import NAMES, marked
from .parts import CROSSING, STRETCH
from .reason import Sketch
from .words import counted

WIDTH, MARGIN, MIN_HEIGHT = 1200, 50, 240
COLUMNS, ROW, FEW = 3, 34, 3  # of the legend
# Okabe and Ito's colours: they differ for colour-blind readers too.
PAPER, INK, SLATE, ORANGE, GREEN, BLUE, PURPLE, RED, AMBER = (
    "#fcfbf7", "#1a1a1a", "#3f4f5f", "#d55e00", "#009e73", "#0072b2", "#cc79a7", "#c1121f", "#e69f00")


class Scene(NamedTuple):
    """What a picture shows: the points and the name of their rule, the marks, the edges of a tour and its length, a
    case and its record, the marks that are left out, and a reason."""

    points: list
    rule: str
    marks: list
    legs: list = []
    length: int = 0
    case: Case | None = None
    record: int = 0
    without: tuple = ()
    reason: Sketch | None = None


def draw(scene):
    """The SVG of a scene. A pending leg of the tour counts as open; it is drawn as tour with a light core, and pending
    edges lie above that."""
    case, reason = scene.case, scene.reason
    by_name = {name: marked(len(scene.points), scene.marks, mark) for mark, name in NAMES.items()}
    shown = {name: [] if name in scene.without else found for name, found in by_name.items()}
    broken = sorted(set(scene.legs) & set(by_name["struck"]))
    focus = case_rows(scene) if case else reason.rows if reason else []
    rows = [hole_row(scene), *focus, *edge_rows(by_name, scene.without), *tour_rows(scene, broken)]
    view = View(scene.points, len(rows) + (COLUMNS if reason else 0))
    body = [
        edge_group("open", view, shown["open"]),
        edge_group("struck", view, shown["struck"]),
        edge_group("tour", view, [e for e in scene.legs if e not in set(broken)]),
        edge_group("broken", view, broken),
        edge_group("core", view, sorted(set(scene.legs) & set(by_name["pending"]))),
        edge_group("pending", view, shown["pending"]),
        *(case_groups(view, case) if case else []), *(reason_groups(view, reason) if reason else []),
        hole_group(view), *([ring_group(view, case.points)] if case else []), *(spot_groups(view, reason) if reason else []),
        label_group(view, [*scene.legs, *(case.k + legs_of(case.order) if case else []), *(reason.edges if reason else [])]),
        legend_group(view, rows), *([caption(view, reason.sentence)] if reason else []),
    ]
    return page(view, style(view, shown, case_style() if case else reason_style() if reason else []), body)


class View:
    """Where the points lie in the picture, and how large marks are drawn."""

    def __init__(self, points, rows):
        xs, ys = [p[0] for p in points], [p[1] for p in points]
        span = max(max(xs) - min(xs), max(ys) - min(ys), 1)
        scale = (WIDTH - 2 * MARGIN) / span
        wide, high = (max(xs) - min(xs)) * scale, (max(ys) - min(ys)) * scale
        self.board = max(MIN_HEIGHT, round(high + 2 * MARGIN))
        left, base = (WIDTH - wide) / 2, (self.board + high) / 2
        self.spots = [(round(left + (x - min(xs)) * scale), round(base - (y - min(ys)) * scale))
                      for x, y in points]
        self.height = self.board + ROW * -(-rows // COLUMNS) + 28
        crowd = min(1, len(points) / 180)
        self.radius = round(8 - 4 * crowd, 1)
        self.font = round(26 - 12 * crowd)

    def at(self, point):
        """The spot of a point."""
        return self.spots[point - 1]


def page(view, css, body):
    """The whole SVG."""
    return "\n".join([
        f'<svg xmlns="http://www.w3.org/2000/svg" viewBox="0 0 {WIDTH} {view.height}" '
        f'width="{WIDTH}" height="{view.height}">',
        f"<style>{css}</style>",
        f'<rect width="{WIDTH}" height="{view.height}" fill="{PAPER}"/>',
        *body, "</svg>", ""])


def style(view, shown, focus):
    """The look of each class, those of a case or a reason among them. The more edges, the lighter each of them; a struck
    edge has less ink than an open one, and around a case or a reason all of them step back."""
    opened, pending, struck = (len(shown[name]) for name in ("open", "pending", "struck"))
    back = 0.35 if focus else 1
    return "\n".join([
        "",
        "path, .key line { fill: none; stroke-linecap: round; }",
        f".open {{ stroke: {SLATE}; stroke-width: 1.4; opacity: {faint(opened, 0.85 * back, 0.055 * back)}; }}",
        f".struck {{ stroke: {ORANGE}; stroke-width: 1; stroke-dasharray: 4 7; opacity: {faint(struck, 0.75 * back, 0.15 * back)}; }}",
        f".pending {{ stroke: {GREEN}; stroke-width: 3; stroke-dasharray: 1 7; "
        f"opacity: {faint(pending, 1, 0.3)}; }}",
        f".tour {{ stroke: {BLUE}; stroke-width: 5; }}",
        f".broken {{ stroke: {PURPLE}; stroke-width: 5; stroke-dasharray: 10 8; }}",
        f".core {{ stroke: {PAPER}; stroke-width: 3; }}",
        *focus,
        f".hole {{ fill: {INK}; stroke: {PAPER}; stroke-width: 1.2; }}",
        "text { font-family: 'DejaVu Sans', Verdana, Arial, sans-serif; }",
        f".label {{ font-size: {view.font}px; fill: {INK}; text-anchor: middle; "
        f"stroke: {PAPER}; stroke-width: {3 if view.font < 20 else 4}; paint-order: stroke; }}",
        f".key text {{ font-size: 19px; fill: {INK}; }}",
        ".key .open { stroke-width: 2.5; }", ".key .struck { stroke-width: 2; }", ".key .pending { stroke-width: 4; }",
        ".key .open, .key .struck, .key .pending { opacity: 1; }",
        ""])


def case_style():
    """The look of a case: K thick, the edges of standing pairs dashed, darker where no case names the pair, split point,
    centres or ends of a stretch ringed. A new order is thinner than the stretch, so that both show where they agree."""
    return [f".k {{ stroke: {INK}; stroke-width: 7; }}", f".crossed {{ stroke: {BLUE}; stroke-width: 7; }}",
            f".stretch {{ stroke: {BLUE}; stroke-width: 10; }}", f".order {{ stroke: {AMBER}; stroke-width: 4; }}",
            f".named {{ stroke: {PURPLE}; stroke-width: 3.5; stroke-dasharray: 12 7; }}",
            f".due {{ stroke: {RED}; stroke-width: 3.5; stroke-dasharray: 12 7; }}",
            f".ring {{ fill: none; stroke: {RED}; stroke-width: 4; }}"]


def reason_style():
    """The look of a reason: K thick, the pair's edges thinner, what shuts the pair out dashed in a light gap upon them,
    what is put in drawn through; the split point ringed, the point that moves or splits ringed wider."""
    return [f".k {{ stroke: {INK}; stroke-width: 11; }}", f".pair {{ stroke: {BLUE}; stroke-width: 9; }}",
            f".put {{ stroke: {AMBER}; stroke-width: 6; }}", f".gap {{ stroke: {PAPER}; stroke-width: 5; }}",
            f".fault {{ stroke: {RED}; stroke-width: 4; stroke-dasharray: 12 10; }}",
            f".ring {{ fill: none; stroke: {RED}; stroke-width: 4; }}", f".spot {{ fill: none; stroke: {PURPLE}; stroke-width: 4; }}"]


def faint(count, most, least):
    """An opacity that falls as the number of edges grows."""
    return round(max(least, min(most, most * (60 / max(count, 1)) ** 0.5)), 3)


def edge_group(name, view, edges):
    """Edges of one class: one path for each lower point."""
    fans = {}
    for a, b in edges:
        fans.setdefault(a, []).append(segment(view.at(a), view.at(b)))
    paths = [f'<path class="{name}" d="{"".join(fan)}"/>' for fan in fans.values()]
    return "\n".join([f'<g id="{name}">', *paths, "</g>"])


def segment(p, q):
    """A straight piece of a path."""
    return f"M{p[0]} {p[1]}L{q[0]} {q[1]}"


def hole_group(view):
    """A dot for each hole."""
    dots = [f'<circle class="hole" cx="{x}" cy="{y}" r="{view.radius}"/>' for x, y in view.spots]
    return "\n".join(['<g id="holes">', *dots, "</g>"])


def label_group(view, legs):
    """The number of each hole beside it."""
    track = [(view.at(a), view.at(b)) for a, b in legs]
    spots = place_labels(view.spots, view.radius, view.font, (WIDTH, view.board), track)
    texts = [f'<text class="label" x="{x:.0f}" y="{y:.0f}">{i}</text>'
             for i, (x, y) in enumerate(spots, 1)]
    return "\n".join(['<g id="labels">', *texts, "</g>"])


def case_groups(view, case):
    """K, the edge that is crossed, the stretch and its new order, and the edges of the standing pairs at the split
    point."""
    due, pairs = (sorted({edge(case.points[0], x) for pair in some for x in pair} - set(case.k)) for some in (case.due, case.pairs))
    crossed, stretch = [edge(*case.crossed)] if case.crossed else [], legs_of(case.stretch)
    return [edge_group("k", view, [e for e in case.k if e not in crossed + stretch]), edge_group("crossed", view, crossed),
            edge_group("stretch", view, stretch), edge_group("order", view, legs_of(case.order)),
            edge_group("named", view, [e for e in pairs if e not in due]), edge_group("due", view, due)]


def reason_groups(view, reason):
    """K, the pair's edges, what is put in, and upon them what shuts the pair out."""
    layers = {"k": reason.k, "pair": reason.pair, "put": reason.put, "gap": reason.fault, "fault": reason.fault}
    return [edge_group(name, view, edges) for name, edges in layers.items()]


def spot_groups(view, reason):
    """A ring around the split point, and a wider one around the point that is crowded, moved or split at."""
    spots = [] if reason.spot is None else [view.at(reason.spot)]
    wide = [f'<circle class="spot" cx="{x}" cy="{y}" r="{view.radius + 14}"/>' for x, y in spots]
    return [ring_group(view, [reason.split]), "\n".join(['<g id="spots">', *wide, "</g>"])]


def caption(view, sentence):
    """The sentence below the legend."""
    return f'<g id="caption" class="key"><text x="{MARGIN}" y="{view.height - 16}">{escape(sentence)}</text></g>'


def legs_of(path):
    """The edges of a path, if there is one."""
    return [edge(a, b) for a, b in path.legs if a != b] if path else []


def ring_group(view, points):
    """A ring around each of some holes."""
    rings = [f'<circle class="ring" cx="{x}" cy="{y}" r="{view.radius + 7}"/>' for x, y in map(view.at, points)]
    return "\n".join(['<g id="rings">', *rings, "</g>"])


def hole_row(scene):
    """The legend's row for the holes: class of the sample and its words."""
    return "hole", f"{counted(len(scene.points), 'hole')} ({scene.rule})"


def edge_rows(by_name, without):
    """The legend's rows for the edges; pending ones have a row where there are any."""
    names = ["open", *(["pending"] if by_name["pending"] else []), "struck"]
    return [(name, f"{name}: {counted(len(by_name[name]), 'edge')}") for name in names if name not in without]


def case_rows(scene):
    """The legend's rows for a case."""
    case = scene.case
    rows = [("k", f"record {scene.record}: K, {counted(len(case.k), 'edge')}")]
    if case.kind == CROSSING:
        return [*rows, ("crossed", f"crossed: {case.crossed[0]}-{case.crossed[1]}"),
                ("ring", f"centres {case.points[0]} and {case.points[1]}")]
    if case.kind == STRETCH:
        look = "k" if set(case.k) - set(legs_of(case.stretch)) else "stretch"
        return [(look, rows[0][1]), *path_row("stretch", "stretch", case.stretch), *path_row("order", "new order", case.order),
                ("ring", f"from {case.points[0]} to {case.points[1]}")]
    rows += [("ring", f"split at {case.points[0]}")]
    named = [pair for pair in case.pairs if pair not in case.due]
    return rows + [(name, f"{words}: {few(pairs)}") for name, words, pairs in (("named", "with a case", named), ("due", "due", case.due)) if pairs]


def path_row(name, words, path):
    """The legend's row for a path and its length, if there is one, by its points where they fit."""
    if path is None:
        return []
    return [(name, fitting(f"{words} {path_name(path.points)}: {path.length:,}", f"{words}: length {path.length:,}"))]


def few(pairs):
    """Pairs by name where they are few, or their number."""
    return ", ".join(f"{a}-{b}" for a, b in pairs) if len(pairs) <= FEW else counted(len(pairs), "pair")


def tour_rows(scene, broken):
    """The legend's rows for the tour, if there is one."""
    rows = [("tour", f"tour: length {scene.length:,}")] if scene.legs else []
    return rows + ([("broken", f"struck, in the tour: {len(broken):,}")] if broken else [])


def legend_group(view, rows):
    """The legend below the board."""
    top = view.board
    items = [f'<line x1="{MARGIN}" y1="{top}" x2="{WIDTH - MARGIN}" y2="{top}" stroke="#d8d4c8"/>']
    for i, (name, words) in enumerate(rows):
        x, y = MARGIN + 370 * (i % COLUMNS), top + 36 + ROW * (i // COLUMNS)
        items += [sample(name, x, y), f'<text x="{x + 62}" y="{y + 6}">{escape(words)}</text>']
    return "\n".join(['<g id="legend" class="key">', *items, "</g>"])


def sample(name, x, y):
    """A piece of a class, beside its words."""
    if name in ("hole", "ring", "spot"):
        return f'<circle class="{name}" cx="{x + 25}" cy="{y}" r="{6 if name == "hole" else 9}"/>'
    return f'<line class="{name}" x1="{x}" y1="{y}" x2="{x + 50}" y2="{y}"/>'
