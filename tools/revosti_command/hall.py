"""A hall: a folder in which eight desks hand in sheets over one board and are served in turns (01, Eight desks).

board.tsp, or board  the board that all share, as it was given
desks                the desks' state
1 to 8               of each desk: `marks` with its fingerprint, `sheet` as it was handed in, `slip` once that has ended
turn                 a turn that is being written

Whoever changes a hall holds a lock on its folder: on the state it would end where that is replaced, before the turn is
done. A turn changes a desk's marks and the state: what both get is written to `turn` first, and whoever finds that file
finishes it. So a kill at any moment leaves the turn whole, or none of it.
"""

import json
from contextlib import contextmanager
from pathlib import Path
from typing import NamedTuple

from revosti import DESKS, Desk, Turn, desk_of, hand_in, last_served, next_desk, open_desks, turn

from .archive import start
from .files import create, folder_held, held, name_of, named, read_file, replace, sync_folder
from .fingerprint import hold
from .lengths import Lengths, sheet_of
from .options import TSPLIB, decode, is_text, is_wide, lengths_of, load_board, text_sheet
from .parts import Beside, Parts, split
from .read import Sheet
from .verdict import Verdict
from .words import Complaint

EVERY = range(1, DESKS + 1)
BOARDS = (f"board{TSPLIB}", "board")


class Hall(NamedTuple):
    """A folder, the board in it, without records, and the board's lengths."""

    folder: Path
    board: Parts | Beside
    lengths: Lengths

    @property
    def state(self):
        """The file of the desks' state."""
        return state_of(self.folder)

    @property
    def unfinished(self):
        """The file of a turn that is being written."""
        return self.folder / "turn"

    def at(self, desk, name):
        """A file of a desk."""
        return self.folder / str(desk) / name


class Taken(NamedTuple):
    """A turn that was taken: what it tells, the sheet that it served, and the verdict so far."""

    turn: Turn
    sheet: Sheet
    verdict: Verdict


def state_of(folder):
    """The file of a hall's state."""
    return Path(folder) / "desks"


def open_hall(folder, file, force=False):
    """Makes a hall for a board: fresh marks at each desk, and a state in which none has a line left. The state is
    removed first and written last: a folder without one is no hall."""
    lengths, data, place = lengths_of(load_board(file).parts, file), read_file(file), Path(folder)
    with named(folder):
        place.mkdir(parents=True, exist_ok=True)
    with folder_held(place):
        clear(place, force)
        with named(folder):
            for desk in EVERY:
                (place / str(desk)).mkdir(exist_ok=True)
        create(place / BOARDS[0 if str(file).endswith(TSPLIB) else 1], data)
        for desk in EVERY:
            start(lengths, place / str(desk) / "marks", force)
        create(state_of(place), bytes(open_desks()))
    return enter(folder)


def clear(place, force):
    """Leaves no file of a hall in a folder but its marks, which are replaced. Without force, none is there."""
    for name in ("desks", "turn", *BOARDS, *(f"{desk}/{name}" for desk in EVERY for name in ("sheet", "slip", "marks"))):
        file = place / name
        if file.exists() and not force:
            raise Complaint(f"{file}: there is such a file already; --force replaces it")
        if file.name != "marks":
            with named(file):
                file.unlink(missing_ok=True)


def enter(folder):
    """The hall in a folder."""
    place = Path(folder)
    if not state_of(place).exists():
        raise Complaint(f'{folder}: no desks are open here; "revosti desks {folder} open BOARD" opens them')
    file = next((place / name for name in BOARDS if (place / name).exists()), place / BOARDS[0])
    board = load_board(file).parts._replace(records=[], tail=b"")
    return Hall(place, board, lengths_of(board, file))


@contextmanager
def changing(hall):
    """The state of a hall, a bytearray, under a lock; a turn that was left unfinished is finished first."""
    with folder_held(hall.folder):
        if hall.unfinished.exists():
            entry = unfinished(hall)
            with held(hall.at(entry["desk"], "marks")):
                finish(hall, entry)
        yield bytearray(read_file(hall.state))


def unfinished(hall):
    """The turn that was left unfinished."""
    try:
        entry = json.loads(read_file(hall.unfinished))
        if entry["desk"] in EVERY and all(bytes.fromhex(entry[name]) or name != "state" for name in ("found", "left", "state")):
            return {"slip": None, **entry}
    except (ValueError, KeyError, TypeError):
        pass
    raise Complaint(f"{hall.unfinished}: expected a turn that was being written; without this file, it was not taken")


def sheet_in(hall, file):
    """The sheet in a file, as bytes and as what they say. A text without a board is of the hall's; any other has to
    have the same lengths. A file that ends inside its board has no records."""
    data = read_file(file)
    if not (is_text(data) or is_wide(data)):
        sheet = Sheet(split(data), [])
    elif first_word(decode(data)) in ("rule", "bytes"):
        sheet = text_sheet(file, data)
    else:
        return data, text_sheet(file, data, hall.board)
    if sheet.parts.n is None or sheet.parts.cut:
        return data, sheet._replace(parts=sheet.parts._replace(records=[]))
    lengths = lengths_of(sheet.parts, file)
    if (lengths.n, list(lengths.table)) != (hall.lengths.n, list(hall.lengths.table)):
        raise Complaint(f"{name_of(file)}: the sheet is of another board than {hall.folder}")
    return data, sheet


def first_word(text):
    """The first word of a text, comments left out."""
    return next((words[0] for line in text.splitlines() for words in [line.partition("#")[0].split()] if words), "")


def hand_in_at(hall, desk, file):
    """Hands in the sheet of a file at a desk. A refusal changes nothing."""
    data, sheet = sheet_in(hall, file)
    with changing(hall) as state:
        hand_in(state, desk, *hall.lengths[:2], marks_at(hall, desk) if desk in EVERY else b"", sheet_of(sheet.parts))
        replace(hall.at(desk, "sheet"), data)
        hall.at(desk, "slip").unlink(missing_ok=True)
        replace(hall.state, bytes(state))


def marks_at(hall, desk):
    """The marks of a desk, whose set has to be of the hall's board."""
    hold(hall.at(desk, "marks"), hall.lengths, changing=True)
    return bytearray(read_file(hall.at(desk, "marks")))


def take_turn(hall):
    """One turn: what it tells, or None where no desk has a line left."""
    with changing(hall) as state:
        desk = next_desk(state)
        if desk is None:
            return None
        sheet = sheet_in(hall, hall.at(desk, "sheet"))[1]
        with held(hall.at(desk, "marks")):
            marks = marks_at(hall, desk)
            found = bytes(marks)
            told = turn(state, *hall.lengths[:2], marks, sheet_of(sheet.parts))
            entry = {"desk": desk, "found": found.hex(), "left": marks.hex(), "state": state.hex(),
                     "slip": None if told.line_left else told.slip}
            replace(hall.unfinished, json.dumps(entry).encode())
            finish(hall, entry)
    return Taken(told, sheet, Verdict(told.refusal, told.record, told.lines, hall.lengths, found, bytes(marks)))


def finish(hall, entry):
    """Gives a desk's marks and the state what a turn left. Marks that were changed since it was taken stay."""
    marks = hall.at(entry["desk"], "marks")
    if read_file(marks) == bytes.fromhex(entry["found"]) and entry["left"] != entry["found"]:
        replace(marks, bytes.fromhex(entry["left"]))
    if entry["slip"] is not None:
        replace(hall.at(entry["desk"], "slip"), f"{entry['slip']}\n".encode())
    replace(hall.state, bytes.fromhex(entry["state"]))
    with named(hall.unfinished):
        hall.unfinished.unlink()
    sync_folder(hall.folder)


def slip_at(hall, desk):
    """The slip of the last sheet of a desk that has ended, or None."""
    file = hall.at(desk, "slip")
    if not file.exists():
        return None
    word = read_file(file).decode("ascii", "replace").strip()
    if not (word.isascii() and word.isdigit()):
        raise Complaint(f'{file}: expected a slip, found "{word}"')
    return int(word)


class Seat(NamedTuple):
    """What a hall shows of a desk: what the state holds of it, its slip, and its marks."""

    desk: int
    held: Desk
    slip: int | None
    marks: bytes


def seats(hall):
    """The desk that is served next, or None, the one served last, and each desk. Nothing is locked, unless a turn was
    left unfinished."""
    if hall.unfinished.exists():
        with changing(hall):
            pass
    state = read_file(hall.state)
    return (next_desk(state), last_served(state),
            [Seat(desk, desk_of(state, desk), slip_at(hall, desk), read_file(hall.at(desk, "marks"))) for desk in EVERY])
