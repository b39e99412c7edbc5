"""Random calls of every function of include/revosti.h, good and spoiled, on boards of many sizes."""

import random
from struct import pack_into

from tests.support import texts
from tests.support.page.boards import boards, nodes_text, weights_text
from tests.support.page.header import BUFFER
from tests.support.page.recording import Recording

WIDE_SHARE, GOOD_SHARE = 0.01, 0.4  # of the calls
POINTS = set("abcpqrsuvwxyz")
TEXTS = [*texts.SQUARES.values(), *(text for text, _, _ in texts.FAULTS), *(nodes_text(n, "ATT", range(2 * n)) for n in (0, 3, 181)),
         weights_text(3, range(3)), nodes_text(4, "MAX_2D", [10**6 + 1] * 8), weights_text(4, [2 * 10**6 + 1] * 6)]
SQUARE_BYTES = 24  # its table, for the texts above
DESKS, DESKS_BYTES, PAGE_BYTES, SENTENCE_BYTES = 8, 50, 1500, 128


class Calls:
    """Makes calls and records them."""

    def __init__(self, seed):
        self.rng = random.Random(seed)
        self.recording = Recording()
        self.small, self.wide = boards(self.recording.native, self.rng)
        self.states = [bytes(DESKS_BYTES)]

    def record(self, count):
        """So many calls of each function, or more."""
        for _ in range(count // 400):
            self.hall()
        for name in self.recording.names:
            for _ in range(count - sum(self.recording.met[name].values())):
                self.recording(name, *self.given(name))
        return self.recording

    def given(self, name):
        """What a call is handed: good arguments, most of the time with one or two spoiled."""
        board = self.rng.choice(self.wide if self.rng.random() < WIDE_SHARE else self.small)
        parameters = self.recording.native.functions[name].parameters
        given = self.good(name, board, parameters)
        while self.rng.random() > GOOD_SHARE:
            place = self.rng.randrange(len(given))
            spoil = self.spoil_buffer if parameters[place].width == BUFFER else self.spoil_number
            given[place] = spoil(given[place], board.n, parameters[place].width)
        return given

    def good(self, name, board, parameters):
        """Arguments that belong together."""
        page, low, high = self.rng.choice(board.pages), *self.rng.choice(board.tables)
        own = self.special(name, board)
        makers = {"page": lambda: page[0], "text": lambda: page[1], "low": lambda: low, "high": lambda: high} | own
        return [makers[one.name]() if one.name in makers else self.usual(one.name, board) for one in parameters]

    def usual(self, parameter, board):
        """What stands for a parameter in most functions."""
        r = self.rng
        match parameter:
            case "n" | "table" | "coordinates":
                return getattr(board, parameter)
            case "rule":
                return r.randint(1, 5)
            case "marks":
                return board.sets[0] if r.random() < 0.8 else r.choice(board.sets)
            case "packed":
                return r.choice(board.asked)
            case "bytes":
                return bytes(r.choices((0, 1, 2), k=board.edges))
            case "sheet":
                return self.sheet(board)
            case "tour":
                return board.tour()
            case "list":
                return r.randbytes(4 * board.edges if r.random() < 0.8 else 6)
            case "slip":
                return r.choice((r.getrandbits(64), r.getrandbits(41), r.randint(0, 30) + 256 * r.randint(0, 9)))
            case "desks":
                return r.choice(self.states)
            case "desk":
                return r.randint(1, DESKS)
            case "record":
                return r.randint(1, 9)
            case _ if parameter in POINTS:
                return r.randint(1, board.n)

    def special(self, name, board):
        """What a function is handed that others are not."""
        r, size = self.rng, 4 * board.edges
        some_set = lambda: r.choice(board.asked + board.sets)
        match name.removeprefix("revosti_"):
            case "measure":
                return {"table": lambda: r.randbytes(size)}
            case "read_tsplib" | "tsplib_points":
                known, room = r.choice(((TEXTS, SQUARE_BYTES), (board.texts, size)))
                return {"text": lambda: r.choice(known), "table": lambda: r.randbytes(room)}
            case "confirm" | "withdraw" | "check_tour" | "list_pairs" | "list_between":
                return {"marks": some_set}
            case "examiner_view" | "candidate_view":
                return {"bytes": lambda: r.randbytes(r.randint(6, 9))}
            case "write_page":
                return {"text": lambda: r.randbytes(r.randint(PAGE_BYTES - 25, PAGE_BYTES + 9)), "marks": some_set}
            case "read_page":
                return {"table": lambda: r.choice((board.table, bytes(size))), "marks": some_set}
            case "tell_line":
                return {"text": lambda: bytes(SENTENCE_BYTES * (board.n - 1) * (board.n - 2) // 2 if board.n < 60 else 99)}
            case _:
                return {}

    def sheet(self, board):
        """A sheet of the board, half of them with a record in the place of another, or with numbers altered."""
        sheet = bytearray(self.rng.choice(board.sheets))
        if self.rng.random() < 0.5:
            return bytes(sheet)
        records = len(sheet) // 16
        if self.rng.random() < 0.2:
            one, other = 16 * self.rng.randrange(records), 16 * self.rng.randrange(records)
            sheet[one:one + 16] = sheet[other:other + 16]
        for _ in range(self.rng.randint(0, 2)):
            number = self.rng.choice((*range(6), board.n, records, self.rng.randint(0, records + 1), self.rng.randint(0, board.n + 1)))
            pack_into("<H", sheet, 2 * self.rng.randrange(8 * records), number)
        return bytes(sheet)

    def spoil_number(self, number, n, width):
        """Another number."""
        r = self.rng
        return r.choice((0, 1, 3, 4, 9, n, n + 1, 181, number + 1, max(number, 1) - 1, r.getrandbits(width), 2**width - 1)) & 2**width - 1

    def spoil_buffer(self, data, n, _):
        """The bytes with a fault in them, or fewer or more of them."""
        r, data = self.rng, bytearray(data)
        match r.randrange(8):
            case 0:
                return bytes(data[:r.randint(0, len(data))])
            case 1:
                return bytes(data[:len(data) - r.choice((1, 2, 4, 16))])
            case 2:
                return bytes(data) + r.randbytes(r.choice((1, 2, 4, 16)))
            case 3:
                return b""
            case 4 if len(data) >= 4:
                number = r.choice((2_000_000, 2_000_001, 1_000_001, r.getrandbits(32), r.randint(0, 9)))
                pack_into("<I", data, 4 * r.randrange(len(data) // 4), number)
            case 5 if len(data) >= 2:
                pack_into("<H", data, 2 * r.randrange(len(data) // 2), r.choice((0, n, n + 1, 65535, r.randint(0, n), r.getrandbits(16))))
            case _ if data:
                data[r.randrange(len(data))] = r.choice((0, 3, 32, 48, 57, 255, r.randrange(256)))
        return bytes(data)

    def hall(self):
        """Desks that are opened, sheets handed in, and turns until no desk has a line left; its states are kept."""
        r = self.rng
        _, (desks,) = self.recording("revosti_open_desks", r.randbytes(r.randint(DESKS_BYTES, DESKS_BYTES + 9)))
        places = {}
        for desk in r.sample(range(1, DESKS + 1), r.randint(1, DESKS)):
            board = r.choice(self.small)
            places[desk] = [board.n, board.table, board.sets[0], self.sheet(board)]
            _, (desks, *_) = self.recording("revosti_hand_in", desks, desk, *places[desk])
        while desk := self.recording("revosti_next_desk", desks)[0] >> 16:
            n, table, marks, sheet = places[desk]
            _, (desks, _, places[desk][2], _) = self.recording("revosti_turn", desks, n, table, marks, sheet)
            if r.random() < 0.3:
                self.states.append(desks)
