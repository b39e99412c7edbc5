"""revosti convert: a set in its other form."""

from ..archive import bytes_of, checked, keep, packed_of
from ..files import STANDARD, read_file
from ..fingerprint import read_fingerprint
from ..marks import packed_points, read_marks, show
from ..options import add_out, write

NAME, GROUP = "convert", "Sets of marks"
HELP = "a set in another form: packed, a byte an edge, or text"
ABOUT = """Converts a set: a packed set to a byte set or to text, a line an edge; or a byte set, the older form, to a
packed set. Its size tells how many points it is of. With -o the fingerprint goes along; an existing file is left alone
unless --force is given."""
EXAMPLE = """revosti fresh examples/square.tsp --marks square.marks
  revosti convert square.marks --to text"""


def text_of(file, data):
    """A packed set as text."""
    n = checked(file, packed_points, data)
    return show(n, checked(file, read_marks, data, n)).encode()


FORMS = {"packed": packed_of, "bytes": bytes_of, "text": text_of}


def add(command):
    """The options."""
    command.add_argument("file", nargs="?", metavar="FILE", help="the set; standard input if none is named")
    command.add_argument("--to", choices=FORMS, required=True, help="packed: from a byte set; bytes, text: from a packed set")
    command.add_argument("--force", action="store_true", help="replace a file of the name that -o gives")
    add_out(command)


def run(options):
    """Converts the set."""
    data = FORMS[options.to](options.file, read_file(options.file))
    if options.out in STANDARD or options.to == "text":
        write(options, data)
    else:
        keep(options.out, data, None if options.file in STANDARD else read_fingerprint(options.file), options.force)
