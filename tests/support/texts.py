"""TSPLIB texts of the square by hand: shapes that are read, and each kind of fault with its line and what is said of it."""

HEAD = ["NAME : square", "COMMENT : four holes", "TYPE : TSP", "DIMENSION : 4"]
NODES = [*HEAD, "EDGE_WEIGHT_TYPE : EUC_2D", "NODE_COORD_SECTION", "1 0 0", "2 10 0", "3 10 10", "4 0 10", "EOF"]
WEIGHTS = [*HEAD, "EDGE_WEIGHT_TYPE : EXPLICIT", "EDGE_WEIGHT_FORMAT : UPPER_ROW", "EDGE_WEIGHT_SECTION", "10 14 10", "10 14", "10", "EOF"]


def text(lines):
    """Lines as bytes, each with its newline."""
    return "".join(line + "\n" for line in lines).encode("latin-1")


def changed(lines, at, *new):
    """The text with other lines in the place of one, counted from 1; with none, it is left out."""
    return text([*lines[:at - 1], *new, *lines[at:]])


def put(lines, at, *new):
    """The text with lines put in before one."""
    return text([*lines[:at - 1], *new, *lines[at - 1:]])


# Texts that say the square, all with the same table.
SQUARES = {
    "nodes": text(NODES),
    "weights": text(WEIGHTS),
    "no NAME, COMMENT and TYPE": text(NODES[3:]),
    "another order": text([NODES[4], NODES[2], NODES[3], NODES[0], *NODES[5:]]),
    "weights, another order": text([WEIGHTS[5], WEIGHTS[4], WEIGHTS[3], *WEIGHTS[6:]]),
    "comments": put(NODES, 4, "COMMENT:", "COMMENT : a : b", "COMMENT : \xff\0\t\r", " COMMENT :DIMENSION : 7"),
    "a name with colons, none, bytes": changed(NODES, 1, "NAME : a:b \xe4\xff\0"),
    "no value": changed(NODES, 1, "NAME:"),
    "blanks": text(f"  {line.replace(' : ', '   :   ').replace(' ', '  ')}  " for line in NODES),
    "no blanks": text(line.replace(" : ", ":") for line in NODES),
    "zeros in front": text([*NODES[:3], "DIMENSION : 0004", *NODES[4:6], "01 0 0", "2 010 00000000000", *NODES[8:]]),
    "weights on one line": text([*WEIGHTS[:7], " 10  14 10 10 14 10 ", "EOF"]),
    "weights one by one": text([*WEIGHTS[:7], "10", "14", "10", "10", "14", "10", "EOF"]),
    "five thousand zeros": changed(NODES, 8, "2 " + "0" * 5000 + "10 0"),
}

NEXT = "NAME :, COMMENT :, TYPE :, DIMENSION :, EDGE_WEIGHT_TYPE : or EDGE_WEIGHT_FORMAT :"
TYPES = "EUC_2D, CEIL_2D, ATT, MAN_2D, MAX_2D or EXPLICIT"
WHOLE, WHOLE_WEIGHTS, WHOLE_NUMBERS = (f"; whole {noun} are asked for, in digits alone, and"
                                       for noun in ("coordinates", "weights", "numbers"))
CARRIAGE = "; lines end in a newline alone, not in a carriage return"
NODE_2 = "expected node 2 of 4, its number and two whole coordinates, found"
WEIGHTS_3 = "expected 3 more weights, found"
DIMENSION = "expected one whole number from 0 to 4294967295 as DIMENSION, found"
END = "found the end of the text"

# A text, the line that is told, and the complaint.
FAULTS = [
    (b"", 1, f"expected {NEXT}, {END}"),
    (b"\n", 1, f"expected {NEXT}, found nothing"),
    (b"NAME", 1, f'expected a newline behind "NAME", {END}'),
    (b"what\n", 1, f'expected {NEXT}, found "what"'),
    (b"name : square\n", 1, f'expected {NEXT}, found "name : square"'),
    (b"NA ME : square\n", 1, f'expected {NEXT}, found "NA ME : square"'),
    (b"DISPLAY_DATA_TYPE : COORD_DISPLAY\n", 1, f'expected {NEXT}, found "DISPLAY_DATA_TYPE : COORD_DISPLAY"'),
    (b": x\n", 1, f'expected {NEXT}, found ": x"'),
    (b"EOF\n", 1, f'expected {NEXT}, found "EOF"'),
    (b"\xef\xbb\xbfNAME : square\n", 1, f'expected {NEXT}, found "\\ufeffNAME : square"'),
    (b"x" * 70 + b"\n", 1, f'expected {NEXT}, found "{"x" * 60}.."'),
    (b"NAME : square\r\nTYPE : TSP\r\n", 2, f'expected TSP as TYPE, found "TSP\\r"{CARRIAGE}'),
    (b"NAME : square\nNAME : square\n", 2, "expected no second NAME"),
    (b"NAME : a:b\nNAME : a : b\n", 2, "expected no second NAME"),
    (text(HEAD), 5, f"expected COMMENT :, EDGE_WEIGHT_TYPE : or EDGE_WEIGHT_FORMAT :, {END}"),
    (changed(NODES, 3, "TYPE : ATSP"), 3, 'expected TSP as TYPE, found "ATSP"'),
    (changed(NODES, 3, "TYPE :"), 3, "expected TSP as TYPE, found nothing"),
    (changed(NODES, 3, "TYPE\t: TSP"), 3, 'expected COMMENT :, TYPE :, DIMENSION :, EDGE_WEIGHT_TYPE : or EDGE_WEIGHT_FORMAT :, '
                                          'found "TYPE\\t: TSP"; blanks are asked for, not tabs'),
    (put(NODES, 4, "TYPE : TSP"), 4, "expected no second TYPE"),
    (changed(NODES, 4, "DIMENSION : 4", "DIMENSION : 4"), 5, "expected no second DIMENSION"),
    (changed(NODES, 4, "DIMENSION : four"), 4, f'{DIMENSION} "four"'),
    (changed(NODES, 4, "DIMENSION : 4 5"), 4, f'{DIMENSION} "4 5"'),
    (changed(NODES, 4, "DIMENSION : -4"), 4, f'{DIMENSION} "-4"{WHOLE_NUMBERS} "-4" is none'),
    (changed(NODES, 4, "DIMENSION : 4294967296"), 4,
     f'{DIMENSION} "4294967296"; numbers are at most 4294967295, and "4294967296" is above'),
    (changed(NODES, 4, "DIMENSION : \xb2"), 4, f'{DIMENSION} "\ufffd"'),
    (changed(NODES, 5, "EDGE_WEIGHT_TYPE : GEO"), 5, f'expected {TYPES} as EDGE_WEIGHT_TYPE, found "GEO"'),
    (changed(NODES, 5, "EDGE_WEIGHT_TYPE : euc_2d"), 5, f'expected {TYPES} as EDGE_WEIGHT_TYPE, found "euc_2d"'),
    (put(NODES, 6, "EDGE_WEIGHT_TYPE : EUC_2D"), 6, "expected no second EDGE_WEIGHT_TYPE"),
    (put(NODES, 6, "EDGE_WEIGHT_FORMAT : UPPER_ROW"), 6, "expected no EDGE_WEIGHT_FORMAT, since EDGE_WEIGHT_TYPE is EUC_2D"),
    (put(NODES, 5, "EDGE_WEIGHT_FORMAT : UPPER_ROW"), 6,
     'expected EXPLICIT as EDGE_WEIGHT_TYPE, since there is EDGE_WEIGHT_FORMAT, found "EUC_2D"'),
    (changed(WEIGHTS, 6, "EDGE_WEIGHT_FORMAT : FULL_MATRIX"), 6, 'expected UPPER_ROW as EDGE_WEIGHT_FORMAT, found "FULL_MATRIX"'),
    (changed(NODES, 4), 5, "expected DIMENSION above NODE_COORD_SECTION"),
    (text(["NODE_COORD_SECTION"]), 1, "expected DIMENSION and EDGE_WEIGHT_TYPE above NODE_COORD_SECTION"),
    (changed(WEIGHTS, 6), 6, "expected EDGE_WEIGHT_FORMAT above EDGE_WEIGHT_SECTION"),
    (changed(WEIGHTS, 7, "NODE_COORD_SECTION"), 7, 'expected EDGE_WEIGHT_SECTION or COMMENT :, found "NODE_COORD_SECTION"'),
    (changed(NODES, 6, "EDGE_WEIGHT_SECTION"), 6, 'expected NODE_COORD_SECTION or COMMENT :, found "EDGE_WEIGHT_SECTION"'),
    (changed(NODES, 6, "NODE_COORD_SECTION :"), 6, 'expected NODE_COORD_SECTION without a colon, found "NODE_COORD_SECTION :"'),
    (changed(NODES, 6, "NODE_COORD_SECTION\r"), 6,
     f'expected NODE_COORD_SECTION or COMMENT :, found "NODE_COORD_SECTION\\r"{CARRIAGE}'),
    (changed(NODES, 8, "2 1.11630e+03 0"), 8, f'{NODE_2} "2 1.11630e+03 0"{WHOLE} "1.11630e+03" is none'),
    (changed(NODES, 8, "2 10.0 0"), 8, f'{NODE_2} "2 10.0 0"{WHOLE} "10.0" is none'),
    (changed(NODES, 8, "2 10 +0"), 8, f'{NODE_2} "2 10 +0"{WHOLE} "+0" is none'),
    (changed(NODES, 8, "2\t10\t0"), 8, f'{NODE_2} "2\\t10\\t0"; blanks are asked for, not tabs'),
    (changed(NODES, 8, "2 10 0\r"), 8, f'{NODE_2} "2 10 0\\r"{CARRIAGE}'),
    (changed(NODES, 8, "2 4294967296 0"), 8,
     f'{NODE_2} "2 4294967296 0"; numbers are at most 4294967295, and "4294967296" is above'),
    (changed(NODES, 8, "3 10 0"), 8, f'{NODE_2} "3 10 0"'),
    (changed(NODES, 8, "2 10"), 8, f'{NODE_2} "2 10"'),
    (changed(NODES, 8, "2 10 0 0"), 8, f'{NODE_2} "2 10 0 0"'),
    (changed(NODES, 8, ""), 8, f"{NODE_2} nothing"),
    (changed(NODES, 8, "   "), 8, f"{NODE_2} a line of blanks"),
    (changed(NODES, 8, "EOF"), 8, f'{NODE_2} "EOF"'),
    (changed(NODES, 8, "COMMENT : here"), 8, f'{NODE_2} "COMMENT : here"'),
    (text(NODES[:7]), 8, f"{NODE_2} the end of the text"),
    (put(NODES, 11, "5 5 5"), 11, 'expected EOF behind the last node, found "5 5 5"'),
    (text(NODES)[:-1], 11, f'expected a newline behind "EOF", {END}'),
    (text(NODES) + b"\n", 12, "expected the end of the text behind EOF, found nothing"),
    (text(NODES) + b" ", 12, "expected the end of the text behind EOF, found a line of blanks"),
    (text(NODES) + b"EOF\n", 12, 'expected the end of the text behind EOF, found "EOF"'),
    (changed(WEIGHTS, 9, "10 14 10 10"), 9, f'{WEIGHTS_3} "10 14 10 10"'),
    (changed(WEIGHTS, 9, "10 1.5"), 9, f'{WEIGHTS_3} "10 1.5"{WHOLE_WEIGHTS} "1.5" is none'),
    (changed(WEIGHTS, 10), 10, 'expected 1 more weight, found "EOF"'),
    (put(WEIGHTS, 11, "10"), 11, 'expected EOF behind the last weight, found "10"'),
    (changed(WEIGHTS, 11, "EOF :"), 11, 'expected EOF behind the last weight, found "EOF :"'),
]
