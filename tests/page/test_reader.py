"""The page's reader of the text form against the command's: the same records, or the same fault at the same place."""


from tests.support.page.acting import Shared
from tests.support.page.sheet_texts import some

from revosti_command.parts import Beside
from revosti_command.read import pack, pack_beside
from revosti_command.scan import BadText

COUNT = 5000
LEAST = COUNT // 5  # so many good ones, and so many bad ones
SCRIPT = """
const [{ pack, packBeside }, { BadText },
    { numbersOf }] = await Promise.all([import("revosti/read"), import("revosti/scan"), import("revosti/parts")]);
return given[0].map(([text, beside]) => {
    try {
        const { parts, lines } = (beside ? packBeside : pack)(text);
        return [...(beside ? [] : [parts.rule, parts.n, parts.points]), parts.records.map(numbersOf), [...parts.tail], lines];
    } catch (error) {
        if (!(error instanceof BadText)) throw error;
        return { line: error.line, column: error.column, words: error.words };
    }
});
"""


def read(text, beside):
    """What the command reads in a text."""
    try:
        parts, lines = pack_beside(Beside(4, b"", [], b""), text) if beside else pack(text)
    except BadText as error:
        return {"line": error.line, "column": error.column, "words": error.message}
    board = [] if beside else [parts.rule, parts.n, [list(point) for point in parts.points]]
    return [*board, [list(record) for record in parts.records], list(parts.tail), lines]


class Reader(Shared):
    """Texts as random records unpack to, whole or changed."""

    def test_the_page_reads_as_the_command_does(self):
        texts = list(some(COUNT))
        expected = [read(*text) for text in texts]
        found = self.browser.run(SCRIPT, texts)
        wrong = [(text, mine, theirs) for text, mine, theirs in zip(texts, expected, found) if mine != theirs]
        self.assertEqual(wrong[:3], [])
        good = sum(isinstance(one, list) for one in expected)
        self.assertLess(LEAST, good)
        self.assertLess(LEAST, COUNT - good)
