"""page/lending.js and page/revosti.js where a call cannot be made, or goes wrong."""


from tests.support.page.opened import PageTest

SQUARE = """
    const revosti = await import("revosti/revosti");
    const { call } = await import("revosti/lending");
    const n = 4, table = Uint32Array.of(10, 14, 10, 10, 14, 10), sheet = Uint16Array.of(1, 1, 3, 0, 0, 2, 0, 2, 1, 2, 4, 0, 0, 1, 0, 0);
    const mark = () => { const marks = Uint8Array.of(85, 5); return [revosti.markSheet(n, table, marks, sheet).lines, ...marks]; };
    const thrown = (act) => { try { act(); } catch (error) { return `${error.name}: ${error.message}`; } return "nothing"; };
"""
MARKED = [2, 0x51, 0x04]  # 1-3 and 2-4 are struck
FAULTY = """
    const Real = WebAssembly.Instance;
    let made = 0;
    WebAssembly.Instance = function (module) {
        const { exports } = new Real(module);
        const byteAt = (place, change) => { const bytes = new Uint8Array(exports.memory.buffer); bytes[place] = change(bytes[place]); };
        made += 1;
        return { exports: { ...exports, revosti_fresh_marks: (_, place, length) => { FAULT; return 0n; } } };
    };
    thrown(() => call("revosti_release", 1)); // no BigInt: an error, and so a new module
    const told = thrown(() => revosti.freshMarks(4, new Uint8Array(2)));
    const before = made;
"""
AFTER = "const marked = mark(); WebAssembly.Instance = Real; return [told, made - before, marked];"


class Lending(PageTest):
    def run_it(self, script):
        return self.browser.run(SQUARE + script)

    def test_a_good_call(self):
        self.assertEqual(self.run_it("return mark();"), MARKED)

    def test_a_refused_sheet_keeps_its_strikes(self):
        found = self.run_it("""sheet[13] = 9; const marks = Uint8Array.of(85, 5);
            try { revosti.markSheet(n, table, marks, sheet); }
            catch (error) { return [error instanceof revosti.Refused, error.number, error.record, error.lines, ...marks]; }""")
        self.assertEqual(found, [True, 11, 2, 1, 0x51, 0x05])

    def test_a_part_of_an_array_is_lent(self):
        found = self.run_it("""const room = new Uint8Array(10).fill(7);
            revosti.freshMarks(n, room.subarray(3, 5)); return [...room];""")
        self.assertEqual(found, [7, 7, 7, 85, 5, 7, 7, 7, 7, 7])

    def test_numbers_that_do_not_fit(self):
        for number in ("-1", "2 ** 32", "4.5", "NaN", "'4'", "undefined", "null", "4n"):
            with self.subTest(number):
                self.assertIn("RangeError", self.run_it(f"return thrown(() => revosti.freshMarks({number}, new Uint8Array(2)));"))
        for point in ("-1", "65536", "1.5"):
            with self.subTest(point):
                self.assertIn("RangeError", self.run_it(f"return thrown(() => revosti.exchangeSaving(4, table, 1, 2, 3, {point}));"))
        self.assertEqual(self.run_it("return [-1n, 2n ** 64n].map((slip) => thrown(() => revosti.release(slip)).split(':')[0]);"),
                         ["RangeError", "RangeError"])
        self.assertEqual(self.run_it("return mark();"), MARKED)

    def test_a_function_that_is_not_there(self):
        self.assertEqual(self.run_it("return thrown(() => call('revosti_none'));"), "Error: this module has no revosti_none")
        self.assertEqual(self.run_it("return mark();"), MARKED)

    def test_more_room_than_the_memory_has(self):
        found = self.run_it("""const text = new TextEncoder().encode(`COMMENT : ${"x".repeat(5_000_000)}\\nDIMENSION : 7\\n`);
            try { revosti.tsplibPoints(text); } catch (error) { return [error.number, error.line, mark()]; }""")
        self.assertEqual(found, [19, 3, MARKED])

    def test_a_call_that_has_no_stack_left(self):
        """The browser ends it anywhere, a hundred times; a module that was kept would have used up its own stack."""
        found = self.run_it("""const deep = () => { try { deep(); } finally { mark(); } };
            const found = [...Array(100)].map(() => thrown(deep).split(":")[0]); return [[...new Set(found)], mark()];""")
        self.assertEqual(found, [["RangeError"], MARKED])

    def test_a_call_that_writes_outside(self):
        for place in ("place - 1", "place - 64", "place + 2", "place + 65"):
            with self.subTest(place):
                found = self.run_it(FAULTY.replace("FAULT", f"byteAt({place}, (byte) => byte ^ 1)") + AFTER)
                self.assertEqual(found, ["Error: the module wrote where nothing is lent", 1, MARKED])

    def test_a_trap(self):
        found = self.run_it(FAULTY.replace("FAULT", "throw new WebAssembly.RuntimeError('unreachable')") + AFTER)
        self.assertEqual(found, ["RuntimeError: unreachable", 1, MARKED])
