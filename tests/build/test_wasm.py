"""tools/build wasm: what is proved for the module, what is linked, and when neither is needed."""


from tests.support.build import Tree


class Wasm(Tree):
    def module(self):
        """What the module has."""
        return (self.root / "target/revosti.wasm").read_text().split()

    def test_what_it_proves_and_links(self):
        status, out, told = self.build("wasm")
        self.assertEqual((status, out), (0, ""))
        self.progress(told, 1, 6, "left", "right", "upper", "more", "revosti", "revosti_c")
        self.assertEqual([call[:2] for call in self.calls()][-2:], [["end", "revosti_c"], ["compile", "revosti_c"]])  # checked once
        self.assertEqual(self.module(), ["__heap_base", "revosti_one"])
        self.assertEqual((self.root / "target/built/verdict").read_text().split("functions=")[0], "a kit for tests\nlogic=proved ")
        self.assertEqual(self.build("wasm"), (0, "", ""))

    def test_beside_the_archive(self):
        self.build("archive")
        self.assertEqual(self.build("wasm"), (0, "", ""))
        self.assertEqual(self.build("archive"), (0, "", ""))

    def test_a_change_of_the_header(self):
        self.build("wasm")
        self.change("include/revosti.h", "int64_t revosti_three(uint32_t n);\n")
        self.assertEqual(self.proved_since("tools/build", "wasm"), [])
        self.assertEqual(self.module(), ["__heap_base", "revosti_three"])

    def test_a_change_of_a_crate(self):
        self.build("wasm")
        self.change("crates/more/src/lib.rt", "3")
        self.assertEqual(self.proved_since("tools/build", "wasm"), ["more", "revosti", "revosti_c"])

    def test_another_kit(self):
        self.build("wasm")
        (self.root / "target/revosti.wasm").unlink()
        (self.kit / "KIT-ID").write_text("another kit\n")
        self.assertCountEqual(self.proved_since("tools/build", "wasm"), ["left", "right", "upper", "more", "revosti", "revosti_c"])
        self.assertIn("another kit", (self.root / "target/built/verdict").read_text())

    def test_the_module_alone_is_made_again(self):
        self.build("wasm")
        self.change("target/revosti.wasm", "spoiled")
        self.assertEqual(self.proved_since("tools/build", "wasm"), [])
        self.assertEqual(self.module(), ["__heap_base", "revosti_one"])

    def test_a_crate_that_is_refused(self):
        self.build("wasm")
        kept = self.module()
        for crate, prover in (("revosti", "rt"), ("revosti_c", "rattle")):
            self.change(f"crates/{crate}/src/lib.rt", "wrong")
            status, _, told = self.build("wasm")
            self.assertEqual(status, 3)
            self.assertRegex(told, rf"{prover} refuses revosti_c: .*target/built/log has its words\n\Z")
            self.assertEqual(self.module(), kept)
            self.change(f"crates/{crate}/src/lib.rt", "2")
            self.assertEqual(self.build("wasm")[0], 0)

    def test_a_prover_that_breaks(self):
        status, _, told = self.build("wasm", BREAKS="revosti_c")
        self.assertEqual(status, 3)
        self.assertIn("rattle fails with status 137, which says nothing of the proofs; what is proved is kept", told)
        self.assertEqual(self.build("wasm")[2], "6 of 6: revosti_c\n")

    def test_without_a_kit(self):
        self.build("wasm")
        nowhere = {"PATH": "/usr/bin:/bin"}
        self.assertEqual(self.build("wasm", **nowhere), (0, "", ""))
