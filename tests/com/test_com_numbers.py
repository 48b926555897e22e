"""Numbers of scripts through the COM bridge: what was got is put back, JScript reads what it has no
type for, a text that is a number goes into one. What is not installed leaves its tests out, each by
its name."""
import unittest

from tests.com.under_wine import TESTS, UnderWine, needs_wine, oaut, text, write
from tests.support.running import PROGRAM


@needs_wine
class Numbers(UnderWine):
    def setUp(self):
        super().setUp()
        more = (
            "      [id(20)] SAFEARRAY(hyper) Bigs;\n      [id(21)] SCODE Code;\n"
            "      [id(22)] hyper Huge;\n    methods:\n"
        )
        library = write(
            f"{self.bridge.room}/bigs.idl",
            text(f"{TESTS}/demo.idl").replace("    methods:\n", more, 1),
        )
        self.bridge.new_store(library)

    def tearDown(self):
        self.bridge.new_store()
        self.bridge.set()

    def test_what_was_got_is_put_back_and_an_element_that_is_refused_is_named(self):
        self.bridge.set()
        self.runs("back.vbs")

    def test_jscript_reads_what_it_has_no_type_for(self):
        self.bridge.set(Script=2)
        script = self.bridge.script("double.js")
        with oaut.serve(self.bridge.store, self.bridge.library, program=PROGRAM) as session:
            session.create("Item").Bigs = [5, 9223372036854775807]
        content = text(f"{self.bridge.room}/double.js").replace(
            'var item = new ActiveXObject("Demo.Item");',
            'var item = new ActiveXObject("Demo.Store").Object(1);',
        )
        write(f"{self.bridge.room}/double.js", content)
        self.each("double.js", self.wine.run(*script)[1])

    def test_a_text_that_is_a_number_goes_into_one(self):
        self.bridge.set(Texts=1)
        self.runs("texts.vbs")

    def test_a_text_is_none_unless_it_is_said(self):
        self.bridge.set()
        output = self.wine.run(*self.bridge.script("texts.vbs"))[1]
        self.tell(
            "it is refused",
            output.splitlines()[-1:] != ["end"] and "ok   a long" not in output,
            output,
        )


if __name__ == "__main__":
    unittest.main()
