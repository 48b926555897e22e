"""The words of the command line."""
from tests.support.running import CALLED, SMALL, Cases, run
from tests.support.stores import TWO


class Words(Cases):
    def test_words_that_are_refused(self):
        for words in (
            [],
            ["play"],
            ["play", "--hex"],
            ["play", "lib.idl", "--hex", "more"],
            ["play", "lib.idl", "--wide"],
            ["check"],
            ["check", "lib.idl", "--hex"],
            ["check", "lib.idl", "more"],
            ["check", "--where"],
            ["play", "lib.idl", "--hex", "--where"],
            ["play", "lib.idl", "--hex", "--shared"],
            ["check", "lib.idl", "--shared"],
            ["serve"],
            ["help"],
        ):
            status, out, err = run(words, files={"lib.idl": SMALL})
            self.tell(
                f"the words {words} are refused",
                (status, out, err.startswith(b"error: "), b"--help" in err) == (2, b"", True, True),
                (status, out, err),
            )
        for words in (
            ["format"],
            ["format", "it.store"],
            ["format", "it.store", "lib.idl", "more"],
            ["format", "it.store", "lib.idl", "--hex"],
            ["format", "it.store", "lib.idl", "--bank"],
            ["format", "--library", "it.store", "lib.idl"],
            ["upgrade"],
            ["upgrade", "it.store", "lib.idl"],
            ["upgrade", "it.store", "--hex"],
            ["dump"],
            ["dump", "it.store", "more"],
            ["dump", "--hex", "it.store"],
            ["dump", "it.store", "--bank", "20971520"],
            ["serve", "it.store", "lib.idl", "--bank", "20971520"],
            ["serve", "--shared", "it.store", "lib.idl", "--hex"],
            ["serve", "--shared", "--group", "0", "it.store", "lib.idl"],
            ["serve", "--shared", "lib.idl"],
            ["dump", "--shared", "it.store"],
        ):
            status, out, err = run(words, files={"lib.idl": SMALL, "it.store": TWO})
            self.tell(
                f"the words {words} are refused",
                (status, out, err.startswith(b"error: "), b"--help" in err) == (2, b"", True, True),
                (status, out, err),
            )

    def test_words_that_are_answered(self):
        for words, said in (
            (["--help"], b"Usage: " + CALLED + b" <COMMAND>"),
            (["--help"], b"\n  oaut play examples/small.idl --hex < examples/first.hex\n"),
            (["play", "--help"], b"Usage: " + CALLED + b" play [OPTIONS] <LIB>"),
            (["play", "--help"], b"\n  oaut play examples/small.idl --hex < examples/first.hex\n"),
            (["play", "--help"], b"\n      --shared  Read the records of many clients in frames"),
            (["serve", "--help"], b"--shared"),
            (["check", "--help"], b"Usage: " + CALLED + b" check [OPTIONS] <LIB>"),
            (
                ["check", "--help"],
                b"\n  oaut check examples/full.idl\n  oaut check --where - < examples/full.idl\n",
            ),
            (["--version"], b"oaut 0.2.0"),
        ):
            status, out, err = run(words)
            self.tell(
                f"the words {words} are answered",
                (status, said in out, err) == (0, True, b""),
                (status, out, err),
            )
        for words, said in (
            (["--help"], b"\n  format"),
            (["--help"], b"\n  dump"),
            (["--help"], b"\n  upgrade"),
            (["format", "--help"], b"Usage: " + CALLED + b" format [OPTIONS] <STORE> <LIB>"),
            (
                ["format", "--help"],
                b"An existing file keeps its length, and its objects are erased",
            ),
            (["format", "--help"], b"--bank <B>"),
            (["upgrade", "--help"], b"Usage: " + CALLED + b" upgrade [OPTIONS] <STORE>"),
            (["upgrade", "--help"], b"There is no conversion back."),
            (["dump", "--help"], b"Usage: " + CALLED + b" dump [OPTIONS] <STORE>"),
            (["dump", "--help"], b"--library"),
        ):
            status, out, err = run(words)
            self.tell(
                f"the words {words} are answered",
                (status, said in out, err) == (0, True, b""),
                (status, out, err),
            )

    def test_standard_output_takes_nothing(self):
        with open("/dev/full", "wb") as full:
            for words in (["--help"], ["--version"], ["play", "--help"], ["check", "--help"]):
                self.case(
                    f"the words {words}, and standard output takes nothing",
                    words,
                    1,
                    None,
                    b"oaut: write fault\n",
                    stdout=full,
                )

    def test_words_that_are_not_utf_8(self):
        for words in (
            [b"check", b"\xff.idl"],
            [b"play", b"lib.idl", b"--hex\xc3"],
            [b"\xed\xa0\x80"],
        ):
            self.case(f"the words {words}", words, 2, b"", b"oaut: command line is not UTF-8\n")
