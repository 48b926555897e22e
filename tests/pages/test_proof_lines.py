"""Lines of proofs have at most 160 columns, and what breaks longer ones (tools/proof_lines.py)."""
import os
import shutil
import subprocess
import sys
import tempfile
import unittest

from tests.support.running import ROOT, Cases
from tools import proof_lines

TOOL = f"{ROOT}/tools/proof_lines.py"
NAMES = [f"a_name_that_is_rather_long_{it}" for it in range(8)]
USED = f"use Rattle.std.specs.Prelude.{{{', '.join(NAMES)}}}\n"
SIGNATURE = "f : {A : Type 0} → A → A\n"
SUM = (
    f"f a = let x = {' '.join(NAMES[:3])} in "
    f"{' ∙ '.join(f'({it} x (λ y. y))' for it in NAMES[:6])}\n"
)
RECORD = f"f a = record {{ {'; '.join(f'{it} = a' for it in NAMES)} }}\n"


class Lines(Cases):
    def test_no_line_of_a_proof_is_too_long(self):
        done = subprocess.run([sys.executable, TOOL, "--check"], capture_output=True, text=True)
        self.tell("lines of proofs", done.returncode == 0, done.stdout[-500:] + done.stderr)
        self.tell("files that are looked at", len(proof_lines.proofs()) > 1000)


@unittest.skipUnless(shutil.which("rattle"), "rattle is not there")
class Breaks(Cases):
    def written(self, text):
        """What the tool makes of a file with a text."""
        with tempfile.TemporaryDirectory() as room:
            path = f"{room}/it.antt"
            with open(path, "w", encoding="utf-8") as file:
                file.write(text)
            left = proof_lines.one_written(path)
            self.tell("no line is too long", not left, left)
            with open(path, encoding="utf-8") as file:
                return file.read()

    def test_a_sum_is_broken_before_its_operators(self):
        lines = self.written(SIGNATURE + SUM).splitlines()
        self.tell("more lines", len(lines) > 3, lines)
        self.tell("its operators begin lines", all("∙" in it[:6] for it in lines[3:]), lines)

    def test_a_record_has_a_line_for_each_field(self):
        lines = self.written(SIGNATURE + RECORD).splitlines()
        self.tell("lines", len(lines) == 1 + 2 + len(NAMES), lines)

    def test_a_list_of_names_is_divided(self):
        lines = self.written(USED).splitlines()
        modules = {it.partition(".{")[0] for it in lines}
        self.tell("modules", modules == {USED.partition(".{")[0]}, modules)
        names = ", ".join(it.partition(".{")[2][:-1] for it in lines)
        self.tell("names", names == ", ".join(NAMES), names)

    def test_what_is_short_stays(self):
        text = SIGNATURE + "f a = a\n"
        self.tell("the text", self.written(text) == text)

    def test_tokens_are_compared(self):
        same = proof_lines.tokens(SIGNATURE + SUM)
        self.tell("another name", proof_lines.tokens(SIGNATURE + SUM.replace("_3", "_4")) != same)
        self.tell("another layout", proof_lines.tokens(self.written(SIGNATURE + SUM)) == same)

    def test_a_text_that_an_edit_replaces_is_not_broken(self):
        line = SUM.rstrip("\n")
        text = line[100:200]
        for at in range(9):
            line = proof_lines.broken(line, [text]) or line
            self.tell(f"break {at + 1}", text in line, line)


class Cited(Cases):
    def test_edits_of_proofs_are_found(self):
        with tempfile.TemporaryDirectory() as room:
            os.makedirs(f"{room}/crates/it/must-fail")
            os.makedirs(f"{room}/crates/it/proofs")
            with open(f"{room}/crates/it/must-fail/one.edit", "w") as file:
                file.write("file: proofs/One.antt\nold: f a = a\nnew: f a = b\n")
            root, proof_lines.ROOT = proof_lines.ROOT, room
            try:
                found = [
                    proof_lines.cited(f"{room}/crates/it/proofs/{it}.antt") for it in ("One", "Two")
                ]
            finally:
                proof_lines.ROOT = root
            self.tell("texts", found == [["f a = a"], []], found)
