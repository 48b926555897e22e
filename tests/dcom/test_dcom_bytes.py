"""oaut-dcom, clients/dcom, within one process: numbers, refusals, tokens, files, and spoiled bytes
(docs/guide/dcom.md)."""
import os
import shutil
import subprocess
import tempfile
import unittest

from tests.dcom.dcoms import DCOM, Scripted, environment, needs, python_with
from tests.support.running import PROGRAM, ROOT, Cases


@needs("Cryptodome")
class Inside(Scripted):
    def test_inside(self):
        self.script("inside", env=environment(), least=60)

    def test_spoiled_bytes(self):
        count, seed = os.environ.get("OAUT_DCOM_INPUTS") or "12000", os.environ.get(
            "OAUT_SEED"
        ) or str(int.from_bytes(os.urandom(4), "little"))
        self.script(
            "fuzz", PROGRAM, f"{ROOT}/examples/full.idl", count, seed, env=environment(), least=3
        )


@needs("Cryptodome")
class Streams(Cases):
    def test_streams_that_are_closed_full_or_no_text(self):
        words = [python_with("Cryptodome"), "-m", "oaut_dcom"]
        for name, tail, said in (
            ("a full output", "hash joe > /dev/full", "standard output: No space left on device"),
            ("a closed output", "hash joe >&-", "standard output: Bad file descriptor"),
            (
                "a closed input",
                "hash joe <&-",
                "the password is read from standard input, which is closed",
            ),
            ("a password that is no text", "hash joe < bytes", "the password is no text"),
        ):
            with tempfile.TemporaryDirectory() as room:
                with open(f"{room}/bytes", "wb") as file:
                    file.write(b"\xff\n")
                shell = ["sh", "-c", f'"$@" {tail}', "sh", *words]
                done = subprocess.run(
                    shell,
                    cwd=room,
                    input=b"Secret-1\n",
                    capture_output=True,
                    env=environment(LC_ALL="C.UTF-8"),
                )
                wanted = (1, b"", f"oaut-dcom: {said}\n")
                self.tell(
                    name, (done.returncode, done.stdout, done.stderr.decode()) == wanted, done
                )


class Sources(Cases):
    def test_style(self):
        """The sources are one style, as far as the tools are there."""
        for words in (("black", "--check", "-q"), ("isort", "--check", "-q"), ("mypy",)):
            if shutil.which(words[0]):
                done = subprocess.run(
                    [*words, "oaut_dcom"],
                    cwd=DCOM,
                    stdout=subprocess.PIPE,
                    stderr=subprocess.STDOUT,
                    text=True,
                )
                self.tell(words[0], done.returncode == 0, done.stdout[-2000:])

    def test_the_page_counts_lines(self):
        import glob
        import re

        lines = {
            os.path.basename(it): sum(1 for _ in open(it))
            for it in glob.glob(f"{DCOM}/oaut_dcom/*.py")
        }
        with open(f"{ROOT}/docs/guide/dcom.md") as file:
            text = file.read()
        counted = set()
        for names, count in re.findall(r"(?m)^\| ((?:`\w+`(?:, )?)+) \|.*\| ([\d,]+) \|$", text):
            names = [f"{it}.py" for it in re.findall(r"`(\w+)`", names)]
            self.tell(
                f"the lines of {', '.join(names)}",
                int(count.replace(",", "")) == sum(lines[it] for it in names),
                sum(lines[it] for it in names),
            )
            counted.update(names)
        self.tell(
            "all modules",
            counted | {"__init__.py", "__main__.py"} == set(lines),
            set(lines) - counted,
        )


if __name__ == "__main__":
    unittest.main()
