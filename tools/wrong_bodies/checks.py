"""The prover's checks of copies of a crate, and what is kept between them."""
import os
import re
import shutil
import subprocess

from .sources import functions_of

# Keeps the prover from printing help for a function's open goals, which would need a second run of
# their searches: a proof step that it refuses at once.
SILENT = "\n-- (no help is wanted for what is open)\nno-help : not-said\nno-help = not-said\n"


def copy(kept, to):
    """Copies what checks kept. The prover replaces files and writes into none, so links are enough
    if both are on one disk."""
    if subprocess.run(["cp", "-al", kept, to], stderr=subprocess.DEVNULL).returncode:
        shutil.rmtree(to, ignore_errors=True)
        subprocess.run(["cp", "-a", kept, to], check=True)


class Checks:
    """The checks of one crate's copies, in a folder."""

    def __init__(self, rtlib, crate, sources, room):
        self.rtlib, self.crate, self.sources, self.room = rtlib, crate, sources, room
        self.kept, self.first = f"{room}/kept", f"{room}/first"
        self.count, self.has_first = 0, False
        os.makedirs(self.kept)
        work = f"{crate.folder}/out/incremental"
        if os.path.isdir(work):
            held = rtlib.lock([crate])
            copy(work, self.first)
            for it in held:
                os.close(it)
            self.has_first = True

    def cut(self, folder, texts, spared):
        """Takes the bodies and proofs of all functions but these, by their files and paths, out of
        the copy.

        Its place has a body that never ends, with an empty file as its proof, which is refused at
        once. Its callers are proved by its contract all the same, and can be distinguished from
        those that fall by themselves. The rest of the crate need not be proved again. If a cycle of
        calls has its proof, all functions of the module stay."""
        for path in {path for path, _ in self.sources.functions}:
            text = texts.get(path) or self.sources.text(path)
            for it in reversed(functions_of(path, text, self.sources.homes)):
                *above, name = it.path.split("::")
                above = "/".join([f"{folder}/proofs", *above])
                has_cycle = os.path.isdir(above) and any(
                    other.startswith("+") for other in os.listdir(above)
                )
                if (path, it.path) in spared or has_cycle or not it.has_body_apart():
                    continue
                text = text[: it.start] + it.without_body() + text[it.end :]
                os.makedirs(f"{above}/{name}", exist_ok=True)
                for file in os.scandir(f"{above}/{name}"):
                    if file.is_file():
                        os.remove(file.path)
                open(f"{above}/{name}/Proof.antt", "w", encoding="utf-8").close()
            with open(f"{folder}/{path}", "w", encoding="utf-8") as file:
                file.write(text)

    def copy_proofs(self, folder, function, twin):
        """Gives a twin the proof of its function, in which the twin's own modules are named."""
        old, new = (f"{folder}/proofs/{it.path.replace('::', '/')}" for it in (function, twin))
        own = re.compile(
            rf"(?<=Rattle\.{self.crate.name}\.proofs\.)"
            rf"{re.escape(function.path.replace('::', '.'))}\b"
        )
        for name in os.listdir(old) if os.path.isdir(old) else []:
            os.makedirs(new, exist_ok=True)
            with open(f"{old}/{name}", encoding="utf-8") as it, open(
                f"{new}/{name}", "w", encoding="utf-8"
            ) as made:
                made.write(own.sub(twin.path.replace("::", "."), it.read()))

    def silence(self, folder, function):
        """Adds the answer that spares the help for a function's open goals, if its proof consists
        of answers. Its own goals are searched as before."""
        *outer, name = function.path.split("::")
        outer = "/".join([f"{folder}/proofs", *outer])
        if os.path.isfile(f"{outer}/{name}/Proof.antt") or os.path.isdir(f"{outer}/+{name}"):
            return
        os.makedirs(f"{outer}/{name}", exist_ok=True)
        with open(f"{outer}/{name}/Answers.antt", "a", encoding="utf-8") as it:
            it.write(SILENT)

    def check(self, texts, only, spared=None, twins=(), silent=()):
        """Checks a copy of the crate with these texts, and returns the exit status and the output.
        `twins` are pairs of a function and its twin. If `spared` is given, no other function keeps
        its body; of the silent ones no help is printed."""
        folder = self.make(texts, twins)
        if spared is not None:
            self.cut(folder, texts, spared)
            for function in silent:
                self.silence(folder, function)
        return self.run(folder, only)

    def compile(self, texts, twins=()):
        """Returns the exit status and what was said of such a copy before any proof: the status is
        0 if all compiles."""
        return self.run(self.make(texts, twins), [""])

    def make(self, texts, twins):
        """Makes the copy."""
        folder = f"{self.room}/crate"
        shutil.rmtree(folder, ignore_errors=True)
        for part in self.rtlib.PARTS:
            if os.path.isdir(f"{self.crate.folder}/{part}"):
                shutil.copytree(f"{self.crate.folder}/{part}", f"{folder}/{part}")
        for path, text in texts.items():
            with open(f"{folder}/{path}", "w", encoding="utf-8") as it:
                it.write(text)
        for function, twin in twins:
            self.copy_proofs(folder, function, twin)
        return folder

    def run(self, folder, only):
        self.count += 1
        if self.has_first:
            shutil.rmtree(self.kept)
            copy(self.first, self.kept)
        words = [
            self.rtlib.RATTLE,
            "check",
            *self.crate.words(["--jobs", "1"], keeps=False),
            "--incremental",
            self.kept,
        ]
        words += [it for name in only for it in ("--only", name)]
        how = {
            "cwd": folder,
            "stdin": subprocess.DEVNULL,
            "stdout": subprocess.PIPE,
            "stderr": subprocess.STDOUT,
        }
        ran = subprocess.run([*self.rtlib.guarded(), *words], errors="replace", **how)
        return ran.returncode, ran.stdout
